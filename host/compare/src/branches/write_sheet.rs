//! The sheet writer: 72, then 28, or the sheet of fifteen values.

use super::seen::{Answer, Seen, NO_ROOM};
use super::sheet::{self, Values, IDS, KEYS, NNP, SECUREBITS, USERS};
use super::validity::{self, is_valid, LARGEST_ID};
use super::Row;

/// Numbers, and what came back for them.
pub struct SheetWrite {
    values: Vec<u64>,
    // The sheet of the values, if they have one.
    sheet: Option<Vec<u8>>,
    /// What came back in each buffer.
    pub seen: Seen<u8>,
    // What was read again from the sheet that was written.
    again: Option<Vec<u64>>,
}

impl SheetWrite {
    /// The numbers, what came back in each buffer, and what was read again if a sheet was written.
    pub fn new(values: Vec<u64>, seen: Seen<u8>, again: Option<Vec<u64>>) -> SheetWrite {
        let sheet = fifteen(&values).filter(|values| is_a_sheets(values)).map(sheet::text);
        SheetWrite { values, sheet, seen, again }
    }

    /// The numbers where there are fifteen.
    fn fifteen(&self) -> Option<&Values> {
        fifteen(&self.values)
    }

    /// The numbers with four group IDs put among them, where that makes fifteen.
    fn with_groups(&self) -> Option<Values> {
        let (users, rest) = self.values.split_at_checked(USERS)?;
        [users, &[0; IDS.len() - USERS], rest].concat().try_into().ok()
    }

    fn has_sheet(&self) -> bool {
        self.sheet.is_some()
    }

    /// Whether the sheet of the values is written.
    fn is_written(&self) -> bool {
        self.sheet.as_ref().is_some_and(|sheet| self.seen.is_done(sheet))
    }

    /// Whether the numbers would be those of a sheet, but for the one at that place, of which this is true.
    fn is_only_wrong_at(&self, place: usize, is_so: impl Fn(u64) -> bool) -> bool {
        let Some(values) = self.fifteen() else { return false };
        let mut others = *values;
        others[place] = 0;
        is_a_sheets(&others) && is_so(values[place])
    }

    fn is_invalid(&self) -> bool {
        self.seen.is_refused(72, 0)
    }
}

fn fifteen(values: &[u64]) -> Option<&Values> {
    values.try_into().ok()
}

// Whether the values are those of a sheet: the last is 0 or 1, and the credentials that they make are valid.
fn is_a_sheets(values: &Values) -> bool {
    values[NNP] <= 1 && is_valid(values)
}

fn row(
    name: impl std::fmt::Display,
    when: impl Fn(&SheetWrite) -> bool + Send + Sync + 'static,
    then: impl Fn(&SheetWrite) -> bool + Send + Sync + 'static,
) -> Row<SheetWrite> {
    Row::new(format!("write_sheet, {name}"), when, then)
}

/// The rows of the sheet writer.
pub fn rows() -> Vec<Row<SheetWrite>> {
    let mut rows = Vec::new();
    rows.extend(rows_of_counts());
    rows.extend(rows_of_flaws());
    rows.extend(rows_of_numbers_out_of_range());
    rows.extend(rows_of_sheets());
    rows
}

fn rows_of_counts() -> Vec<Row<SheetWrite>> {
    let mut rows = Vec::new();
    for count in (0..=17).filter(|count| *count != KEYS.len()) {
        let has_so_many = move |s: &SheetWrite| s.values.len() == count;
        rows.push(row(format!("72: {count} numbers"), has_so_many, SheetWrite::is_invalid));
    }
    rows.push(row("72: more than 17 numbers", |s| s.values.len() > 17, SheetWrite::is_invalid));
    rows.push(row(
        "72: a sheet's numbers but for the group IDs",
        |s| s.with_groups().as_ref().is_some_and(is_a_sheets),
        SheetWrite::is_invalid,
    ));
    rows.push(row(
        "72: a sheet's numbers and more behind them",
        |s| s.fifteen().is_none() && s.values.first_chunk().is_some_and(is_a_sheets),
        SheetWrite::is_invalid,
    ));
    rows
}

fn rows_of_flaws() -> Vec<Row<SheetWrite>> {
    let mut rows = Vec::new();
    for kind in validity::kinds() {
        let applies = move |s: &SheetWrite| s.fifteen().is_some_and(|values| values[NNP] <= 1 && (kind.holds)(values));
        rows.push(row(format!("72: {}", kind.name), applies, SheetWrite::is_invalid));
    }
    rows.push(row("72 comes before 28", |s| !s.has_sheet(), SheetWrite::is_invalid));
    rows
}

fn rows_of_numbers_out_of_range() -> Vec<Row<SheetWrite>> {
    let wrong = |place: usize, how: &str, is_so: fn(u64) -> bool| {
        let name = format!("72: {} {how}", KEYS[place]);
        row(name, move |s| s.is_only_wrong_at(place, is_so), SheetWrite::is_invalid)
    };
    let mut rows = Vec::new();
    for place in IDS {
        rows.push(wrong(place, "4294967295", |id| id == 4_294_967_295));
        rows.push(wrong(place, "4294967296", |id| id == 4_294_967_296));
        rows.push(wrong(place, "above 4294967296, right in its low 32 bits", |id| {
            id > 1 << 32 && id & 0xffff_ffff <= LARGEST_ID
        }));
        rows.push(wrong(place, "18446744073709551615", |id| id == u64::MAX));
    }
    rows.push(wrong(SECUREBITS, "256", |bits| bits == 256));
    rows.push(wrong(SECUREBITS, "above 256", |bits| bits > 256));
    rows.push(wrong(NNP, "2", |nnp| nnp == 2));
    rows.push(wrong(NNP, "odd", |nnp| nnp > 2 && nnp & 1 == 1));
    rows.push(wrong(NNP, "right in its low 8 bits", |nnp| nnp > 2 && nnp & 0xff <= 1));
    rows.push(wrong(NNP, "right in its low 32 bits", |nnp| nnp > 2 && nnp & 0xffff_ffff <= 1));
    rows
}

fn rows_of_sheets() -> Vec<Row<SheetWrite>> {
    let is_whole = |s: &SheetWrite, answer: Answer| s.sheet.as_ref().map(Vec::len) == Some(answer.written());
    let mut rows = vec![
        row("28: no room", SheetWrite::has_sheet, |s| s.seen.no_room == NO_ROOM),
        row("28: one byte short", SheetWrite::has_sheet, |s| s.seen.one_short == NO_ROOM),
        row("0: just enough room", SheetWrite::has_sheet, move |s| is_whole(s, s.seen.exact)),
        row("0: more room", SheetWrite::has_sheet, move |s| is_whole(s, s.seen.roomy)),
        row("0: read again, it is the numbers", SheetWrite::has_sheet, |s| s.again.as_ref() == Some(&s.values)),
    ];
    for kind in sheet::kinds() {
        let is_of_it = move |s: &SheetWrite| s.has_sheet() && s.fifteen().is_some_and(&kind.holds);
        rows.push(row(format!("0: {}", kind.name), is_of_it, SheetWrite::is_written));
    }
    rows
}
