//! The sheet reader: 70, 72, 28 in that order, or the fifteen values of a sheet.

use super::seen::{Seen, NO_ROOM};
use super::sheet::{self, Reading, Values, IDS, KEYS, LINE_PAST_THE_SHEET, USERS};
use super::texts::described;
use super::validity::{self, is_valid};
use super::Row;
use plans::{Fault, Generated, Kind};
use std::ops::Range;

const GROUPS: usize = IDS.len() - USERS;

/// A text, and what came back for it.
pub struct SheetRead {
    generated: Generated,
    reading: Reading,
    /// What came back in each buffer.
    pub seen: Seen<u64>,
    // What was written again from the values that were read.
    again: Option<Vec<u8>>,
}

impl SheetRead {
    /// The text, what came back in each buffer, and what was written again if it was read.
    pub fn new(generated: Generated, seen: Seen<u64>, again: Option<Vec<u8>>) -> SheetRead {
        SheetRead { reading: sheet::read(&generated.text), generated, seen, again }
    }

    fn is_malformed_at(&self, line: u32) -> bool {
        self.reading == Reading::Malformed { line }
    }

    /// Whether it is malformed and its first so many lines are not.
    fn is_malformed_past(&self, lines: usize) -> bool {
        matches!(self.reading, Reading::Malformed { line } if line as usize > lines)
    }

    fn is_malformed(&self) -> bool {
        matches!(self.reading, Reading::Malformed { .. })
    }

    /// The values of a sheet that is valid.
    fn valid(&self) -> Option<&Values> {
        self.values().filter(|values| is_valid(values))
    }

    /// The values of a sheet that is not valid.
    fn invalid(&self) -> Option<&Values> {
        self.values().filter(|values| !is_valid(values))
    }

    fn values(&self) -> Option<&Values> {
        match &self.reading {
            Reading::Malformed { .. } => None,
            Reading::Sheet(values) => Some(values),
        }
    }

    fn fault(&self) -> Option<Fault> {
        match self.generated.kind {
            Kind::Broken { fault, .. } => Some(fault),
            _ => None,
        }
    }

    /// Whether a byte was changed, added or lost anywhere, which need not break a sheet.
    fn is_changed_blindly(&self) -> bool {
        use Fault::*;
        matches!(self.fault(), Some(ByteChanged | ByteInserted | ByteDeleted | BytesChanged))
    }

    /// Whether it was made from credentials that are not valid.
    fn is_flawed(&self) -> bool {
        matches!(self.generated.kind, Kind::Flawed(_) | Kind::Broken { valid: false, .. })
    }

    /// Whether one of the lines at those places ends as that of an ID of 4294967295.
    fn has_no_id(&self, places: Range<usize>) -> bool {
        let mut lines = self.generated.text.split(|byte| *byte == b'\n').skip(places.start).take(places.len());
        lines.any(|line| line.ends_with(b"id=4294967295"))
    }

    fn has_steps(&self) -> bool {
        matches!(&self.generated.kind, Kind::Runs(plan) | Kind::Flawed(plan) if !plan.steps.is_empty())
    }

    /// Whether what came back is what the text says, and the fault is where it was put.
    fn is_as_read(&self) -> bool {
        let is_where_put = match self.generated.kind {
            Kind::Broken { line: Some(line), .. } => self.is_malformed_at(line),
            _ => true,
        };
        let came_back = match &self.reading {
            Reading::Malformed { line } => self.seen.is_refused(70, *line),
            Reading::Sheet(values) if is_valid(values) => self.seen.is_done(values),
            Reading::Sheet(_) => self.seen.is_refused(72, 0),
        };
        is_where_put && came_back
    }
}

fn row(
    name: impl std::fmt::Display,
    when: impl Fn(&SheetRead) -> bool + Send + Sync + 'static,
    then: impl Fn(&SheetRead) -> bool + Send + Sync + 'static,
) -> Row<SheetRead> {
    Row::new(format!("read_sheet, {name}"), when, then)
}

/// The rows of the sheet reader.
pub fn rows() -> Vec<Row<SheetRead>> {
    let mut rows = Vec::new();
    rows.extend(rows_of_lines());
    rows.extend(rows_past_the_sheet());
    rows.extend(rows_of_faults());
    rows.extend(rows_of_orders());
    rows.extend(rows_of_invalid_sheets());
    rows.extend(rows_of_sheets());
    rows
}

fn rows_of_lines() -> Vec<Row<SheetRead>> {
    let mut rows = Vec::new();
    for (key, line) in KEYS.into_iter().zip(1..) {
        let is_refused = move |s: &SheetRead| s.seen.is_refused(70, line);
        let is_cut = move |s: &SheetRead, how: Fault| s.is_malformed_at(line) && s.fault() == Some(how);
        rows.push(row(format!("70: line {line}, {key}"), move |s| s.is_malformed_at(line), is_refused));
        rows.push(row(
            format!("70: the text ends in line {line}, {key}"),
            move |s| is_cut(s, Fault::CutInLine),
            is_refused,
        ));
        rows.push(row(
            format!("70: the text ends before line {line}, {key}"),
            move |s| is_cut(s, Fault::CutBetweenLines),
            is_refused,
        ));
    }
    rows.push(row("70: empty text, line 1", |s| s.generated.text.is_empty(), |s| s.seen.is_refused(70, 1)));
    rows
}

fn rows_past_the_sheet() -> Vec<Row<SheetRead>> {
    let past = |name: &str, when: fn(&SheetRead) -> bool| {
        row(format!("70: line 16, {name}"), when, |s| s.seen.is_refused(70, LINE_PAST_THE_SHEET))
    };
    vec![
        past("text past the sheet", |s| s.is_malformed_at(LINE_PAST_THE_SHEET)),
        past("the steps of a plan", SheetRead::has_steps),
        past("another sheet", |s| {
            let (front, end) = s.generated.text.split_at(s.generated.text.len() / 2);
            front == end && matches!(sheet::read(front), Reading::Sheet(_))
        }),
        past("a newline", |s| s.fault() == Some(Fault::Appended) && s.generated.text.ends_with(b"\n\n")),
        past("a zero byte", |s| s.fault() == Some(Fault::Appended) && s.generated.text.ends_with(b"\0")),
        past("noise", |s| s.fault() == Some(Fault::SheetThenNoise) && s.is_malformed()),
    ]
}

fn rows_of_faults() -> Vec<Row<SheetRead>> {
    let mut rows = Vec::new();
    for fault in Fault::ALL.into_iter().filter(|fault| fault.is_in_sheets()) {
        let has_it = move |s: &SheetRead| s.fault() == Some(fault);
        rows.push(row(format!("70: {}", described(fault)), has_it, SheetRead::is_as_read));
    }
    rows.push(row(
        "70: more than 50,000 bytes",
        |s| s.generated.text.len() > 50_000,
        |s| s.is_malformed() && s.is_as_read(),
    ));
    rows
}

fn rows_of_orders() -> Vec<Row<SheetRead>> {
    vec![
        row(
            "70 comes before 72: in a sheet that was not valid",
            |s| s.is_flawed() && s.is_malformed() && !s.is_malformed_at(LINE_PAST_THE_SHEET),
            SheetRead::is_as_read,
        ),
        row(
            "70 comes before 72: past a sheet that is not valid",
            |s| s.is_flawed() && s.is_malformed_at(LINE_PAST_THE_SHEET),
            |s| s.seen.is_refused(70, LINE_PAST_THE_SHEET),
        ),
        row(
            "70 comes before 72: past a user ID of 4294967295",
            |s| s.has_no_id(0..USERS) && s.is_malformed_past(USERS),
            SheetRead::is_as_read,
        ),
        row(
            "70 comes before 72: past a group ID of 4294967295",
            |s| s.has_no_id(USERS..IDS.len()) && s.is_malformed_past(IDS.len()),
            SheetRead::is_as_read,
        ),
        row("70 comes before 28", SheetRead::is_malformed, SheetRead::is_as_read),
        row("72 comes before 28", |s| s.invalid().is_some(), |s| s.seen.is_refused(72, 0)),
    ]
}

fn rows_of_invalid_sheets() -> Vec<Row<SheetRead>> {
    let mut rows = Vec::new();
    for kind in validity::kinds() {
        let applies = move |s: &SheetRead| s.invalid().is_some_and(&kind.holds);
        rows.push(row(format!("72: {}", kind.name), applies, |s| s.seen.is_refused(72, 0)));
    }
    rows.push(row(
        "72: a sheet still, after a byte changed, was added or lost",
        |s| s.is_changed_blindly() && s.invalid().is_some(),
        |s| s.seen.is_refused(72, 0),
    ));
    rows
}

fn rows_of_sheets() -> Vec<Row<SheetRead>> {
    let is_valid = |s: &SheetRead| s.valid().is_some();
    let is_read = |s: &SheetRead| s.valid().is_some_and(|values| s.seen.is_done(values));
    let mut rows = vec![
        row("28: no place", is_valid, |s| s.seen.no_room == NO_ROOM),
        row("28: fourteen places", is_valid, |s| s.seen.one_short == NO_ROOM),
        row(
            "28: eleven places, as many as without group IDs",
            move |s| is_valid(s) && s.seen.some.0 == KEYS.len() - GROUPS,
            |s| s.seen.some.1 == NO_ROOM,
        ),
        row("0: fifteen places", is_valid, |s| s.seen.exact.written() == KEYS.len()),
        row("0: more places", is_valid, |s| s.seen.roomy.written() == KEYS.len()),
        row("0: written again, it is the text", is_valid, |s| s.again.as_ref() == Some(&s.generated.text)),
        row(
            "0: a sheet still, after a byte changed, was added or lost",
            move |s| s.is_changed_blindly() && is_valid(s),
            is_read,
        ),
    ];
    for kind in sheet::kinds() {
        rows.push(row(format!("0: {}", kind.name), move |s| s.valid().is_some_and(&kind.holds), is_read));
    }
    rows
}
