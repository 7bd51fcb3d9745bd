//! The table of branches: every clause of the paper's rules, as a row that says when it applies and what then comes back.
//!
//! When a row applies is told from what was given alone (for a call: from the credentials before it and the call), so that a row does not echo
//! the answer. What comes back is then held against the row. A run of enough plans that never meets a row fails: its plans are too tame.
//!
//! The rows of the calls stand in files by the paper's sections; those of texts, and of the readers and writers of sheets, attributes and names,
//! of status texts and of slot plans, in files of their own. They were written from the paper, as a third reading of it.

mod ambient;
mod attribute;
mod bounding;
mod capset;
mod causes;
mod compare_status;
mod family;
mod fixups;
mod group_ids;
mod ids;
mod launching;
mod moment;
mod names;
mod operands;
mod read_attribute;
mod read_names;
mod read_sheet;
mod securebits;
mod seen;
mod sheet;
mod slots;
mod status;
mod texts;
mod validity;
mod write_attribute;
mod write_names;
mod write_sheet;

pub use compare_status::Laid;
pub use moment::Moment;
pub use names::LONGEST as LONGEST_NAMES;
pub use read_attribute::AttributeRead;
pub use read_names::{Again, NamesRead};
pub use read_sheet::SheetRead;
pub use seen::{Answer, Seen};
pub use sheet::LONGEST as LONGEST_SHEET;
pub use slots::{Before, End, Past, SlotMoment, SlotSight, LONGEST as LONGEST_SLOT_REPORT};
pub use status::LONGEST as LONGEST_LIST;
pub use texts::Sight;
pub use write_attribute::AttributeWrite;
pub use write_names::NamesWrite;
pub use write_sheet::SheetWrite;

use family::Family;
use operands::CALLS;

/// A clause: its name, when it applies, and what has to be true then.
pub struct Row<M> {
    /// The section of the paper and the clause.
    pub name: String,
    when: Test<M>,
    then: Test<M>,
}

type Test<M> = Box<dyn Fn(&M) -> bool + Send + Sync>;

impl<M> Row<M> {
    fn new(
        name: impl Into<String>,
        when: impl Fn(&M) -> bool + Send + Sync + 'static,
        then: impl Fn(&M) -> bool + Send + Sync + 'static,
    ) -> Row<M> {
        Row { name: name.into(), when: Box::new(when), then: Box::new(then) }
    }
}

/// All rows.
pub struct Table {
    calls: Group<Moment>,
    // For each number of a call, which of its rows may apply.
    of_call: Vec<Vec<usize>>,
    texts: Group<Sight>,
    sheets_read: Group<SheetRead>,
    sheets_written: Group<SheetWrite>,
    attributes_read: Group<AttributeRead>,
    attributes_written: Group<AttributeWrite>,
    names_malformed: Group<read_names::Malformed>,
    names_read: Group<read_names::WellFormed>,
    names_written: Group<NamesWrite>,
    status_malformed: Group<Laid>,
    status_read: Group<Laid>,
    slots: slots::Rows,
}

// Rows that look at the same, and where the first has its count.
struct Group<M> {
    first: usize,
    rows: Vec<Row<M>>,
}

/// How often each row of a table applied.
#[derive(Clone)]
pub struct Counts(Vec<u64>);

impl Table {
    /// The table.
    pub fn new() -> Table {
        let mut calls = Calls { rows: Vec::new(), of_call: vec![Vec::new(); 256] };
        calls.add(&[1], launching::rows());
        calls.add(&[1], attribute::rows());
        calls.add(&[2], capset::rows());
        calls.add(&[3, 4], bounding::rows());
        calls.add(&[5, 6, 7, 8], ambient::rows());
        calls.add(&[9, 10, 11, 12, 13, 14], securebits::rows());
        calls.add(&Family::Users.calls(), ids::rows(Family::Users));
        calls.add(&Family::Users.calls(), fixups::rows());
        calls.add(&Family::Groups.calls(), ids::rows(Family::Groups));
        calls.add(&Family::Groups.calls(), group_ids::rows());
        for call in 1..=CALLS {
            calls.add(&[call], causes::rows(call));
            calls.add(&[call], operands::rows_of_call(call));
        }
        calls.add(&[1], operands::rows_of_owner_and_group());
        let no_calls: Vec<u8> = (0..=99).filter(|number| !(1..=CALLS).contains(number)).collect();
        calls.add(&no_calls, operands::rows_of_no_call());
        let of_call = calls.of_call;
        let calls = Group { first: 0, rows: calls.rows };
        let texts = calls.followed_by(texts::rows());
        let sheets_read = texts.followed_by(read_sheet::rows());
        let sheets_written = sheets_read.followed_by(write_sheet::rows());
        let attributes_read = sheets_written.followed_by(read_attribute::rows());
        let attributes_written = attributes_read.followed_by(write_attribute::rows());
        let names_malformed = attributes_written.followed_by(read_names::rows_of_malformed_texts());
        let names_read = names_malformed.followed_by(read_names::rows_of_well_formed_texts());
        let names_written = names_read.followed_by(write_names::rows());
        let status_malformed = names_written.followed_by(compare_status::rows_of_malformed_texts());
        let status_read = status_malformed.followed_by(compare_status::rows_of_well_formed_texts());
        let slots = slots::Rows::after(&status_read);
        Table {
            calls,
            of_call,
            texts,
            sheets_read,
            sheets_written,
            attributes_read,
            attributes_written,
            names_malformed,
            names_read,
            names_written,
            status_malformed,
            status_read,
            slots,
        }
    }

    /// Counts of nothing yet.
    pub fn counts(&self) -> Counts {
        Counts(vec![0; self.slots.end()])
    }

    /// Counts the rows that apply to a call. Gives the name of a row whose demand is not met.
    pub fn meet_call(&self, moment: &Moment, counts: &mut Counts) -> Result<(), &str> {
        for index in &self.of_call[usize::from(moment.step.call)] {
            meet(&self.calls.rows[*index], moment, &mut counts.0[*index])?;
        }
        Ok(())
    }

    /// The same for the text of a plan.
    pub fn meet_text(&self, sight: &Sight, counts: &mut Counts) -> Result<(), &str> {
        self.texts.meet(sight, counts)
    }

    /// The same for a text that the sheet reader was given.
    pub fn meet_sheet_read(&self, read: &SheetRead, counts: &mut Counts) -> Result<(), &str> {
        self.sheets_read.meet(read, counts)
    }

    /// The same for numbers that the sheet writer was given.
    pub fn meet_sheet_write(&self, write: &SheetWrite, counts: &mut Counts) -> Result<(), &str> {
        self.sheets_written.meet(write, counts)
    }

    /// The same for bytes that the attribute reader was given.
    pub fn meet_attribute_read(&self, read: &AttributeRead, counts: &mut Counts) -> Result<(), &str> {
        self.attributes_read.meet(read, counts)
    }

    /// The same for numbers that the attribute writer was given.
    pub fn meet_attribute_write(&self, write: &AttributeWrite, counts: &mut Counts) -> Result<(), &str> {
        self.attributes_written.meet(write, counts)
    }

    /// The same for a text in names.
    pub fn meet_names_read(&self, read: &NamesRead, counts: &mut Counts) -> Result<(), &str> {
        match read {
            NamesRead::Malformed(read) => self.names_malformed.meet(read, counts),
            NamesRead::WellFormed(read) => self.names_read.meet(read, counts),
        }
    }

    /// The same for sets that were to be written in names.
    pub fn meet_names_write(&self, write: &NamesWrite, counts: &mut Counts) -> Result<(), &str> {
        self.names_written.meet(write, counts)
    }

    /// The same for a status text beside a sheet.
    pub fn meet_status(&self, laid: &Laid, counts: &mut Counts) -> Result<(), &str> {
        let group = if laid.is_malformed() { &self.status_malformed } else { &self.status_read };
        group.meet(laid, counts)
    }

    /// The same for a step of a slot plan.
    pub fn meet_slot_step(&self, moment: &SlotMoment, counts: &mut Counts) -> Result<(), &str> {
        self.slots.meet_step(moment, counts)
    }

    /// The same for the text of a slot plan.
    pub fn meet_slot_text(&self, sight: &SlotSight, counts: &mut Counts) -> Result<(), &str> {
        self.slots.meet_text(sight, counts)
    }

    /// Each row's name with its count.
    pub fn counted(&self, counts: &Counts) -> Vec<(&str, u64)> {
        let names = self.calls.names().chain(self.texts.names());
        let names = names.chain(self.sheets_read.names()).chain(self.sheets_written.names());
        let names = names.chain(self.attributes_read.names()).chain(self.attributes_written.names());
        let names = names.chain(self.names_malformed.names()).chain(self.names_read.names());
        let names = names.chain(self.names_written.names());
        let names = names.chain(self.status_malformed.names()).chain(self.status_read.names());
        let names = names.chain(self.slots.names());
        names.zip(counts.0.iter().copied()).collect()
    }
}

// The rows of calls, and which of them may apply to each.
struct Calls {
    rows: Vec<Row<Moment>>,
    of_call: Vec<Vec<usize>>,
}

impl Calls {
    fn add(&mut self, calls: &[u8], rows: Vec<Row<Moment>>) {
        let first = self.rows.len();
        for call in calls {
            self.of_call[usize::from(*call)].extend(first..first + rows.len());
        }
        self.rows.extend(rows);
    }
}

impl<M> Group<M> {
    // The group of those rows, its counts after this one's.
    fn followed_by<N>(&self, rows: Vec<Row<N>>) -> Group<N> {
        Group { first: self.end(), rows }
    }

    fn end(&self) -> usize {
        self.first + self.rows.len()
    }

    fn meet(&self, met: &M, counts: &mut Counts) -> Result<(), &str> {
        for (row, count) in self.rows.iter().zip(&mut counts.0[self.first..]) {
            meet(row, met, count)?;
        }
        Ok(())
    }

    fn names(&self) -> impl Iterator<Item = &str> {
        self.rows.iter().map(|row| row.name.as_str())
    }
}

fn meet<'a, M>(row: &'a Row<M>, met: &M, count: &mut u64) -> Result<(), &'a str> {
    if (row.when)(met) {
        *count += 1;
        if !(row.then)(met) {
            return Err(&row.name);
        }
    }
    Ok(())
}

impl Counts {
    /// Adds the counts of another run with the same table.
    pub fn add(&mut self, other: &Counts) {
        for (count, more) in self.0.iter_mut().zip(&other.0) {
            *count += more;
        }
    }
}

#[cfg(test)]
mod tests {
    use super::*;
    use std::collections::HashSet;

    #[test]
    fn no_two_rows_have_one_name() {
        let table = Table::new();
        let counts = table.counts();
        let rows = table.counted(&counts);
        let names: HashSet<&str> = rows.iter().map(|(name, _)| *name).collect();
        assert_eq!(names.len(), rows.len());
        assert_eq!(counts.0.len(), rows.len());
    }
}
