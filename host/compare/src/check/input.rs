//! One input for a reader or a writer of sheets or attributes: in buffers of several lengths, and back again.

use super::functions::{back_again, see, Fault, ReadAttribute, ReadSheet, WriteAttribute, WriteSheet};
use super::{against_the_table, Check, Tally};
use crate::branches::{AttributeRead, AttributeWrite, Counts, Seen, SheetRead, SheetWrite, Table, LONGEST_SHEET};
use crate::buffers::{Buffers, Element};
use crate::difference::{self, Checked, Difference};
use plans::{Generated, Input, Operands, VALUES};

/// The four, by their names in the C interface.
pub const FUNCTIONS: [&str; 4] = ["read_sheet", "write_sheet", "read_attribute", "write_attribute"];

/// How much of a long list of numbers or bytes is printed.
const FRONT: usize = 64;

/// Checks inputs one after the other.
pub struct InputChecker<'a> {
    table: &'a Table,
    counts: Counts,
    /// For each of the four, in the order of `FUNCTIONS`.
    pub tallies: [Tally; 4],
    places: Buffers<u64>,
    bytes: Buffers<u8>,
}

impl Check for InputChecker<'_> {
    fn check(&mut self, seed: u64) -> Checked<()> {
        let runs_before = self.runs();
        let input = plans::input(seed);
        let function = function(&input);
        let checked = match input {
            Input::ReadSheet(generated) => self.read_sheet(seed, generated),
            Input::WriteSheet(values) => self.write_sheet(seed, values),
            Input::ReadAttribute(attribute) => self.read_attribute(seed, attribute),
            Input::WriteAttribute(operands) => self.write_attribute(seed, operands),
        };
        self.tallies[function].add(self.runs() - runs_before);
        checked.map_err(|Fault { what, more }| {
            let what = format!("{}: {what}", FUNCTIONS[function]);
            Box::new(Difference { seed, what, given: given(&plans::input(seed)), more })
        })
    }

    fn counts(&self) -> &Counts {
        &self.counts
    }

    fn runs(&self) -> u64 {
        self.places.runs() + self.bytes.runs()
    }
}

// What one of the four writes is taken back by its counterpart, and the rows of the table are held against both.
impl<'a> InputChecker<'a> {
    /// A checker that has checked nothing yet.
    pub fn new(table: &'a Table) -> InputChecker<'a> {
        InputChecker {
            table,
            counts: table.counts(),
            tallies: [Tally::default(); 4],
            places: Buffers::of_places(2 * VALUES),
            bytes: Buffers::of_bytes(2 * LONGEST_SHEET),
        }
    }

    fn read_sheet(&mut self, seed: u64, generated: Generated) -> Result<(), Fault> {
        let seen = see(&ReadSheet(&generated.text), &mut self.places, seed)?;
        let again = match &seen.written[..] {
            [] => None,
            values => Some(back_again(&WriteSheet(values), &mut self.bytes)?),
        };
        let read = SheetRead::new(generated, seen, again);
        self.table.meet_sheet_read(&read, &mut self.counts).map_err(|row| unexpected(row, &read.seen))
    }

    fn write_sheet(&mut self, seed: u64, values: Vec<u64>) -> Result<(), Fault> {
        let seen = see(&WriteSheet(&values), &mut self.bytes, seed)?;
        let again = match &seen.written[..] {
            [] => None,
            sheet => Some(back_again(&ReadSheet(sheet), &mut self.places)?),
        };
        let write = SheetWrite::new(values, seen, again);
        self.table.meet_sheet_write(&write, &mut self.counts).map_err(|row| unexpected(row, &write.seen))
    }

    fn read_attribute(&mut self, seed: u64, attribute: Vec<u8>) -> Result<(), Fault> {
        let seen = see(&ReadAttribute(&attribute), &mut self.places, seed)?;
        let again = match seen.written[..] {
            [1, permitted, inheritable, effective] => {
                Some(back_again(&WriteAttribute(Operands { permitted, inheritable, effective }), &mut self.bytes)?)
            }
            // None attached has no written form.
            _ => None,
        };
        let read = AttributeRead::new(attribute, seen, again);
        self.table.meet_attribute_read(&read, &mut self.counts).map_err(|row| unexpected(row, &read.seen))
    }

    fn write_attribute(&mut self, seed: u64, operands: Operands) -> Result<(), Fault> {
        let seen = see(&WriteAttribute(operands), &mut self.bytes, seed)?;
        let again = match &seen.written[..] {
            [] => None,
            attribute => Some(back_again(&ReadAttribute(attribute), &mut self.places)?),
        };
        let write = AttributeWrite::new(operands, seen, again);
        self.table.meet_attribute_write(&write, &mut self.counts).map_err(|row| unexpected(row, &write.seen))
    }
}

// Which of the four an input is for, by its place in `FUNCTIONS`.
fn function(input: &Input) -> usize {
    match input {
        Input::ReadSheet(_) => 0,
        Input::WriteSheet(_) => 1,
        Input::ReadAttribute(_) => 2,
        Input::WriteAttribute(_) => 3,
    }
}

// An input, to be read by people.
fn given(input: &Input) -> String {
    match input {
        Input::ReadSheet(generated) => difference::text("the text", &generated.text),
        Input::WriteSheet(values) => {
            let front = &values[..values.len().min(FRONT)];
            format!("{} numbers\n{front:?}", values.len())
        }
        Input::ReadAttribute(attribute) => {
            let digits: String = attribute.iter().take(FRONT).map(|byte| format!("{byte:02x}")).collect();
            format!("the attribute, {} bytes\n{digits}", attribute.len())
        }
        Input::WriteAttribute(Operands { permitted, inheritable, effective }) => {
            format!("the numbers\npermitted {permitted:016x}, inheritable {inheritable:016x}, effective {effective}")
        }
    }
}

fn unexpected<T: Element>(row: &str, seen: &Seen<T>) -> Fault {
    Fault { what: against_the_table(row), more: seen.told() }
}

#[cfg(test)]
mod tests {
    use super::*;

    #[test]
    fn the_first_inputs_agree() {
        let table = Table::new();
        let mut checker = InputChecker::new(&table);
        for seed in 0..400 {
            if let Err(difference) = checker.check(seed) {
                panic!("{}", difference.message());
            }
        }
        assert!(checker.tallies.iter().all(|tally| tally.inputs > 30 && tally.runs >= 5 * tally.inputs));
        assert_eq!(checker.tallies.iter().map(|tally| tally.inputs).sum::<u64>(), 400);
        assert_eq!(checker.tallies.iter().map(|tally| tally.runs).sum::<u64>(), checker.runs());
        assert!(table.counted(&checker.counts).iter().filter(|(_, count)| *count > 0).count() > 165);
    }

    #[test]
    fn an_input_is_told_whole() {
        assert_eq!(given(&Input::WriteSheet(vec![7, u64::MAX])), "2 numbers\n[7, 18446744073709551615]");
        assert_eq!(given(&Input::ReadAttribute(vec![1, 0xff])), "the attribute, 2 bytes\n01ff");
        let operands = Operands { permitted: 1 << 41, inheritable: 0, effective: 2 };
        let expected = "the numbers\npermitted 0000020000000000, inheritable 0000000000000000, effective 2";
        assert_eq!(given(&Input::WriteAttribute(operands)), expected);
    }
}
