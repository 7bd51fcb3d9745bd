//! Status texts beside predicted sheets: each through both programs, in buffers of several lengths.

use super::functions::{see, CompareStatus, Fault};
use super::{against_the_table, Check, Tally};
use crate::branches::{Counts, Laid, Table, LONGEST_LIST};
use crate::buffers::Buffers;
use crate::difference::{self, Checked, Difference};
use plans::StatusInput;

/// How many status texts a seed has.
const TEXTS: u64 = 5;

/// Checks the status texts of one seed after the other.
pub struct StatusChecker<'a> {
    table: &'a Table,
    counts: Counts,
    /// How much was asked.
    pub tally: Tally,
    bytes: Buffers<u8>,
}

impl Check for StatusChecker<'_> {
    fn check(&mut self, seed: u64) -> Checked<()> {
        for number in 0..TEXTS {
            let own = seed.wrapping_mul(TEXTS).wrapping_add(number);
            let runs_before = self.runs();
            self.compare(own).map_err(|Fault { what, more }| {
                let what = format!("compare_status, text {}: {what}", number + 1);
                Box::new(Difference { seed, what, given: given(&plans::status_input(own)), more })
            })?;
            self.tally.add(self.runs() - runs_before);
        }
        Ok(())
    }

    fn counts(&self) -> &Counts {
        &self.counts
    }

    fn runs(&self) -> u64 {
        self.bytes.runs()
    }
}

impl<'a> StatusChecker<'a> {
    /// A checker that has checked nothing yet.
    pub fn new(table: &'a Table) -> StatusChecker<'a> {
        StatusChecker {
            table,
            counts: table.counts(),
            tally: Tally::default(),
            bytes: Buffers::of_bytes(2 * LONGEST_LIST),
        }
    }

    fn compare(&mut self, seed: u64) -> Result<(), Fault> {
        let input = plans::status_input(seed);
        let StatusInput { status, sheet, .. } = &input;
        let seen = see(&CompareStatus { status, sheet: &sheet.text }, &mut self.bytes, seed)?;
        let laid = Laid::new(input, seen);
        let met = self.table.meet_status(&laid, &mut self.counts);
        met.map_err(|row| Fault { what: against_the_table(row), more: laid.seen.told() })
    }
}

// A status text and a sheet, to be read by people.
fn given(StatusInput { status, sheet, .. }: &StatusInput) -> String {
    let status = difference::text("the status text", status);
    format!("{status}\n---- {}", difference::text("the sheet", &sheet.text))
}

#[cfg(test)]
mod tests {
    use super::*;

    #[test]
    fn the_first_status_texts_agree() {
        let table = Table::new();
        let mut checker = StatusChecker::new(&table);
        for seed in 0..400 {
            if let Err(difference) = checker.check(seed) {
                panic!("{}", difference.message());
            }
        }
        assert_eq!(checker.tally.inputs, 400 * TEXTS);
        assert_eq!(checker.tally.runs, 5 * checker.tally.inputs);
        assert!(table.counted(&checker.counts).iter().filter(|(_, count)| *count > 0).count() > 500);
    }

    #[test]
    fn both_texts_are_told() {
        let input = plans::status_input(1);
        let told = given(&input);
        assert!(told.starts_with(&format!("the status text, {} bytes\n", input.status.len())));
        assert!(told.contains(&format!("\n---- the sheet, {} bytes\n", input.sheet.text.len())));
    }
}
