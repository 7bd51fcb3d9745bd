//! Texts in names, and sets to be written in names: each through both programs, in buffers of several lengths, and back again.

use super::functions::{back_again, see, Fault, ReadNames, WriteNames};
use super::{against_the_table, Check, Tally};
use crate::branches::{Again, Counts, NamesRead, NamesWrite, Seen, Table, LONGEST_NAMES};
use crate::buffers::{Buffers, Element};
use crate::difference::{self, Checked, Difference};

/// The two, by their names in the C interface, and what each is given.
pub const NAME_FUNCTIONS: [(&str, &str); 2] = [("read_names", "texts in names"), ("write_names", "times three sets")];

/// How many texts a seed has.
const TEXTS: u64 = 10;
/// How many times three sets.
const SETS: u64 = 2;
/// How many values a text has.
const VALUES: usize = 3;

/// Checks the texts and sets of one seed after the other.
pub struct NamesChecker<'a> {
    table: &'a Table,
    counts: Counts,
    /// For each of the two, in the order of `NAME_FUNCTIONS`.
    pub tallies: [Tally; 2],
    places: Buffers<u64>,
    bytes: Buffers<u8>,
}

impl Check for NamesChecker<'_> {
    fn check(&mut self, seed: u64) -> Checked<()> {
        for number in 0..TEXTS {
            let own = seed.wrapping_mul(TEXTS).wrapping_add(number);
            let runs_before = self.runs();
            self.read(own).map_err(|fault| {
                let text = plans::named_text(own).text;
                different(seed, format!("read_names, text {}", number + 1), difference::text("the text", &text), fault)
            })?;
            self.tallies[0].add(self.runs() - runs_before);
        }
        for number in 0..SETS {
            let own = seed.wrapping_mul(SETS).wrapping_add(number);
            let runs_before = self.runs();
            self.write(own).map_err(|fault| {
                let [permitted, inheritable, effective] = plans::named_sets(own);
                let given = format!(
                    "the sets\npermitted {permitted:016x}, inheritable {inheritable:016x}, effective {effective:016x}"
                );
                different(seed, format!("write_names, sets {}", number + 1), given, fault)
            })?;
            self.tallies[1].add(self.runs() - runs_before);
        }
        Ok(())
    }

    fn counts(&self) -> &Counts {
        &self.counts
    }

    fn runs(&self) -> u64 {
        self.places.runs() + self.bytes.runs()
    }
}

// What one of the two writes is taken back by the other, and the rows of the table are held against both.
impl<'a> NamesChecker<'a> {
    /// A checker that has checked nothing yet.
    pub fn new(table: &'a Table) -> NamesChecker<'a> {
        NamesChecker {
            table,
            counts: table.counts(),
            tallies: [Tally::default(); 2],
            places: Buffers::of_places(2 * VALUES),
            bytes: Buffers::of_bytes(2 * LONGEST_NAMES),
        }
    }

    fn read(&mut self, seed: u64) -> Result<(), Fault> {
        let named = plans::named_text(seed);
        let seen = see(&ReadNames(&named.text), &mut self.places, seed)?;
        let again = match seen.written[..] {
            [permitted, inheritable, effective] => {
                let text = back_again(&WriteNames([permitted, inheritable, effective]), &mut self.bytes)?;
                let sets = back_again(&ReadNames(&text), &mut self.places)?;
                Some(Again { text, sets })
            }
            _ => None,
        };
        let read = NamesRead::new(named, seen, again);
        self.table.meet_names_read(&read, &mut self.counts).map_err(|row| unexpected(row, read.seen()))
    }

    fn write(&mut self, seed: u64) -> Result<(), Fault> {
        let sets = plans::named_sets(seed);
        let seen = see(&WriteNames(sets), &mut self.bytes, seed)?;
        let again = match seen.roomy.code {
            0 => Some(back_again(&ReadNames(&seen.written), &mut self.places)?),
            _ => None,
        };
        let write = NamesWrite::new(sets, seen, again);
        self.table.meet_names_write(&write, &mut self.counts).map_err(|row| unexpected(row, &write.seen))
    }
}

fn different(seed: u64, which: String, given: String, Fault { what, more }: Fault) -> Box<Difference> {
    Box::new(Difference { seed, what: format!("{which}: {what}"), given, more })
}

fn unexpected<T: Element>(row: &str, seen: &Seen<T>) -> Fault {
    Fault { what: against_the_table(row), more: seen.told() }
}

#[cfg(test)]
mod tests {
    use super::*;

    #[test]
    fn the_first_texts_and_sets_agree() {
        let table = Table::new();
        let mut checker = NamesChecker::new(&table);
        for seed in 0..200 {
            if let Err(difference) = checker.check(seed) {
                panic!("{}", difference.message());
            }
        }
        assert_eq!(checker.tallies.map(|tally| tally.inputs), [200 * TEXTS, 200 * SETS]);
        assert!(checker.tallies.iter().all(|tally| tally.runs >= 5 * tally.inputs));
        assert_eq!(checker.tallies.iter().map(|tally| tally.runs).sum::<u64>(), checker.runs());
        assert!(table.counted(&checker.counts).iter().filter(|(_, count)| *count > 0).count() > 400);
    }
}
