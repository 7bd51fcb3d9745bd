//! The reader of texts in names: 70, then 28, or the three sets of a text.

mod malformed;
mod well_formed;

pub use malformed::{rows as rows_of_malformed_texts, Malformed};
pub use well_formed::{rows as rows_of_well_formed_texts, Again, WellFormed};

use super::names;
use super::seen::Seen;
use plans::NamedText;

/// A text in names, and what came back for it.
pub enum NamesRead {
    Malformed(Malformed),
    WellFormed(Box<WellFormed>),
}

impl NamesRead {
    /// The text, what came back for each number of places, and what came back again if it was read.
    pub fn new(named: NamedText, seen: Seen<u64>, again: Option<Again>) -> NamesRead {
        let reading = names::read(&named.text);
        match reading.stop {
            Some(stop) => NamesRead::Malformed(Malformed { named, stop, seen }),
            None => NamesRead::WellFormed(Box::new(WellFormed::new(named, reading, seen, again))),
        }
    }

    /// What came back for each number of places.
    pub fn seen(&self) -> &Seen<u64> {
        match self {
            NamesRead::Malformed(read) => &read.seen,
            NamesRead::WellFormed(read) => &read.seen,
        }
    }
}
