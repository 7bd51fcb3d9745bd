//! Texts in names ("Say it in names"), well-formed and broken, and sets to be written in names, each made from one seed.

mod broken;
mod clauses;
mod fault;
mod libcap;
mod spelling;
mod three_sets;
mod words;

pub use fault::NameFault;
pub use libcap::libcap_text;
pub use three_sets::named_sets;
pub use words::CAPABILITY_NAMES;

use crate::random::Random;
use spelling::Spelling;

/// A text in names, and what is known of it beforehand.
#[derive(Clone, Debug, PartialEq, Eq)]
pub struct NamedText {
    /// The text.
    pub text: Vec<u8>,
    /// What it is.
    pub kind: NamedKind,
}

/// What a text in names is.
#[derive(Clone, Debug, PartialEq, Eq)]
pub enum NamedKind {
    /// It is well-formed.
    WellFormed {
        /// The sets that it stands for: permitted, inheritable, effective.
        sets: [u64; 3],
    },
    /// It was well-formed before one fault was put into it.
    Broken {
        /// Which fault.
        fault: NameFault,
        /// The length of its longest beginning that well-formed text can have, where the kind of fault says so. Where it does not, the text may be
        /// well-formed still.
        place: Option<usize>,
    },
}

/// The text in names of that seed. Of twenty one is in the written form, eight are well-formed in any way, and eleven are broken.
pub fn named_text(seed: u64) -> NamedText {
    let mut random = numbers(seed);
    match random.below(20) {
        0 => {
            let sets = three_sets::in_range(&mut random);
            let Spelling { text, .. } = spelling::written(&clauses::of_sets(sets));
            NamedText { text, kind: NamedKind::WellFormed { sets } }
        }
        1..=8 => {
            let clauses = clauses::any(&mut random);
            let Spelling { text, .. } = spelling::any(&mut random, &clauses);
            NamedText { text, kind: NamedKind::WellFormed { sets: clauses::sets(&clauses) } }
        }
        _ => broken::broken(&mut random),
    }
}

// Other numbers than those that the plan and the input of that seed are made from.
fn numbers(seed: u64) -> Random {
    Random::new(seed ^ 0x5a5a_5a5a_5a5a_5a5a)
}

#[cfg(test)]
mod tests {
    use super::*;
    use second::{read_names, write_names, Written};

    #[test]
    fn the_same_seed_gives_the_same_text_and_the_same_sets() {
        for seed in 0..500 {
            assert_eq!(named_text(seed), named_text(seed));
            assert_eq!(named_sets(seed), named_sets(seed));
        }
        assert_ne!(named_text(1), named_text(2));
        assert_ne!(named_sets(1), named_sets(2));
    }

    #[test]
    fn texts_come_to_what_is_known_of_them() {
        let (mut well_formed, mut broken) = (0, 0);
        for seed in 0..20_000 {
            let NamedText { text, kind } = named_text(seed);
            let mut values = [0; 3];
            let answer = read_names(&text, &mut values);
            match kind {
                NamedKind::WellFormed { sets } => {
                    assert_eq!(answer, Written { code: 0, number: 3 }, "seed {seed}");
                    assert_eq!(values, sets, "seed {seed}");
                    well_formed += 1;
                }
                NamedKind::Broken { fault, place: Some(place) } => {
                    assert_eq!(answer, Written { code: 70, number: place as u32 }, "{fault:?}, seed {seed}");
                    broken += 1;
                }
                NamedKind::Broken { place: None, .. } => {}
            }
        }
        assert!(well_formed > 8000 && broken > 8000);
    }

    #[test]
    fn the_written_form_is_what_is_written() {
        let mut random = Random::new(11);
        let mut buffer = [0; 748];
        let mut longest = 0;
        for _ in 0..500 {
            let [permitted, inheritable, effective] = three_sets::in_range(&mut random);
            let clauses = clauses::of_sets([permitted, inheritable, effective]);
            assert_eq!(clauses::sets(&clauses), [permitted, inheritable, effective]);
            let Spelling { text, .. } = spelling::written(&clauses);
            let answer = write_names(permitted, inheritable, effective, &mut buffer);
            assert_eq!(answer, Written { code: 0, number: text.len() as u32 });
            assert_eq!(buffer[..text.len()], text);
            longest = longest.max(text.len());
        }
        assert_eq!(longest, 748);
    }

    #[test]
    fn texts_are_of_every_length() {
        let lengths: Vec<usize> = (0..20_000).map(|seed| named_text(seed).text.len()).collect();
        for (from, to) in
            [(0, 1), (1, 2), (2, 20), (20, 200), (200, 1000), (1000, 5000), (5000, 60_000), (65_536, 100_000)]
        {
            assert!(lengths.iter().any(|length| (from..to).contains(length)), "none from {from} to {to}");
        }
    }
}
