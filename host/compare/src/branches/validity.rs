//! "What a thread carries": the clauses of "Valid", over the fifteen values of a sheet.

use super::sheet::{Kind, Values, AMBIENT, BOUNDING, EFFECTIVE, IDS, INHERITABLE, KEYS, PERMITTED, SECUREBITS};

/// Every capability, 0 to 40.
pub const FULL: u64 = 0x1ff_ffff_ffff;
/// The largest ID.
pub const LARGEST_ID: u64 = 4_294_967_294;
/// The largest securebits.
pub const LARGEST_SECUREBITS: u64 = 255;

/// The clauses, each true where the values break it.
const CLAUSES: [fn(&Values) -> bool; 17] = [
    |v| v[EFFECTIVE] & !v[PERMITTED] != 0,
    |v| v[AMBIENT] & !v[PERMITTED] != 0,
    |v| v[AMBIENT] & !v[INHERITABLE] != 0,
    |v| v[PERMITTED] > FULL,
    |v| v[INHERITABLE] > FULL,
    |v| v[EFFECTIVE] > FULL,
    |v| v[BOUNDING] > FULL,
    |v| v[AMBIENT] > FULL,
    |v| v[IDS[0]] > LARGEST_ID,
    |v| v[IDS[1]] > LARGEST_ID,
    |v| v[IDS[2]] > LARGEST_ID,
    |v| v[IDS[3]] > LARGEST_ID,
    |v| v[IDS[4]] > LARGEST_ID,
    |v| v[IDS[5]] > LARGEST_ID,
    |v| v[IDS[6]] > LARGEST_ID,
    |v| v[IDS[7]] > LARGEST_ID,
    |v| v[SECUREBITS] > LARGEST_SECUREBITS,
];

/// Values by the clauses that they break.
pub struct Flaw {
    /// What it is called.
    pub name: &'static str,
    broken: &'static [usize],
}

/// One for each clause that a text can break. A bit above 40 in E is in P too, for E to be within it; likewise with A. Two digits hold no
/// securebits above 255.
pub const FLAWS_OF_TEXTS: [Flaw; 16] = [
    Flaw { name: "E outside P", broken: &[0] },
    Flaw { name: "A outside P, within I", broken: &[1] },
    Flaw { name: "A outside I, within P", broken: &[2] },
    Flaw { name: "bit above 40 in P", broken: &[3] },
    Flaw { name: "bit above 40 in I", broken: &[4] },
    Flaw { name: "bit above 40 in E and P", broken: &[3, 5] },
    Flaw { name: "bit above 40 in B", broken: &[6] },
    Flaw { name: "bit above 40 in A, P and I", broken: &[3, 4, 7] },
    Flaw { name: "real user ID above 4294967294", broken: &[8] },
    Flaw { name: "effective user ID above 4294967294", broken: &[9] },
    Flaw { name: "saved user ID above 4294967294", broken: &[10] },
    Flaw { name: "filesystem user ID above 4294967294", broken: &[11] },
    Flaw { name: "real group ID above 4294967294", broken: &[12] },
    Flaw { name: "effective group ID above 4294967294", broken: &[13] },
    Flaw { name: "saved group ID above 4294967294", broken: &[14] },
    Flaw { name: "filesystem group ID above 4294967294", broken: &[15] },
];

impl Flaw {
    /// Whether the values break just those clauses.
    pub fn is_just_in(&self, values: &Values) -> bool {
        CLAUSES.iter().enumerate().all(|(at, is_broken)| is_broken(values) == self.broken.contains(&at))
    }
}

/// The flaws by what they look like in values: each of a text's, and those of sets again by the lowest and the highest bit above 40.
pub fn kinds() -> Vec<Kind> {
    let mut kinds: Vec<Kind> =
        FLAWS_OF_TEXTS.into_iter().map(|flaw| Kind::new(flaw.name, move |v| flaw.is_just_in(v))).collect();
    for (flaw, place) in [(3, PERMITTED), (4, INHERITABLE), (5, EFFECTIVE), (6, BOUNDING), (7, AMBIENT)] {
        for bit in [41, 63] {
            let name = format!("bit {bit} in {}", KEYS[place]);
            let holds = move |v: &Values| FLAWS_OF_TEXTS[flaw].is_just_in(v) && v[place] & !FULL == 1 << bit;
            kinds.push(Kind::new(name, holds));
        }
    }
    kinds
}

/// Whether the values break no clause.
pub fn is_valid(values: &Values) -> bool {
    !CLAUSES.iter().any(|is_broken| is_broken(values))
}

#[cfg(test)]
mod tests {
    use super::*;

    const VALID: Values = [1000, 0, LARGEST_ID, 7, 0, 100, 8, LARGEST_ID, 0x2100, 0x2000, 0x100, FULL, 0x2000, 255, 1];

    #[test]
    fn every_clause_but_the_securebits_has_a_flaw() {
        let has_flaw = |clause| FLAWS_OF_TEXTS.iter().any(|flaw| flaw.broken.contains(&clause));
        assert!((0..CLAUSES.len() - 1).all(has_flaw) && !has_flaw(CLAUSES.len() - 1));
        assert!(is_valid(&VALID) && !FLAWS_OF_TEXTS.iter().any(|flaw| flaw.is_just_in(&VALID)));
    }

    #[test]
    fn the_first_number_out_of_range_is_a_flaw() {
        let with = |at: usize, value: u64| {
            let mut values = VALID;
            values[at] = value;
            values
        };
        assert!(FLAWS_OF_TEXTS[6].is_just_in(&with(BOUNDING, 1 << 41)));
        assert!(FLAWS_OF_TEXTS[10].is_just_in(&with(IDS[2], 4_294_967_295)));
        assert!(FLAWS_OF_TEXTS[13].is_just_in(&with(IDS[5], 4_294_967_295)));
        assert!(!is_valid(&with(SECUREBITS, 256)));
        assert!(!is_valid(&with(EFFECTIVE, 0x2101)) && is_valid(&with(BOUNDING, 1 << 40)));
    }

    #[test]
    fn sets_are_told_by_their_bit_too() {
        let names = |values: Values| {
            let kinds = kinds().into_iter().filter(move |kind| (kind.holds)(&values));
            kinds.map(|kind| kind.name).collect::<Vec<String>>()
        };
        let mut values = VALID;
        values[PERMITTED] |= 1 << 63;
        assert_eq!(names(values), ["bit above 40 in P", "bit 63 in permitted"]);
        values[EFFECTIVE] |= 1 << 63;
        assert_eq!(names(values), ["bit above 40 in E and P", "bit 63 in effective"]);
        values[BOUNDING] |= 1 << 41;
        assert_eq!(names(values), [""; 0]);
    }
}
