//! Inputs for the readers and writers of sheets and attributes, each made from one seed.

mod operands;
mod values;

pub use operands::Operands;
pub use values::{values, VALUES};

use crate::random::Random;
use crate::starts::{self, Flaw, LARGEST_ID};
use crate::{attributes, broken, sets, with_steps, Generated, Kind, Plan};
use second::Credentials;

/// An input for one of the four.
#[derive(Clone, Debug, PartialEq, Eq)]
pub enum Input {
    /// A text for the sheet reader, and what is known of it beforehand. A plan of no steps is a sheet; steps are text past one.
    ReadSheet(Generated),
    /// Numbers for the sheet writer.
    WriteSheet(Vec<u64>),
    /// Bytes for the attribute reader.
    ReadAttribute(Vec<u8>),
    /// Numbers for the attribute writer.
    WriteAttribute(Operands),
}

/// The input of that seed.
pub fn input(seed: u64) -> Input {
    // Other numbers than those that the plan of that seed is made from.
    let mut random = Random::new(!seed);
    match random.below(16) {
        0..=6 => Input::ReadSheet(sheet_text(&mut random)),
        7..=10 => Input::WriteSheet(values::any(&mut random)),
        11..=13 => {
            let guess = starts::valid(&mut random);
            Input::ReadAttribute(attributes::alone(&mut random, &guess))
        }
        _ => Input::WriteAttribute(operands::any(&mut random)),
    }
}

// Of twenty texts seven are sheets of valid credentials, four of others, two are plans, and seven are broken.
fn sheet_text(random: &mut Random) -> Generated {
    match random.below(20) {
        0..=6 => {
            let start = start(random);
            written(Plan { start, steps: Vec::new() }, Kind::Runs)
        }
        7..=10 => written(Plan { start: flawed(random), steps: Vec::new() }, Kind::Flawed),
        11 => {
            let start = start(random);
            let count = 1 + random.below(4);
            written(with_steps(random, start, count), Kind::Runs)
        }
        12 => {
            let start = flawed(random);
            let count = 1 + random.below(4);
            written(with_steps(random, start, count), Kind::Flawed)
        }
        _ => broken::broken_sheet(random),
    }
}

fn written(plan: Plan, kind: fn(Plan) -> Kind) -> Generated {
    Generated { text: plan.text(), kind: kind(plan) }
}

/// Credentials that are not valid in one way. A bit above 40 is now and then the highest.
pub(crate) fn flawed(random: &mut Random) -> Credentials {
    let flaw = random.pick(&Flaw::ALL);
    let mut start = starts::flawed(random, flaw);
    if random.one_in(4) {
        let Credentials { permitted, inheritable, effective, bounding, ambient, .. } = &mut start;
        for set in [permitted, inheritable, effective, bounding, ambient] {
            if *set > sets::FULL {
                *set = *set & sets::FULL | 1 << 63;
            }
        }
    }
    start
}

/// Valid credentials, now and then with an ID, or all of them, next to a power of ten, where the number of its digits changes, or with the
/// largest; or with the most securebits.
pub(crate) fn start(random: &mut Random) -> Credentials {
    let mut start = starts::valid(random);
    if random.one_in(20) {
        start.securebits = 255;
    }
    if random.one_in(3) {
        let id = match random.below(11) {
            10 => LARGEST_ID,
            power => 10_u32.pow(power as u32) - random.below(2) as u32,
        };
        let Credentials { ruid, euid, suid, fsuid, rgid, egid, sgid, fsgid, .. } = &mut start;
        let one = random.below(10);
        for (place, own) in [ruid, euid, suid, fsuid, rgid, egid, sgid, fsgid].into_iter().enumerate() {
            if one == place || one >= 8 {
                *own = id;
            }
        }
    }
    start
}

#[cfg(test)]
mod tests {
    use super::*;
    use urrezkalu::interface;

    #[test]
    fn the_same_seed_gives_the_same_input() {
        for seed in 0..200 {
            assert_eq!(input(seed), input(seed));
        }
        assert_ne!(input(1), input(2));
    }

    #[test]
    fn each_of_the_four_has_its_share() {
        let mut counts = [0; 4];
        for seed in 0..1600 {
            match input(seed) {
                Input::ReadSheet(_) => counts[0] += 1,
                Input::WriteSheet(_) => counts[1] += 1,
                Input::ReadAttribute(_) => counts[2] += 1,
                Input::WriteAttribute(_) => counts[3] += 1,
            }
        }
        for (count, expected) in counts.into_iter().zip([700, 400, 300, 200]) {
            assert!((expected * 4 / 5..=expected * 6 / 5).contains(&count), "{counts:?}");
        }
    }

    #[test]
    fn sheets_come_to_what_is_known_of_them() {
        let mut places = [0; VALUES];
        let mut broken = 0;
        for seed in 0..20_000 {
            let Input::ReadSheet(Generated { text, kind }) = input(seed) else { continue };
            let number = interface::read_sheet(&text, &mut places);
            let expected = match kind {
                Kind::Runs(plan) | Kind::Flawed(plan) if !plan.steps.is_empty() => 70 << 32 | (VALUES as u64 + 1),
                Kind::Runs(_) => VALUES as u64,
                Kind::Flawed(_) => 72 << 32,
                Kind::Broken { line: None, .. } => continue,
                Kind::Broken { line: Some(line), .. } => 70 << 32 | u64::from(line),
            };
            assert_eq!(number, expected, "seed {seed}");
            broken += u64::from(number >> 32 == 70);
        }
        assert!(broken > 2000);
    }
}
