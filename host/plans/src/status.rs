//! Status texts ("The roaster's own word"), well-formed and broken, each with a predicted sheet to be laid beside it, made from one seed.

mod broken;
mod fault;
mod lines;
mod unwanted;
mod values;

pub use fault::StatusFault;
pub use lines::{Found, FOUND, WANTED};

use crate::random::Random;
use crate::starts::{self, Family};
use crate::{broken as broken_sheets, inputs, with_steps, Generated, Kind, Plan};
use lines::{Line, Lines};
use second::Credentials;

/// A status text and a predicted sheet, and what is known of them beforehand.
#[derive(Clone, Debug, PartialEq, Eq)]
pub struct StatusInput {
    /// The status text.
    pub status: Vec<u8>,
    /// What it is.
    pub kind: StatusKind,
    /// The sheet. A plan of no steps is one; steps are text past one.
    pub sheet: Generated,
}

/// What a status text is.
#[derive(Clone, Debug, PartialEq, Eq)]
pub enum StatusKind {
    /// It has the seven lines of these values, and others that are passed over.
    WellFormed {
        /// The values.
        found: Found,
    },
    /// It was well-formed before one fault was put into it.
    Broken {
        /// Which fault.
        fault: StatusFault,
        /// Where it was made, as [`StatusFault::places`] has it; 0 where that has none.
        place: usize,
        /// The line of the first fault, where the kind of fault says so. Where it does not, the text may be well-formed still.
        line: Option<u32>,
    },
}

/// The status text and the sheet of that seed. Of twenty texts nine are well-formed.
pub fn status_input(seed: u64) -> StatusInput {
    // Other numbers than those that the plan, the input and the texts in names of that seed are made from.
    let mut random = Random::new(seed ^ 0xa5a5_a5a5_a5a5_a5a5);
    let random = &mut random;
    let is_well_formed = random.below(20) < 9;
    let is_longest = random.one_in(20);
    // A sheet that is refused stands more often beside a text that is refused too.
    let refused = random.below(if is_well_formed { 16 } else { 8 });
    let mut start = if refused == 0 { inputs::flawed(random) } else { inputs::start(random) };
    if is_longest && refused != 0 {
        starts::ids_of_ten_digits(random, Family::Users, &mut start);
    }
    let predicted = values::compared(&start);
    let found = if is_longest { values::all_changed(random, &predicted) } else { values::found(random, &predicted) };
    let lines = with_unwanted_lines(random, &found);
    let (status, kind) = if is_well_formed {
        (lines.text(), StatusKind::WellFormed { found })
    } else {
        broken::broken(random, lines, &found)
    };
    let sheet = match refused {
        0 => written(Plan { start, steps: Vec::new() }, Kind::Flawed),
        1 => malformed(random, start, &status),
        _ => written(Plan { start, steps: Vec::new() }, Kind::Runs),
    };
    StatusInput { status, kind, sheet }
}

/// A status text as a kernel writes it, with those values.
pub fn kernel_status(found: &Found) -> Vec<u8> {
    unwanted::kernel_file(found).text()
}

/// The seven lines of those values alone.
pub fn bare_status(found: &Found) -> Vec<u8> {
    Lines::of(found).text()
}

/// The ten values of credentials that a status text has too.
pub fn compared_values(credentials: &Credentials) -> Found {
    values::compared(credentials)
}

// The seven lines with others before, between and after: none, a kernel's, some in one of the eight gaps, some in all, or very many.
fn with_unwanted_lines(random: &mut Random, found: &Found) -> Lines {
    let mut lines = Lines::of(found);
    match random.below(2400) {
        0..=434 => {}
        435..=499 => lines = unwanted::kernel_file(found),
        500..=1549 => {
            let gap = random.below(WANTED.len() + 1);
            for _ in 0..1 + random.below(3) {
                lines.lines.insert(gap, Line::passed_over(unwanted::any(random)));
            }
        }
        1550..=2379 => {
            for gap in (0..=WANTED.len()).rev() {
                for _ in 0..random.below(3) {
                    lines.lines.insert(gap, Line::passed_over(unwanted::any(random)));
                }
            }
        }
        many => {
            let count = if many == 2399 { 65_536 } else { 256 } + random.below(9);
            let line = random.pick(&["", "", "x", "\r"]).as_bytes();
            let gap = random.pick(&[0, 0, 1, WANTED.len()]);
            lines.lines.splice(gap..gap, vec![Line::passed_over(line.to_vec()); count]).for_each(drop);
        }
    }
    lines.has_last_newline = !random.one_in(3);
    lines
}

fn written(plan: Plan, kind: fn(Plan) -> Kind) -> Generated {
    Generated { text: plan.text(), kind: kind(plan) }
}

// A broken sheet; a plan, whose steps are text past a sheet; or the status text in the sheet's place.
fn malformed(random: &mut Random, start: Credentials, status: &[u8]) -> Generated {
    let is_short = status.len() < 3 && random.one_in(2);
    match if is_short { 1 } else { random.below(10) } {
        0 => {
            let count = 1 + random.below(2);
            written(with_steps(random, start, count), Kind::Runs)
        }
        1 => {
            let kind = Kind::Broken { fault: crate::Fault::Noise, line: None, valid: true };
            Generated { text: status.to_vec(), kind }
        }
        _ => broken_sheets::broken_sheet(random),
    }
}

#[cfg(test)]
mod tests {
    use super::*;
    use second::{compare_status, Written};

    const LONGEST_LIST: usize = 372;

    fn compared(StatusInput { status, sheet, .. }: &StatusInput) -> (Written, Vec<u8>) {
        let mut list = [0; LONGEST_LIST];
        let answer = compare_status(status, &sheet.text, &mut list);
        (answer, list[..if answer.code == 0 { answer.number as usize } else { 0 }].to_vec())
    }

    #[test]
    fn the_same_seed_gives_the_same_texts() {
        for seed in 0..500 {
            assert_eq!(status_input(seed), status_input(seed));
        }
        assert_ne!(status_input(1), status_input(2));
    }

    #[test]
    fn texts_come_to_what_is_known_of_them() {
        let (mut broken, mut refused, mut lists) = (0, 0, 0);
        for seed in 0..20_000 {
            let input = status_input(seed);
            let (answer, list) = compared(&input);
            match (&input.kind, &input.sheet.kind) {
                (StatusKind::Broken { line: None, .. }, _) => {}
                (StatusKind::Broken { fault, line: Some(line), .. }, _) => {
                    assert_eq!(answer, Written { code: 70, number: *line }, "{fault:?}, seed {seed}");
                    broken += 1;
                }
                (_, Kind::Broken { line: None, .. }) => {}
                (_, Kind::Broken { .. }) => {
                    assert_eq!(answer, Written { code: 70, number: 0 }, "seed {seed}");
                    refused += 1;
                }
                (_, Kind::Runs(plan)) if !plan.steps.is_empty() => {
                    assert_eq!(answer, Written { code: 70, number: 0 }, "seed {seed}");
                    refused += 1;
                }
                (_, Kind::Flawed(_)) => {
                    assert_eq!(answer, Written { code: 72, number: 0 }, "seed {seed}");
                    refused += 1;
                }
                (StatusKind::WellFormed { found }, Kind::Runs(plan)) => {
                    let predicted = compared_values(&plan.start);
                    let differing = predicted.iter().zip(found).filter(|(one, other)| one != other).count();
                    assert_eq!(answer.code, 0, "seed {seed}");
                    assert_eq!(list.iter().filter(|byte| **byte == b'\n').count(), differing + 1, "seed {seed}");
                    lists += 1;
                }
            }
        }
        assert!(broken > 7000 && refused > 700 && lists > 6000, "{broken}, {refused}, {lists}");
    }

    #[test]
    fn every_fault_breaks_the_text_where_it_says() {
        let sheet = written(Plan { start: crate::measured(3, 0).start, steps: Vec::new() }, Kind::Runs);
        for fault in StatusFault::ALL.into_iter().filter(|fault| !fault.is_blind()) {
            let mut places = Vec::new();
            for seed in 0..200 {
                let mut random = Random::new(seed);
                let found = [seed; FOUND].map(|value| value & 1);
                let lines = with_unwanted_lines(&mut random, &found);
                let (status, kind) = broken::broken_by(&mut random, fault, lines, &found);
                let StatusKind::Broken { place, line: Some(line), .. } = kind else { panic!("its line is known") };
                let input = StatusInput { status, kind, sheet: sheet.clone() };
                assert_eq!(compared(&input).0, Written { code: 70, number: line }, "{fault:?}, seed {seed}");
                places.push(place);
            }
            assert!(fault.places().iter().all(|place| places.contains(place)), "{fault:?}");
        }
    }

    #[test]
    fn what_is_written_from_credentials_gives_the_last_line_alone() {
        for seed in 0..200 {
            let start = crate::measured(seed, 0).start;
            let found = compared_values(&start);
            let sheet = written(Plan { start, steps: Vec::new() }, Kind::Runs);
            let lines = with_unwanted_lines(&mut Random::new(seed), &found);
            for status in [bare_status(&found), kernel_status(&found), lines.text()] {
                let input = StatusInput { status, kind: StatusKind::WellFormed { found }, sheet: sheet.clone() };
                assert_eq!(compared(&input).1, b"not compared: securebits, group IDs\n");
            }
        }
    }

    #[test]
    fn the_longest_list_is_among_them() {
        let lengths = (0..2000).map(|seed| compared(&status_input(seed)).1.len());
        assert_eq!(lengths.max(), Some(LONGEST_LIST));
    }
}
