//! Plans, slot plans, sheets, attributes, texts in names, status texts and broken texts, each made from one seed.
//!
//! [`generated`] gives the text of any kind: plans that run, with the calls and operands that the rules tell apart; plans whose start is
//! invalid; texts that are no plans. [`slot_text`] gives the same of slot plans, with families of threads of several kinds. [`input`] gives what the
//! readers and writers of sheets and attributes are asked. [`named_text`] gives texts in names, [`libcap_text`] those for libcap, and [`named_sets`]
//! sets to be written in names. [`status_input`] gives status texts, each with a sheet to be laid beside it. [`measured`] gives plans of a fixed number
//! of steps, and [`measured_slots`] slot plans, to take times by. The same seed gives the same.

#![deny(missing_docs)]

mod attributes;
mod broken;
mod inputs;
mod names;
mod random;
mod sets;
mod slot_plans;
mod starts;
mod status;
mod steps;
mod text;

pub use broken::Fault;
pub use inputs::{input, values, Input, Operands, VALUES};
pub use names::{libcap_text, named_sets, named_text, NameFault, NamedKind, NamedText, CAPABILITY_NAMES};
pub use slot_plans::{measured_slots, slot_text, MeasuredSlots, SlotFault, SlotKind, SlotPlan, SlotStep, SlotText};
pub use status::{
    bare_status, compared_values, kernel_status, status_input, Found, StatusFault, StatusInput, StatusKind, FOUND,
    WANTED,
};
pub use text::{write_result, write_sheet, write_slot, write_slot_step, write_step};

use random::Random;
use second::{Credentials, Step};
use starts::Flaw;
use steps::Maker;

/// The most steps that a plan or a slot plan may have.
pub const MOST_STEPS: usize = 256;

/// Credentials to start from, and steps.
#[derive(Clone, Debug, PartialEq, Eq)]
pub struct Plan {
    /// The sheet.
    pub start: Credentials,
    /// The steps.
    pub steps: Vec<Step>,
}

/// A text for the runner, and what is known of it beforehand.
#[derive(Clone, Debug, PartialEq, Eq)]
pub struct Generated {
    /// The text.
    pub text: Vec<u8>,
    /// What it is.
    pub kind: Kind,
}

/// What a generated text is.
#[derive(Clone, Debug, PartialEq, Eq)]
pub enum Kind {
    /// The written form of a plan whose start is valid.
    Runs(Plan),
    /// The written form of a plan whose start is not valid.
    Flawed(Plan),
    /// A text with one fault.
    Broken {
        /// Which fault.
        fault: Fault,
        /// The line that it is in, where the kind of fault says so.
        line: Option<u32>,
        /// Whether the start of the plan that was broken was valid.
        valid: bool,
    },
}

/// The text of that seed.
pub fn generated(seed: u64) -> Generated {
    let mut random = Random::new(seed);
    match random.below(20) {
        0..=11 => {
            let plan = plan(&mut random);
            Generated { text: plan.text(), kind: Kind::Runs(plan) }
        }
        12 | 13 => {
            let flaw = random.pick(&Flaw::ALL);
            let plan = flawed(&mut random, flaw);
            Generated { text: plan.text(), kind: Kind::Flawed(plan) }
        }
        _ => broken::broken(&mut random),
    }
}

/// A plan of `steps` steps that runs, with all the calls and none of their operands out of range. At most 256 steps make a plan.
pub fn measured(seed: u64, steps: usize) -> Plan {
    let mut random = Random::new(seed);
    let start = starts::valid(&mut random);
    let mut maker = Maker::new(&start);
    let steps = (0..steps).map(|_| maker.decent(&mut random)).collect();
    Plan { start, steps }
}

// A plan that runs.
fn plan(random: &mut Random) -> Plan {
    let start = starts::valid(random);
    let count = step_count(random);
    with_steps(random, start, count)
}

// A plan with one flaw in its start.
fn flawed(random: &mut Random, flaw: Flaw) -> Plan {
    let start = starts::flawed(random, flaw);
    let count = step_count(random).min(20);
    with_steps(random, start, count)
}

fn with_steps(random: &mut Random, start: Credentials, count: usize) -> Plan {
    let mut maker = Maker::new(&start);
    let steps = (0..count).map(|_| maker.any(random)).collect();
    Plan { start, steps }
}

// Mostly a few steps, for much of what the start allows is gone after them; now and then none, one, or the most.
fn step_count(random: &mut Random) -> usize {
    match random.below(100) {
        0..=4 => 0,
        5..=19 => 1,
        20..=49 => 2 + random.below(6),
        50..=97 => 2 + random.below(30),
        98 => 32 + random.below(MOST_STEPS - 32),
        _ => random.pick(&[MOST_STEPS - 1, MOST_STEPS]),
    }
}

#[cfg(test)]
mod tests {
    use super::*;
    use urrezkalu::{run_plan, Outcome, LONGEST_REPORT};

    #[test]
    fn the_same_seed_gives_the_same_text() {
        for seed in 0..200 {
            assert_eq!(generated(seed), generated(seed));
        }
        assert_ne!(generated(1), generated(2));
    }

    #[test]
    fn what_should_run_runs_and_what_is_flawed_is_invalid() {
        let mut buffer = [0; LONGEST_REPORT];
        for seed in 0..3000 {
            let Generated { text, kind } = generated(seed);
            let outcome = run_plan(&text, &mut buffer);
            match kind {
                Kind::Runs(_) => assert!(matches!(outcome, Outcome::Report { .. }), "seed {seed}: {outcome}"),
                Kind::Flawed(_) => assert_eq!(outcome, Outcome::Invalid, "seed {seed}"),
                Kind::Broken { .. } => {}
            }
        }
    }

    #[test]
    fn each_flaw_makes_a_start_invalid() {
        for flaw in Flaw::ALL {
            for seed in 0..100 {
                let plan = flawed(&mut Random::new(seed), flaw);
                assert_eq!(run_plan(&plan.text(), &mut []), Outcome::Invalid, "{flaw:?}, seed {seed}");
            }
        }
    }

    #[test]
    fn measured_plans_run_and_have_the_steps_asked_for() {
        let mut buffer = [0; LONGEST_REPORT];
        for steps in [0, 1, 16, MOST_STEPS] {
            let plan = measured(7, steps);
            assert_eq!(plan.steps.len(), steps);
            assert!(plan.steps.iter().all(|step| (1..=22).contains(&step.call)));
            let Outcome::Report { length } = run_plan(&plan.text(), &mut buffer) else { panic!("it is refused") };
            let report = std::str::from_utf8(&buffer[..length]).unwrap();
            assert!(!report.contains("code=22\n"));
        }
    }
}
