//! Slot plans ("The whole machine, not one thread"): the steps of a family of threads, good ones and broken ones, each made from one seed.

mod broken;
mod family;
mod fault;
mod shape;
mod stray;

pub use fault::SlotFault;

use crate::random::Random;
use crate::starts::{self, Flaw};
use crate::Plan;
use second::{Credentials, Step};
use shape::Shape;

/// The call that forks and the call that exits.
const FORK: u8 = 30;
const EXIT: u8 = 31;

/// Credentials that slot 0 starts from, and steps.
#[derive(Clone, Debug, PartialEq, Eq)]
pub struct SlotPlan {
    /// The sheet.
    pub start: Credentials,
    /// The steps.
    pub steps: Vec<SlotStep>,
}

/// A step of a slot plan.
#[derive(Clone, Debug, PartialEq, Eq)]
pub struct SlotStep {
    /// The slot that it names, 0 to 99.
    pub slot: u8,
    /// The call that is made there.
    pub step: Step,
}

/// A text for the runner of slot plans, and what is known of it beforehand.
#[derive(Clone, Debug, PartialEq, Eq)]
pub struct SlotText {
    /// The text.
    pub text: Vec<u8>,
    /// What it is.
    pub kind: SlotKind,
}

/// What the text of a slot plan is.
#[derive(Clone, Debug, PartialEq, Eq)]
pub enum SlotKind {
    /// The written form of a slot plan whose start is valid.
    Runs(SlotPlan),
    /// The written form of a slot plan whose start is not valid.
    Flawed(SlotPlan),
    /// A text with one fault.
    Broken {
        /// Which fault.
        fault: SlotFault,
        /// The line that it is in, where the kind of fault says so.
        line: Option<u32>,
        /// Whether the start of the slot plan that was broken was valid.
        valid: bool,
    },
}

/// The text of that seed. Of twenty texts thirteen are slot plans that run, and one has a start that is not valid.
pub fn slot_text(seed: u64) -> SlotText {
    // Other numbers than those that the plan, the input, the names and the status texts of that seed are made from.
    let mut random = Random::new(seed ^ 0x3c3c_3c3c_3c3c_3c3c);
    let random = &mut random;
    match random.below(20) {
        0..=12 => {
            let shape = Shape::any(random);
            let start = shape.start(random);
            let count = shape.step_count(random);
            let plan = shape.plan(random, start, count);
            SlotText { text: plan.text(), kind: SlotKind::Runs(plan) }
        }
        13 => {
            let flaw = random.pick(&Flaw::ALL);
            let plan = flawed(random, flaw);
            SlotText { text: plan.text(), kind: SlotKind::Flawed(plan) }
        }
        _ => broken::broken(random),
    }
}

/// Which slot plans are measured.
#[derive(Clone, Copy, Debug, PartialEq, Eq)]
pub enum MeasuredSlots {
    /// A few threads make calls in turn; now and then one forks or exits.
    Family,
    /// All 96 slots are in use as soon as the steps allow it, and then any of them makes calls.
    AllInUse,
    /// Every step is a fork.
    Forks,
}

/// A slot plan of `steps` steps that runs, each in a slot that is in use, with none of the operands out of range. At most 256 steps make a slot plan.
pub fn measured_slots(seed: u64, steps: usize, kind: MeasuredSlots) -> SlotPlan {
    let mut random = Random::new(seed);
    let start = starts::valid(&mut random);
    shape::measured(&mut random, start, steps, kind)
}

impl SlotPlan {
    /// The slot plan that makes a plan's calls, all of them in slot 0.
    pub fn in_slot_0(Plan { start, steps }: Plan) -> SlotPlan {
        SlotPlan { start, steps: steps.into_iter().map(|step| SlotStep { slot: 0, step }).collect() }
    }
}

// A slot plan with one flaw in its start.
fn flawed(random: &mut Random, flaw: Flaw) -> SlotPlan {
    let start = starts::flawed(random, flaw);
    let count = random.below(12);
    Shape::Helpers.plan(random, start, count)
}

// A step without operands or attribute.
fn bare(call: u8) -> Step {
    Step { call, a: 0, b: 0, c: 0, attr: Vec::new() }
}

#[cfg(test)]
mod tests {
    use super::*;
    use urrezkalu::{run_slot_plan, Outcome, LONGEST_SLOT_PLAN, LONGEST_SLOT_REPORT, SLOTS};

    fn report_of(text: &[u8]) -> String {
        let mut buffer = [0; LONGEST_SLOT_REPORT];
        let Outcome::Report { length } = run_slot_plan(text, &mut buffer) else { panic!("it is refused") };
        String::from_utf8(buffer[..length].to_vec()).expect("a report is text")
    }

    #[test]
    fn the_same_seed_gives_the_same_text() {
        for seed in 0..300 {
            assert_eq!(slot_text(seed), slot_text(seed));
        }
        assert_ne!(slot_text(1), slot_text(2));
    }

    #[test]
    fn what_should_run_runs_and_what_is_flawed_is_invalid() {
        let mut buffer = [0; LONGEST_SLOT_REPORT];
        for seed in 0..3000 {
            let SlotText { text, kind } = slot_text(seed);
            let outcome = run_slot_plan(&text, &mut buffer);
            match kind {
                SlotKind::Runs(_) => assert!(matches!(outcome, Outcome::Report { .. }), "seed {seed}: {outcome}"),
                SlotKind::Flawed(_) => assert_eq!(outcome, Outcome::Invalid, "seed {seed}"),
                SlotKind::Broken { .. } => {}
            }
        }
    }

    #[test]
    fn each_flaw_makes_a_start_invalid() {
        for flaw in Flaw::ALL {
            for seed in 0..50 {
                let plan = flawed(&mut Random::new(seed), flaw);
                assert_eq!(run_slot_plan(&plan.text(), &mut []), Outcome::Invalid, "{flaw:?}, seed {seed}");
            }
        }
    }

    #[test]
    fn every_slot_from_0_to_99_is_named() {
        let mut named = [false; 100];
        for seed in 0..3000 {
            let SlotKind::Runs(plan) = slot_text(seed).kind else { continue };
            for step in plan.steps {
                named[usize::from(step.slot)] = true;
            }
        }
        assert_eq!(named, [true; 100]);
    }

    #[test]
    fn the_longest_text_and_the_longest_report_are_made() {
        let longest = |shape: Shape| {
            let mut random = Random::new(5);
            let start = shape.start(&mut random);
            let count = shape.step_count(&mut random);
            shape.plan(&mut random, start, count).text()
        };
        assert_eq!(longest(Shape::LongestText).len(), LONGEST_SLOT_PLAN);
        assert_eq!(report_of(&longest(Shape::LongestReport)).len(), LONGEST_SLOT_REPORT);
    }

    #[test]
    fn measured_slot_plans_run_in_slots_that_are_in_use() {
        for kind in [MeasuredSlots::Family, MeasuredSlots::AllInUse, MeasuredSlots::Forks] {
            for count in [0, 1, 16, 256] {
                let plan = measured_slots(7, count, kind);
                assert_eq!(plan.steps.len(), count);
                let report = report_of(&plan.text());
                assert!(!report.contains("code=3\n") && !report.contains("code=22\n"), "{kind:?}");
                let full = report.matches("slot=").count() == SLOTS;
                assert_eq!(full, count == 256 && kind != MeasuredSlots::Family, "{kind:?}, {count}");
            }
        }
        let forks = report_of(&measured_slots(7, 256, MeasuredSlots::Forks).text());
        assert_eq!(forks.matches("code=11\n").count(), 256 - 95);
    }

    // As in the plan, and with one slot line more a step and before the sheet.
    #[test]
    fn a_plan_in_slot_0_has_the_plans_report() {
        let plan = crate::measured(3, 16);
        let mut buffer = [0; urrezkalu::LONGEST_REPORT];
        let urrezkalu::Outcome::Report { length } = urrezkalu::run_plan(&plan.text(), &mut buffer) else {
            panic!("the plan is refused");
        };
        let report = report_of(&SlotPlan::in_slot_0(plan).text());
        assert_eq!(report.replace("slot=0\n", "").as_bytes(), &buffer[..length]);
    }
}
