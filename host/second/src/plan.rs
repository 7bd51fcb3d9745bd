//! Runs a plan from its text to its report.

use std::fmt;

use crate::buffer::put_in_front;
use crate::calls::perform;
use crate::decode::Step;
use crate::reader::{read_plan, Malformed, Plan};
use crate::report::{write_answer, write_sheet};
use crate::threads::SlotAnswer;

/// What a plan or a slot plan comes to.
#[derive(Clone, Copy, Debug, PartialEq, Eq)]
pub enum Outcome {
    /// The report stands at the front of the buffer and has this many bytes.
    Report {
        /// The report's bytes.
        length: usize,
    },
    /// Refusal 70: the text is no plan.
    Malformed {
        /// One more than the complete correct lines before the fault.
        line: u32,
    },
    /// Refusal 72: the plan starts from credentials that are not valid.
    Invalid,
    /// Refusal 28: the report is longer than the buffer.
    NoRoom,
}

/// Runs the plan and puts its report at the front of `report`. A refused plan leaves every byte of it as it was, and
/// bytes past the report stay. A refused step does not stop the plan.
pub fn run_plan(plan: &[u8], report: &mut [u8]) -> Outcome {
    run(read_plan(plan), run_steps, report)
}

/// What a plan of either form comes to, its report being what `run_steps` makes of it. Refusals are looked for in the
/// order 70, 72, 28.
pub(crate) fn run<S>(
    plan: Result<Plan<S>, Malformed>,
    run_steps: impl Fn(Plan<S>) -> Result<String, fmt::Error>,
    report: &mut [u8],
) -> Outcome {
    let plan = match plan {
        Ok(plan) => plan,
        Err(Malformed { line }) => return Outcome::Malformed { line },
    };
    if !plan.start.is_valid() {
        return Outcome::Invalid;
    }
    let text = run_steps(plan).expect("a String takes whatever is written into it");
    match put_in_front(text.as_bytes(), report) {
        Some(length) => Outcome::Report { length },
        None => Outcome::NoRoom,
    }
}

/// The report of a plan: each step starts from the credentials that the one before it leaves.
fn run_steps(plan: Plan<Step>) -> Result<String, fmt::Error> {
    let mut report = String::new();
    let mut credentials = plan.start;
    for step in &plan.steps {
        let answer = perform(&credentials, step);
        write_answer(&mut report, &SlotAnswer::of_call(&answer))?;
        credentials = answer.after;
    }
    write_sheet(&mut report, &credentials)?;
    Ok(report)
}
