//! What the proved library says of a plan.

use crate::credentials::{Credentials, Outcome, Thread};
use crate::step::Step;
use urrezkalu::{results, run_plan, LONGEST_REPORT};

/// The codes and values of a plan's steps, and the credentials after the last.
#[derive(Debug, PartialEq, Eq)]
pub struct Report {
    pub results: Vec<(u32, u64)>,
    pub last: Credentials,
}

/// Runs the steps from `start` in the proved library.
///
/// # Panics
///
/// If the library refuses the plan: then this crate wrote a text that is no plan, or began with credentials that are not valid.
pub fn report(start: &Credentials, steps: &[Step]) -> Report {
    let mut text = start.sheet();
    steps.iter().for_each(|step| text.push_str(&step.lines()));
    let mut buffer = [0; LONGEST_REPORT];
    let urrezkalu::Outcome::Report { length } = run_plan(text.as_bytes(), &mut buffer) else {
        panic!("the library refuses the plan:\n{text}")
    };
    let written = std::str::from_utf8(&buffer[..length]).expect("a report is ASCII");
    read_report(written, steps.len()).unwrap_or_else(|| panic!("no report:\n{written}"))
}

// A refusal's cause is the paper's, and there is nothing of the kernel's to lay beside it.
fn read_report(written: &str, steps: usize) -> Option<Report> {
    let mut told = results(written.as_bytes());
    let results: Vec<(u32, u64)> = told.by_ref().map(|result| (result.code(), result.value())).collect();
    let mut lines = std::str::from_utf8(told.rest()).ok()?.lines();
    let last = Credentials::from_lines(&mut lines)?;
    (results.len() == steps).then_some(Report { results, last })
}

/// What one step comes to from `before`, by the proved library.
pub fn outcome(before: &Thread, step: &Step) -> Outcome {
    let Report { results, last } = report(&before.credentials, std::slice::from_ref(step));
    let (code, value) = results[0];
    Outcome { code, value, after: Thread { credentials: last, ..*before } }
}
