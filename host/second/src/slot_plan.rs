//! Runs a slot plan from its text to its report.

use std::fmt::{self, Write};

use crate::plan::{run, Outcome};
use crate::reader::{read_slot_plan, Plan, SlotStep};
use crate::report::{write_answer, write_sheet};
use crate::threads::Threads;

/// Runs the slot plan and puts its report at the front of `report`. A refused slot plan leaves every byte of it as it
/// was, and bytes past the report stay. A refused step does not stop the slot plan.
pub fn run_slot_plan(plan: &[u8], report: &mut [u8]) -> Outcome {
    run(read_slot_plan(plan), run_steps, report)
}

/// The report of a slot plan: each step starts from the table that the one before it leaves, and the sheets are those
/// of the slots in use at the end.
fn run_steps(plan: Plan<SlotStep>) -> Result<String, fmt::Error> {
    let mut report = String::new();
    let mut threads = Threads::new(plan.start);
    for SlotStep { slot, step } in &plan.steps {
        let answer = threads.step(*slot, step);
        write_answer(&mut report, &answer)?;
    }
    for (slot, credentials) in threads.in_use() {
        writeln!(report, "slot={slot}")?;
        write_sheet(&mut report, credentials)?;
    }
    Ok(report)
}
