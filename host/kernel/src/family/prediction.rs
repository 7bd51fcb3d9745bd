//! What the proved library says of a slot plan.

use super::table::{Table, TableOutcome};
use super::SlotStep;
use crate::credentials::{Credentials, Thread};
use crate::step::{Step, FORK};
use std::collections::BTreeMap;
use urrezkalu::{results, run_slot_plan, LONGEST_SLOT_REPORT};

/// The codes and values of a slot plan's steps, and the credentials in each slot that is in use after the last.
#[derive(Clone, Debug, PartialEq, Eq)]
pub struct SlotReport {
    pub results: Vec<(u32, u64)>,
    pub slots: BTreeMap<usize, Credentials>,
}

/// What predicts: a start and the steps from it give a report.
pub type Predict<'a> = &'a dyn Fn(&Credentials, &[SlotStep]) -> SlotReport;

/// Runs the steps from `start` in the proved library.
///
/// # Panics
///
/// If the library refuses the slot plan: then this crate wrote a text that is none, or began with credentials that are not valid.
pub fn report(start: &Credentials, steps: &[SlotStep]) -> SlotReport {
    let mut text = start.sheet();
    steps.iter().for_each(|step| text.push_str(&step.lines()));
    let mut buffer = [0; LONGEST_SLOT_REPORT];
    let urrezkalu::Outcome::Report { length } = run_slot_plan(text.as_bytes(), &mut buffer) else {
        panic!("the library refuses the slot plan:\n{text}")
    };
    let written = std::str::from_utf8(&buffer[..length]).expect("a report is ASCII");
    read_report(written, steps.len()).unwrap_or_else(|| panic!("no report:\n{written}"))
}

// Slots come in their order, each once. A refusal's cause is the paper's, and there is nothing of the kernel's to lay beside it.
fn read_report(written: &str, steps: usize) -> Option<SlotReport> {
    let mut told = results(written.as_bytes());
    let results: Vec<(u32, u64)> = told.by_ref().map(|result| (result.code(), result.value())).collect();
    let mut lines = std::str::from_utf8(told.rest()).ok()?.lines();
    let mut slots = BTreeMap::new();
    while let Some(line) = lines.next() {
        let slot: usize = line.strip_prefix("slot=")?.parse().ok()?;
        if slots.last_key_value().is_some_and(|(&last, _)| last >= slot) {
            return None;
        }
        slots.insert(slot, Credentials::from_lines(&mut lines)?);
    }
    (results.len() == steps).then_some(SlotReport { results, slots })
}

/// What one step of the thread in `slot` comes to. What predicts is asked of that thread by itself, in slot 0 of a table of its own, where a child would
/// take slot 1: nothing else decides the answer, but for the slot of a child, which here is the lowest that is free.
pub fn outcome(predict: Predict, before: &Table, slot: usize, thread: &Thread, step: &Step) -> TableOutcome {
    let SlotReport { results, slots } = predict(&thread.credentials, &[SlotStep::new(0, step.clone())]);
    let (code, mut value) = results[0];
    let mut after = before.clone();
    after.0.remove(&slot);
    let in_place = |credentials: &Credentials| Thread { credentials: *credentials, ..*thread };
    after.0.extend(slots.get(&0).map(|own| (slot, in_place(own))));
    after.0.extend(before.lowest_free().zip(slots.get(&1).map(in_place)));
    if let (FORK, 1, Some(child)) = (step.call, value, before.lowest_free()) {
        value = child as u64;
    }
    TableOutcome { code, value, after }
}
