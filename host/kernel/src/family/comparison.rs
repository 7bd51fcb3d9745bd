//! Lays what the kernel did with a family beside what the proved library says, step by step and slot by slot, and names every difference.

use super::prediction::{self, Predict};
use super::table::{perform, Table, TableOutcome};
use super::whole::whole;
use super::{SlotPlan, SlotStep};
use crate::comparison::{lists, Fault, Verdict};
use crate::credentials::Thread;
use crate::departures::Switches;
use crate::harness::{FamilyObservation, FamilySeen};
use crate::status::{self, LAST_LINE};
use std::collections::BTreeSet;

/// The verdict on a step, or why it was not asked of the kernel.
pub type StepVerdict = Result<Verdict, &'static str>;

/// How a slot plan compares.
#[derive(Debug, Default, PartialEq, Eq)]
pub struct FamilyComparison {
    /// The verdict on each step.
    pub verdicts: Vec<StepVerdict>,
    /// How many status files were read, and how many of them list something beside the library's prediction.
    pub statuses: u64,
    pub listing: u64,
    /// How many threads after a step are as the library's run of the whole slot plan says, and how many have parted from it.
    pub predicted: u64,
    pub parted: u64,
}

/// The verdict on each step, and whether the library's run of the whole slot plan is what the family did, slot by slot, as far as it has to be. `known`
/// are the departures that may explain a difference.
pub fn compare(
    known: Switches,
    predict: Predict,
    plan: &SlotPlan,
    seen: &FamilyObservation,
) -> Result<FamilyComparison, Fault> {
    let mut comparison = FamilyComparison::default();
    let start = &seen.start.outcome;
    if *start != (TableOutcome { code: 0, value: 0, after: Table::new(plan.start) }) {
        return Err(differ("the first thread could not be put into the start", &[("kernel", start)]));
    }
    beside_model(start, &seen.start, &mut comparison)?;
    let mut before = &start.after;
    for (place, (step, observed)) in plan.steps.iter().zip(&seen.steps).enumerate() {
        let verdict = match (step.not_asked(before), observed) {
            (None, Some(seen)) => compare_step(known, predict, before, step, seen, &mut comparison).map(Ok),
            (Some(reason), None) => Ok(Err(reason)),
            _ => Err(Fault::new("the harness has a thread where none is, or none where one is", Vec::new())),
        };
        comparison.verdicts.push(verdict.map_err(|fault| Fault { place: Some(place), ..fault })?);
        before = observed.as_ref().map_or(before, |seen| &seen.outcome.after);
    }
    (comparison.predicted, comparison.parted) = whole(predict, plan, seen, &comparison.verdicts)?;
    Ok(comparison)
}

// What is wrong, with the threads that are not the same in all outcomes.
fn differ(what: &'static str, outcomes: &[(&str, &TableOutcome)]) -> Fault {
    let mut said = Vec::new();
    let mut slots = BTreeSet::new();
    for (name, TableOutcome { code, value, after }) in outcomes {
        let in_use: Vec<usize> = after.0.keys().copied().collect();
        said.push((name.to_string(), format!("code {code}, value {value}, slots {in_use:?}")));
        slots.extend(in_use);
    }
    for slot in slots {
        let threads: Vec<Option<&Thread>> = outcomes.iter().map(|(_, outcome)| outcome.after.0.get(&slot)).collect();
        let is_same = threads.len() > 1 && threads.iter().all(|&thread| thread == threads[0]);
        for ((name, _), thread) in outcomes.iter().zip(threads).filter(|_| !is_same) {
            said.push((format!("{name}, slot {slot}"), format!("{thread:x?}")));
        }
    }
    Fault::new(what, said)
}

// Every thread's status file lists nothing beside what the model says of the kernel.
fn beside_model(kernel: &TableOutcome, seen: &FamilySeen, comparison: &mut FamilyComparison) -> Result<(), Fault> {
    for (slot, status) in &seen.statuses {
        comparison.statuses += 1;
        lists(&kernel.after.0[slot].credentials, status, LAST_LINE)?;
    }
    Ok(())
}

// The library is asked about the thread as it was observed before the step, so that a departure does not follow it around. All the others have to be
// as they were.
fn compare_step(
    known: Switches,
    predict: Predict,
    before: &Table,
    step: &SlotStep,
    seen: &FamilySeen,
    comparison: &mut FamilyComparison,
) -> Result<Verdict, Fault> {
    let observed = &seen.outcome;
    let kernel = perform(known, before, step);
    if kernel != *observed {
        return Err(differ("what the kernel did is not explained", &[("kernel", observed), ("model", &kernel)]));
    }
    beside_model(&kernel, seen, comparison)?;
    let thread = &before.0[&step.slot];
    if !thread.credentials.has_sheet() {
        return Ok(Verdict::NoSheet);
    }
    let library = prediction::outcome(predict, before, step.slot, thread, &step.step);
    let paper = perform(Switches::NONE, before, step);
    if paper != library {
        let what = "the model with every switch off is not what the library says";
        return Err(differ(what, &[("library", &library), ("kernel", observed), ("model", &paper)]));
    }
    if *observed == library {
        return Ok(Verdict::Agreed);
    }
    beside_prediction(&library, &kernel, seen, comparison)?;
    Ok(Verdict::Explained(known.fewest(|fewer| perform(fewer, before, step) == *observed)))
}

// Where a thread is not what the library says, its status file lists just what differs.
fn beside_prediction(
    library: &TableOutcome,
    kernel: &TableOutcome,
    seen: &FamilySeen,
    comparison: &mut FamilyComparison,
) -> Result<(), Fault> {
    for (slot, status) in &seen.statuses {
        let (predicted, found) = (library.after.0.get(slot), &kernel.after.0[slot]);
        if let Some(predicted) = predicted.filter(|&predicted| predicted != found) {
            let expected = status::expected(&predicted.credentials, &found.credentials);
            lists(&predicted.credentials, status, &expected)?;
            comparison.listing += u64::from(expected != LAST_LINE);
        }
    }
    Ok(())
}
