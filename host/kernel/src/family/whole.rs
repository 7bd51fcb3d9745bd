//! The library's run of a whole slot plan, laid beside the family after every step.
//!
//! A thread that met a departure has parted from what the plan says of it, and so has every child that it forks from then on. All others have to be as
//! the library says, also beside those: a difference stays in its slot. Only a fork or an exit that the paper refuses for an operand, and the kernel
//! makes, ends it: after that the slots are not the same ones.

use super::comparison::StepVerdict;
use super::prediction::{Predict, SlotReport};
use super::table::{perform, TableOutcome};
use super::{SlotPlan, SlotStep};
use crate::comparison::{Fault, Verdict};
use crate::departures::Switches;
use crate::harness::FamilyObservation;
use crate::step::{EXIT, FORK};
use std::collections::BTreeSet;

/// How many threads after a step that was made are as the library's run of the slot plan up to there says, and how many are not laid beside it.
pub fn whole(
    predict: Predict,
    plan: &SlotPlan,
    seen: &FamilyObservation,
    verdicts: &[StepVerdict],
) -> Result<(u64, u64), Fault> {
    let mut whole = Whole { predict, plan, parted: BTreeSet::new(), answers: Vec::new(), predicted: 0, left: 0 };
    let mut are_same = true;
    let mut last = seen.start.outcome.clone();
    for (place, (step, seen)) in plan.steps.iter().zip(&seen.steps).enumerate() {
        // What is not asked of the kernel is answered by the paper's rules, and changes nothing.
        last = seen.as_ref().map_or_else(|| perform(Switches::NONE, &last.after, step), |seen| seen.outcome.clone());
        are_same = are_same
            && whole.step(place, &last, &verdicts[place]).map_err(|fault| Fault { place: Some(place), ..fault })?;
        if !are_same && seen.is_some() {
            whole.left += last.after.0.len() as u64;
        }
    }
    Ok((whole.predicted, whole.left))
}

struct Whole<'a> {
    predict: Predict<'a>,
    plan: &'a SlotPlan,
    /// The slots whose threads have parted from the plan.
    parted: BTreeSet<usize>,
    /// What the library answered up to here.
    answers: Vec<(u32, u64)>,
    predicted: u64,
    left: u64,
}

impl Whole<'_> {
    // Says whether the slots in use are the same ones on both sides.
    fn step(&mut self, place: usize, observed: &TableOutcome, verdict: &StepVerdict) -> Result<bool, Fault> {
        let SlotStep { slot, step } = &self.plan.steps[place];
        let report = (self.predict)(&self.plan.start.credentials, &self.plan.steps[..=place]);
        let is_operation = matches!(step.call, FORK | EXIT);
        if !report.slots.keys().eq(observed.after.0.keys()) {
            if is_operation && step.has_unused_operand() && verdict.is_ok() {
                return Ok(false);
            }
            let what = "other slots are in use than in the library's run of the whole slot plan";
            return Err(self.fault(what, &report, observed));
        }
        // A thread that has parted answers calls in its own way, but forks and exits as any other.
        let is_explained = matches!(verdict, Ok(Verdict::Explained(_)));
        let has_parted = is_explained || self.parted.contains(slot) && !is_operation && verdict.is_ok();
        if report.results[..place] != self.answers
            || !has_parted && report.results[place] != (observed.code, observed.value)
        {
            let what = "the library's answers in the whole slot plan are not those of its steps";
            return Err(self.fault(what, &report, observed));
        }
        self.part(*slot, is_explained, (step.call == FORK && observed.code == 0).then_some(observed.value as usize));
        self.threads(&report, observed, verdict.is_ok())?;
        self.answers = report.results;
        Ok(true)
    }

    // A child has parted from the plan where its parent has, whatever the slot's last thread did.
    fn part(&mut self, slot: usize, is_explained: bool, child: Option<usize>) {
        if is_explained {
            self.parted.insert(slot);
        }
        if let Some(child) = child {
            self.parted.remove(&child);
            self.parted.extend(self.parted.contains(&slot).then_some(child));
        }
    }

    // After a step that was not asked they are what they were, and are not counted again.
    fn threads(&mut self, report: &SlotReport, observed: &TableOutcome, is_asked: bool) -> Result<(), Fault> {
        for (slot, thread) in &observed.after.0 {
            if self.parted.contains(slot) {
                self.left += u64::from(is_asked);
            } else if report.slots[slot] == thread.credentials {
                self.predicted += u64::from(is_asked);
            } else {
                let what = "a thread is not what the library's run of the whole slot plan says";
                return Err(self.fault(what, report, observed));
            }
        }
        Ok(())
    }

    // What is wrong, with both sides.
    fn fault(&self, what: &'static str, report: &SlotReport, observed: &TableOutcome) -> Fault {
        let mut said = vec![
            ("library, answers".to_owned(), format!("{:x?}", report.results)),
            ("kernel, last answer".to_owned(), format!("{:x?}", (observed.code, observed.value))),
        ];
        for (slot, credentials) in &report.slots {
            said.push((format!("library, slot {slot}"), format!("{credentials:x?}")));
        }
        for (slot, thread) in &observed.after.0 {
            said.push((format!("kernel, slot {slot}"), format!("{:x?}", thread.credentials)));
        }
        said.push(("parted".to_owned(), format!("{:?}", self.parted)));
        Fault::new(what, said)
    }
}
