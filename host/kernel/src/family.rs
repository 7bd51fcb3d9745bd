//! Slot plans: a family of threads, each in a slot, that are forked from one another and make calls in turn.

pub mod comparison;
pub mod fixed;
pub mod generator;
mod parents;
pub mod planted;
pub mod prediction;
pub mod table;
pub mod tally;
#[cfg(test)]
mod tests;
mod whole;

use crate::credentials::{Credentials, Thread};
use crate::departures::Switches;
use crate::step::{Step, Tracer, ATTRIBUTE_ELSEWHERE, EXIT, FORK};
use parents::Parents;
use table::{perform, Table};

/// How many slots there are.
pub const SLOTS: usize = urrezkalu::SLOTS;

/// A step, and the slot whose thread makes it.
#[derive(Clone, Debug, PartialEq, Eq)]
pub struct SlotStep {
    pub slot: usize,
    pub step: Step,
}

impl SlotStep {
    /// The step in that slot.
    pub fn new(slot: usize, step: Step) -> SlotStep {
        SlotStep { slot, step }
    }

    /// The thread in that slot forks.
    pub fn fork(slot: usize) -> SlotStep {
        SlotStep::new(slot, Step::new(FORK))
    }

    /// The thread in that slot exits.
    pub fn exit(slot: usize) -> SlotStep {
        SlotStep::new(slot, Step::new(EXIT))
    }

    /// The six lines of a slot plan.
    pub fn lines(&self) -> String {
        format!("slot={}\n{}", self.slot, self.step.lines())
    }

    /// Reads the six lines of a step, or says nothing where they are not a step's.
    pub fn from_lines<'a>(lines: &mut impl Iterator<Item = &'a str>) -> Option<SlotStep> {
        let slot = lines.next()?.strip_prefix("slot=")?.parse().ok()?;
        Some(SlotStep { slot, step: Step::from_lines(lines)? })
    }

    /// Why the machine cannot be asked this step, whatever threads there are, if it cannot.
    pub fn not_run(&self) -> Option<&'static str> {
        match self.step.call {
            FORK | EXIT => (!self.step.attribute.is_empty()).then_some(ATTRIBUTE_ELSEWHERE),
            _ => self.step.not_run(),
        }
    }

    /// Why there is no thread to ask this step, or no slot for the thread that it would make, if it is so.
    pub fn not_asked(&self, before: &Table) -> Option<&'static str> {
        if self.slot >= SLOTS {
            return Some("a step that names a slot above 95: there is no thread to ask");
        }
        if !before.0.contains_key(&self.slot) {
            return Some("a step that names a free slot: there is no thread to ask");
        }
        let is_crowded = self.step.call == FORK && before.lowest_free().is_none();
        is_crowded.then_some("a fork where no slot is free: the kernel knows no slots, and would fork")
    }
}

/// A start and what a family does from it.
#[derive(Clone, Debug, PartialEq, Eq)]
pub struct SlotPlan {
    pub name: String,
    pub start: Thread,
    pub steps: Vec<SlotStep>,
}

impl SlotPlan {
    /// Has the harness seize every thread for a traced launch that could not ask for it, its parent being another thread of the family.
    pub fn seize(&mut self) {
        let (mut table, mut parents) = (Table::new(self.start), Parents::default());
        for step in self.steps.iter_mut().filter(|step| step.not_run().is_none()) {
            if parents.has(step.slot) {
                step.step.setting.tracer = Tracer::Seized;
            }
            let outcome = perform(Switches::EVERY, &table, step);
            parents.note(step, &outcome);
            table = outcome.after;
        }
    }
}

/// Reads the text of a slot plan: the library decides what is one, and it is then read without further care.
pub fn parse(text: &str) -> Option<(Credentials, Vec<SlotStep>)> {
    let mut report = [0; urrezkalu::LONGEST_SLOT_REPORT];
    let urrezkalu::Outcome::Report { .. } = urrezkalu::run_slot_plan(text.as_bytes(), &mut report) else { return None };
    let mut lines = text.lines().peekable();
    let start = Credentials::from_lines(&mut lines)?;
    let mut steps = Vec::new();
    while lines.peek().is_some() {
        steps.push(SlotStep::from_lines(&mut lines)?);
    }
    Some((start, steps))
}
