//! Whose children the threads of a family are. A thread that asks to be traced is traced by its parent, and only the harness can let it go.

use super::table::TableOutcome;
use super::SlotStep;
use crate::step::{EXIT, FORK};
use std::collections::BTreeMap;

/// The slot of each thread's parent. The others are the harness's children: the first thread, and orphans.
#[derive(Default)]
pub struct Parents(BTreeMap<usize, usize>);

impl Parents {
    /// Whether another thread of the family is the parent of the one in that slot.
    pub fn has(&self, slot: usize) -> bool {
        self.0.contains_key(&slot)
    }

    /// Takes note of a step and what it came to.
    pub fn note(&mut self, step: &SlotStep, outcome: &TableOutcome) {
        let SlotStep { slot, step } = step;
        match (step.call, outcome.code) {
            (FORK, 0) => self.0.extend([(outcome.value as usize, *slot)]),
            (EXIT, 0) => self.0.retain(|child, parent| child != slot && parent != slot),
            _ => {}
        }
    }
}
