//! The threads by their slots, and a step of a slot plan: what the paper's rules give, and with each switch what the kernel gives instead.
//!
//! The kernel has no slots. That a child takes the lowest free one is what the harness does with it, and a number above 95, a free slot and a table
//! without one are nothing that a kernel could be asked: for these the rules are the paper's alone.

use super::{SlotStep, SLOTS};
use crate::calls;
use crate::credentials::{Outcome, Thread};
use crate::departures::{Departure::UnusedOperandIgnored, Switches};
use crate::step::{Step, EXIT, FORK};
use std::collections::BTreeMap;

const NO_THREAD: u32 = 3;
const NO_SLOT: u32 = 11;
const EINVAL: u32 = 22;

/// The threads in use, by their slots.
#[derive(Clone, Debug, Default, PartialEq, Eq)]
pub struct Table(pub BTreeMap<usize, Thread>);

impl Table {
    /// One thread, in slot 0.
    pub fn new(thread: Thread) -> Table {
        Table(BTreeMap::from([(0, thread)]))
    }

    /// The slot that a fork takes, if one is free.
    pub fn lowest_free(&self) -> Option<usize> {
        (0..SLOTS).find(|slot| !self.0.contains_key(slot))
    }
}

/// What a step comes to: the paper's code, the value, and the threads after it.
#[derive(Clone, Debug, PartialEq, Eq)]
pub struct TableOutcome {
    pub code: u32,
    pub value: u64,
    pub after: Table,
}

/// Makes the step.
pub fn perform(on: Switches, before: &Table, step: &SlotStep) -> TableOutcome {
    let SlotStep { slot, step } = step;
    let refused = |code| TableOutcome { code, value: 0, after: before.clone() };
    if *slot >= SLOTS {
        return refused(EINVAL);
    }
    let Some(thread) = before.0.get(slot) else { return refused(NO_THREAD) };
    match step.call {
        FORK | EXIT if has_operand(on, step) => refused(EINVAL),
        FORK => match before.lowest_free() {
            None => refused(NO_SLOT),
            Some(child) => with(before, child as u64, |threads| threads.insert(child, *thread)),
        },
        EXIT => with(before, 0, |threads| threads.remove(slot)),
        _ => {
            let Outcome { code, value, after } = calls::perform(on, thread, step);
            TableOutcome { code, ..with(before, value, |threads| threads.insert(*slot, after)) }
        }
    }
}

// fork(2) has no argument, and exit(2) takes any.
fn has_operand(on: Switches, step: &Step) -> bool {
    !step.attribute.is_empty() || step.has_unused_operand() && !on.on(UnusedOperandIgnored)
}

// Done, with one slot changed.
fn with(
    before: &Table,
    value: u64,
    change: impl FnOnce(&mut BTreeMap<usize, Thread>) -> Option<Thread>,
) -> TableOutcome {
    let mut after = before.clone();
    change(&mut after.0);
    TableOutcome { code: 0, value, after }
}
