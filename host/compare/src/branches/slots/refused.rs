//! Steps that name a slot above 95, refused with 22, or one that is not in use, refused with 3: before anything else is looked at.

use super::moment::{refused, row, Asked, SlotMoment, PLACES};
use super::{EXIT, FORK, SLOTS};
use crate::branches::operands::CALLS;
use crate::branches::Row;

/// The rows of both.
pub fn rows() -> Vec<Row<SlotMoment>> {
    let mut rows = rows_out_of_range();
    rows.extend(rows_of_free_slots());
    rows.extend(rows_of_calls_in_free_slots());
    rows.extend(rows_of_unused_operands());
    rows
}

fn is_a_call(m: &SlotMoment) -> bool {
    (1..=CALLS).contains(&m.step.call)
}

fn is_no_call(m: &SlotMoment) -> bool {
    !is_a_call(m) && m.step.call != FORK && m.step.call != EXIT
}

// What slot 0 would answer to the call.
fn code_in_slot_0(m: &SlotMoment) -> Option<u32> {
    is_a_call(m).then(|| m.would_be(0)).flatten().map(|answer| answer.code)
}

// What the thread that was in the slot would answer to the call.
fn code_by_what_is_left(m: &SlotMoment) -> Option<u32> {
    let left = m.past.left.as_ref().filter(|_| is_a_call(m));
    left.map(|left| second::perform(left, &m.step).code)
}

fn rows_out_of_range() -> Vec<Row<SlotMoment>> {
    let above = |name: &str, when: fn(&SlotMoment) -> bool| {
        refused(format!("slot above 95, {name}"), 22, move |m| m.asked() == Asked::OutOfRange && when(m))
    };
    let mut rows: Vec<_> =
        (SLOTS..=99).map(|slot| refused(format!("slot {slot}"), 22, move |m| m.slot == slot)).collect();
    rows.extend([
        above("a call", is_a_call),
        above("a fork", |m| m.step.call == FORK && m.is_bare()),
        above("an exit", |m| m.step.call == EXIT && m.is_bare()),
        above("no call", is_no_call),
        above("a fork where no slot is free, and not 11", |m| m.step.call == FORK && m.is_bare() && m.is_full()),
        above("a fork with something where nothing may be", |m| m.step.call == FORK && !m.is_bare()),
        above("an exit with something where nothing may be", |m| m.step.call == EXIT && !m.is_bare()),
        above("a call that slot 0 would do", |m| code_in_slot_0(m) == Some(0)),
        above("a call that slot 0 would be refused with 1, and no cause", |m| code_in_slot_0(m) == Some(1)),
        above("a call that slot 0 would be refused with 60", |m| code_in_slot_0(m) == Some(60)),
        above("where all slots are in use", SlotMoment::is_full),
        above("where none is in use, and not 3", |m| m.in_use == 0),
    ]);
    rows.extend(PLACES.map(|(place, is_there)| above(place, is_there)));
    rows
}

fn rows_of_free_slots() -> Vec<Row<SlotMoment>> {
    let mut rows = vec![
        unused("a slot that was never in use", |m| m.past.taken == 0),
        unused("a slot that was freed", |m| m.past.taken > 0),
        unused("a slot that was freed twice", |m| m.past.taken > 1),
        unused("slot 0, which exited", |m| m.slot == 0),
        unused("slot 1", |m| m.slot == 1),
        unused("slot 94", |m| m.slot == 94),
        unused("slot 95", |m| m.slot == 95),
        unused("the slot after the highest in use", |m| {
            m.highest_in_use().is_some_and(|highest| highest + 1 == m.slot)
        }),
        unused("a slot below the highest in use", |m| m.highest_in_use().is_some_and(|highest| highest > m.slot)),
        unused("the lowest free slot", |m| m.lowest_free() == Some(m.slot)),
        unused("a free slot that is not the lowest", |m| m.lowest_free() != Some(m.slot)),
        unused("the one free slot", |m| m.size() == 95),
        unused("the slot that exited just before", |m| {
            m.last_freed == Some(m.slot) && m.last.is_some_and(|a| a.code == 0)
        }),
        unused("where none is in use, a call", |m| m.in_use == 0 && is_a_call(m)),
        unused("where none is in use, a fork", |m| m.in_use == 0 && m.step.call == FORK),
        unused("where none is in use, an exit", |m| m.in_use == 0 && m.step.call == EXIT),
        unused("again", |m| m.last.is_some_and(|last| last.code == 3)),
    ];
    rows.extend(PLACES.map(|(place, is_there)| unused(place, is_there)));
    rows
}

fn unused(name: impl std::fmt::Display, when: impl Fn(&SlotMoment) -> bool + Send + Sync + 'static) -> Row<SlotMoment> {
    refused(name, 3, move |m| m.asked() == Asked::NotInUse && when(m))
}

fn rows_of_calls_in_free_slots() -> Vec<Row<SlotMoment>> {
    let mut rows = Vec::new();
    for call in 1..=CALLS {
        rows.push(unused(format!("call {call}"), move |m| m.step.call == call));
    }
    rows.extend([
        unused("a fork", |m| m.step.call == FORK && m.is_bare()),
        unused("a fork by a slot that was freed", |m| m.step.call == FORK && m.is_bare() && m.past.taken > 0),
        unused("a fork by the lowest free slot", |m| {
            m.step.call == FORK && m.is_bare() && m.lowest_free() == Some(m.slot)
        }),
        unused("an exit", |m| m.step.call == EXIT && m.is_bare()),
        unused("an exit of a slot that was freed", |m| m.step.call == EXIT && m.is_bare() && m.past.taken > 0),
        unused("a call that the thread there would have done", |m| code_by_what_is_left(m) == Some(0)),
        unused("before 1, and no cause: a call that the thread there would have been refused", |m| {
            code_by_what_is_left(m) == Some(1)
        }),
        unused("before 60: an attribute that the thread there would not have read", |m| {
            code_by_what_is_left(m) == Some(60)
        }),
        unused("before 22: an operand that the thread there would have been refused for", |m| {
            code_by_what_is_left(m) == Some(22)
        }),
        unused("a call that slot 0 would do", |m| code_in_slot_0(m) == Some(0)),
        unused("a call that slot 0 would be refused with 1", |m| code_in_slot_0(m) == Some(1)),
        unused("before 22: no call", is_no_call),
    ]);
    for call in [0, 23, 29, 32, 99] {
        rows.push(unused(format!("before 22: {call}, which is no call"), move |m| m.step.call == call));
    }
    rows
}

// What fork and exit do not use is looked at after the slot.
fn rows_of_unused_operands() -> Vec<Row<SlotMoment>> {
    let mut rows = Vec::new();
    for (call, name) in [(FORK, "a fork"), (EXIT, "an exit")] {
        for (what, is_there) in super::unused_operands::GIVEN {
            let name = format!("3 before 22: {name} with {what}");
            rows.push(row(
                name,
                move |m| m.asked() == Asked::NotInUse && m.step.call == call && is_there(&m.step),
                |m| m.is_refused(3),
            ));
        }
    }
    rows
}
