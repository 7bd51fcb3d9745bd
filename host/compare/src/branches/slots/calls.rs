//! Calls in a slot: they come to what they come to by that slot's credentials alone, and change no other slot. Numbers that are no calls are refused.

use super::moment::{refused, row, SlotMoment, PLACES};
use crate::branches::operands::CALLS;
use crate::branches::Row;
use second::{Answer, SlotAnswer};

/// The calls whose rules can refuse them.
const REFUSABLE: [u8; 12] = [1, 2, 3, 5, 9, 11, 15, 16, 17, 19, 20, 21];

/// The largest cause.
const CAUSES: u32 = 11;

/// The rows of calls.
pub fn rows() -> Vec<Row<SlotMoment>> {
    let mut rows: Vec<Row<SlotMoment>> = (1..=CALLS).flat_map(rows_of_call).collect();
    rows.extend((1..=CAUSES).map(|cause| {
        called(format!("refused for cause {cause} in another slot than 0"), move |m, alone| {
            m.slot != 0 && alone.cause == cause
        })
    }));
    rows.extend(rows_of_no_call());
    rows.extend(rows_of_slots());
    rows.extend(rows_of_kin());
    rows
}

// Whether what came back, and what the slot holds then, is what the call comes to there, and no other slot changed.
fn is_called(m: &SlotMoment) -> bool {
    m.alone.as_ref().is_some_and(|alone| {
        m.answer == SlotAnswer { code: alone.code, value: alone.value, cause: alone.cause }
            && m.after.held(m.slot) == Some(&alone.after)
            && m.changes_only(m.slot)
    })
}

fn called(
    name: impl std::fmt::Display,
    when: impl Fn(&SlotMoment, &Answer) -> bool + Send + Sync + 'static,
) -> Row<SlotMoment> {
    row(format!("call: {name}"), move |m| m.alone.as_ref().is_some_and(|alone| when(m, alone)), is_called)
}

// Whether it is done and changes what the slot holds.
fn changes(m: &SlotMoment, alone: &Answer) -> bool {
    m.held().is_some_and(|held| *held != alone.after)
}

fn rows_of_call(call: u8) -> Vec<Row<SlotMoment>> {
    let row = |name: &str, when: fn(&SlotMoment, &Answer) -> bool| {
        called(format!("{call}, {name}"), move |m, alone| m.step.call == call && when(m, alone))
    };
    let mut rows = vec![
        row("done in another slot than 0", |m, alone| m.slot != 0 && alone.code == 0),
        row("done in slot 0, others being in use", |m, alone| m.slot == 0 && m.size() > 1 && alone.code == 0),
        row("refused with 22 in another slot than 0", |m, alone| m.slot != 0 && alone.code == 22),
        row("where slot 0 would answer otherwise or come to hold something else", |m, alone| {
            m.in_slot_0.as_ref().is_some_and(|other| other != alone)
        }),
    ];
    if REFUSABLE.contains(&call) {
        rows.push(row("refused with 1 in another slot than 0", |m, alone| m.slot != 0 && alone.code == 1));
        rows.push(row("refused with 1 where slot 0 would do it", |m, alone| {
            alone.code == 1 && m.in_slot_0.as_ref().is_some_and(|other| other.code == 0)
        }));
        rows.push(row("done where slot 0 would be refused with 1", |m, alone| {
            alone.code == 0 && m.in_slot_0.as_ref().is_some_and(|other| other.code == 1)
        }));
    }
    if call == 1 {
        rows.push(row("refused with 60 in another slot than 0", |m, alone| m.slot != 0 && alone.code == 60));
    }
    rows
}

// Next to a call, next to fork and exit, the largest of a slot plan, and the rest.
fn rows_of_no_call() -> Vec<Row<SlotMoment>> {
    let none =
        |name: &str, is_it: fn(u8) -> bool| refused(format!("{name} in a slot"), 22, move |m| is_it(m.step.call));
    let mut rows = vec![
        none("0 is no call", |call| call == 0),
        none("23 is no call", |call| call == 23),
        none("24 to 28 are no calls", |call| (24..=28).contains(&call)),
        none("29 is no call", |call| call == 29),
        none("32 is no call", |call| call == 32),
        none("33 to 98 are no calls", |call| (33..=98).contains(&call)),
        none("99 is no call", |call| call == 99),
    ];
    rows.push(refused("no call in another slot than 0", 22, |m| m.slot != 0 && is_no_call(m.step.call)));
    rows.push(refused("no call where no slot is free, and not 11", 22, |m| m.is_full() && is_no_call(m.step.call)));
    rows
}

fn is_no_call(call: u8) -> bool {
    !(1..=CALLS).contains(&call)
}

fn rows_of_slots() -> Vec<Row<SlotMoment>> {
    let mut rows = Vec::new();
    for slot in [0, 1, 9, 10, 63, 64, 94, 95] {
        let name = format!("changes what slot {slot} holds");
        rows.push(called(name, move |m, alone| m.slot == slot && changes(m, alone)));
    }
    rows.extend([
        called("where all slots are in use", |m, alone| m.is_full() && changes(m, alone)),
        called("in a slot that was taken again, whose first thread would answer otherwise", |m, alone| {
            m.past.left.as_ref().is_some_and(|left| second::perform(left, &m.step) != *alone)
        }),
        called("in slot 0, taken again", |m, alone| m.slot == 0 && m.past.taken > 1 && changes(m, alone)),
        called("in the one slot in use, which is not slot 0", |m, alone| {
            m.slot > 0 && m.size() == 1 && changes(m, alone)
        }),
        called("by a child", |m, alone| m.past.generation == 1 && changes(m, alone)),
        called("by a grandchild", |m, alone| m.past.generation == 2 && changes(m, alone)),
        called("by a thread of a later generation", |m, alone| m.past.generation > 2 && changes(m, alone)),
        called("by the thread that was forked just before", |m, alone| {
            m.slot > 0 && m.last.is_some_and(|last| last.value == u64::from(m.slot)) && changes(m, alone)
        }),
        called("that gives a value in another slot than 0", |m, alone| m.slot != 0 && alone.value != 0),
    ]);
    for (place, is_there) in PLACES {
        rows.push(called(format!("done {place}"), move |m, alone| is_there(m) && alone.code == 0));
        rows.push(called(format!("refused with 22 {place}"), move |m, alone| is_there(m) && alone.code == 22));
    }
    rows.push(called("refused for a cause after one refused for another", |m, alone| {
        alone.cause != 0 && m.last.is_some_and(|last| last.cause != 0 && last.cause != alone.cause)
    }));
    rows
}

// A call changes what one thread holds; its kin hold what they did, which was the same.
fn rows_of_kin() -> Vec<Row<SlotMoment>> {
    let kin = |name: &str, is_kin: fn(&SlotMoment) -> bool| {
        called(format!("{name}, another slot holding the same before"), move |m, alone| {
            is_kin(m) && changes(m, alone) && m.is_shared()
        })
    };
    vec![
        kin("by a parent whose child is in use", |m| m.past.has_child),
        kin("by a child whose parent is in use", |m| m.past.has_parent),
        kin("by a child whose sibling is in use", |m| m.past.has_sibling),
        kin("in slot 0", |m| m.slot == 0),
        kin("in another slot", |m| m.slot != 0),
    ]
}
