//! Exit: 22 for what it does not use; else the slot is free, and nothing else changes.

use super::moment::{row, SlotMoment, KINDS_OF_THREADS, PLACES};
use super::{unused_operands, EXIT, SLOTS};
use crate::branches::Row;

/// The rows of exit.
pub fn rows() -> Vec<Row<SlotMoment>> {
    let mut rows = unused_operands::rows(EXIT, "an exit");
    rows.extend((0..SLOTS).map(|slot| exited(format!("of slot {slot}"), move |m| m.slot == slot)));
    rows.extend(rows_of_members());
    rows
}

// Whether it was done with value 0, the slot is free, and no other slot changed.
fn is_exited(m: &SlotMoment) -> bool {
    m.is_done(0) && m.after.held(m.slot).is_none() && m.changes_only(m.slot)
}

fn exited(name: impl std::fmt::Display, when: impl Fn(&SlotMoment) -> bool + Send + Sync + 'static) -> Row<SlotMoment> {
    row(format!("exit: {name}"), move |m| m.is_bare() && when(m), is_exited)
}

fn rows_of_members() -> Vec<Row<SlotMoment>> {
    let is_highest = |m: &SlotMoment| m.highest_in_use() == Some(m.slot);
    let is_lowest = |m: &SlotMoment| m.in_use.trailing_zeros() == u32::from(m.slot);
    let mut rows = vec![
        exited("of slot 0, others being in use", |m| m.slot == 0 && m.size() > 1),
        exited("of slot 0, the last in use", |m| m.slot == 0 && m.size() == 1),
        exited("of another, the last in use", |m| m.slot > 0 && m.size() == 1),
        exited("of the highest in use", move |m| is_highest(m) && m.size() > 1),
        exited("of the lowest in use, which is not slot 0", move |m| is_lowest(m) && m.slot > 0 && m.size() > 1),
        exited("of one between", move |m| !is_highest(m) && !is_lowest(m)),
        exited("the slot after it in use", |m| m.slot < 95 && m.uses(m.slot + 1)),
        exited("the slot before it in use", |m| m.slot > 0 && m.uses(m.slot - 1)),
        exited("all slots in use", SlotMoment::is_full),
        exited("of the last but one", |m| m.size() == 2),
        exited("of the sheet's thread", |m| m.past.generation == 0),
        exited("of a child", |m| m.past.generation == 1),
        exited("of a grandchild", |m| m.past.generation == 2),
        exited("of a parent whose child is in use", |m| m.past.has_child),
        exited("of a child whose parent is in use", |m| m.past.has_parent),
        exited("of a child whose sibling is in use", |m| m.past.has_sibling),
        exited("of a slot that was taken again", |m| m.past.taken > 1),
        exited("of slot 0, taken again", |m| m.slot == 0 && m.past.taken > 1),
        exited("just after a fork into it", |m| {
            m.last.is_some_and(|last| last.code == 0 && last.value == u64::from(m.slot)) && m.slot > 0
        }),
        exited("where another slot holds what it holds", SlotMoment::is_shared),
    ];
    for (name, is_so) in KINDS_OF_THREADS {
        rows.push(exited(format!("of {name}"), move |m| m.held().is_some_and(is_so)));
    }
    rows.extend(PLACES.map(|(place, is_there)| exited(place, is_there)));
    rows
}
