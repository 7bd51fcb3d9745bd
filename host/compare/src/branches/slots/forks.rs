//! Fork: 22 for what it does not use, 11 where no slot is free, and which slot it takes and what it puts there.

use super::moment::{lowest, refused, row, SlotMoment, Slots, KINDS_OF_THREADS, PLACES};
use super::unused_operands::{self, GIVEN};
use super::{FORK, SLOTS};
use crate::branches::sheet::KEYS;
use crate::branches::Row;
use second::Credentials;

/// The rows of fork.
pub fn rows() -> Vec<Row<SlotMoment>> {
    let mut rows = unused_operands::rows(FORK, "a fork");
    rows.extend(rows_of_no_free_slot());
    rows.extend((0..SLOTS).map(|slot| {
        row(format!("fork: into slot {slot}"), move |m| is_done_by_rule(m, |_, free| free == slot), is_forked)
    }));
    rows.extend(rows_of_the_lowest());
    rows.extend(rows_of_callers());
    rows.extend(KEYS.into_iter().enumerate().flat_map(|(place, key)| rows_of_value(place, key)));
    rows
}

// Whether the fork has nothing that it does not use, there is a free slot, and that is true with the lowest one.
fn is_done_by_rule(m: &SlotMoment, when: impl Fn(&SlotMoment, u8) -> bool) -> bool {
    m.is_bare() && m.lowest_free().is_some_and(|free| when(m, free))
}

// Whether it was done: its value is the lowest free slot, which holds what the caller does, and no other slot changed.
fn is_forked(m: &SlotMoment) -> bool {
    m.lowest_free().is_some_and(|free| {
        m.is_done(u64::from(free)) && m.after.held(free) == m.held() && m.held().is_some() && m.changes_only(free)
    })
}

fn forked(
    name: impl std::fmt::Display,
    when: impl Fn(&SlotMoment, u8) -> bool + Send + Sync + 'static,
) -> Row<SlotMoment> {
    row(format!("fork: {name}"), move |m| is_done_by_rule(m, &when), is_forked)
}

fn rows_of_no_free_slot() -> Vec<Row<SlotMoment>> {
    let none = |name: &str, when: fn(&SlotMoment) -> bool| {
        refused(format!("no slot is free, {name}"), 11, move |m| m.is_bare() && m.is_full() && when(m))
    };
    let mut rows = vec![
        none("by slot 0", |m| m.slot == 0),
        none("by slot 95", |m| m.slot == 95),
        none("by another slot", |m| (1..95).contains(&m.slot)),
        none("just after the last was taken", |m| m.last.is_some_and(|last| last.code == 0 && last.value == 95)),
        none("again", |m| m.last.is_some_and(|last| last.code == 11)),
        none("after one was freed and taken again", |m| m.last_freed.is_some()),
        none("by the slot that was taken again", |m| m.past.taken > 1),
        none("as step 256", |m| m.index == 255),
        none("after a refusal with a cause", SlotMoment::follows_a_cause),
        none("after a step that gave a value", SlotMoment::follows_a_value),
    ];
    for (name, is_so) in KINDS_OF_THREADS {
        let name = format!("no slot is free, by {name}");
        rows.push(refused(name, 11, move |m| m.is_bare() && m.is_full() && m.held().is_some_and(is_so)));
    }
    for (what, is_there) in GIVEN {
        rows.push(row(
            format!("22 before 11: a fork with {what}, where no slot is free"),
            move |m| m.is_full() && is_there(&m.step),
            |m| m.is_refused(22),
        ));
    }
    rows
}

// The free slots above the lowest.
fn other_free(m: &SlotMoment, free: u8) -> Slots {
    m.free() & !(1 << free)
}

// Whether there is a slot in use between the two lowest free slots.
fn has_two_gaps(m: &SlotMoment, free: u8) -> bool {
    let highest = m.highest_in_use().unwrap_or(0);
    lowest(other_free(m, free)).is_some_and(|next| next < highest && next > free + 1)
}

fn rows_of_the_lowest() -> Vec<Row<SlotMoment>> {
    let mut rows = vec![
        forked("the slot after the highest in use", |m, free| m.highest_in_use().is_some_and(|top| top + 1 == free)),
        forked("a gap below the highest in use", |m, free| m.highest_in_use().is_some_and(|highest| highest > free)),
        forked("the lower of two gaps", has_two_gaps),
        forked("the lower of two free slots side by side below the highest in use", |m, free| {
            let highest = m.highest_in_use().unwrap_or(0);
            free + 1 < highest && !m.uses(free + 1)
        }),
        forked("a slot below the caller", |m, free| free < m.slot),
        forked("a slot above the caller", |m, free| free > m.slot),
        forked("the slot after the caller", |m, free| free == m.slot + 1),
        forked("not the slot after the caller, though it is free", |m, free| {
            free < m.slot && m.slot < 95 && !m.uses(m.slot + 1)
        }),
        forked("not the slot before the caller, though it is free", |m, free| {
            m.slot > 0 && free + 1 < m.slot && !m.uses(m.slot - 1)
        }),
        forked("the slot that was freed last", |m, free| m.last_freed == Some(free)),
        forked("not the slot that was freed last, though it is free", |m, free| {
            m.last_freed.is_some_and(|last| last != free && !m.uses(last))
        }),
        forked("a slot that was never in use", |m, _| m.left_in_free.is_none()),
        forked("a slot that was freed", |m, _| m.left_in_free.is_some()),
        forked("slot 95 is free too", |m, free| free < 95 && !m.uses(95)),
        forked("the last free slot, a gap", |m, free| m.size() == 95 && free < 95),
    ];
    for size in [1, 2, 3, 94, 95] {
        rows.push(forked(format!("{size} in use"), move |m, _| m.size() == size));
    }
    rows
}

fn rows_of_callers() -> Vec<Row<SlotMoment>> {
    let mut rows = vec![
        forked("by slot 0", |m, _| m.slot == 0),
        forked("by the highest in use", |m, _| m.slot > 0 && m.highest_in_use() == Some(m.slot)),
        forked("by one between", |m, _| m.slot > 0 && m.highest_in_use().is_some_and(|highest| highest > m.slot)),
        forked("by slot 95", |m, _| m.slot == 95),
        forked("by the sheet's thread", |m, _| m.past.generation == 0),
        forked("by a child", |m, _| m.past.generation == 1),
        forked("by a grandchild", |m, _| m.past.generation == 2),
        forked("by a thread of a later generation", |m, _| m.past.generation > 2),
        forked("by a thread in a slot that was taken again", |m, _| m.past.taken > 1),
        forked("by slot 0, taken again", |m, _| m.slot == 0 && m.past.taken > 1),
        forked("by a parent whose child is in use", |m, _| m.past.has_child),
        forked("by a child whose parent has exited", |m, _| m.past.generation > 0 && !m.past.has_parent),
        forked("where another slot holds what the caller does", |m, _| m.is_shared()),
    ];
    for (name, is_so) in KINDS_OF_THREADS {
        rows.push(forked(format!("by {name}"), move |m, _| m.held().is_some_and(is_so)));
    }
    for (place, is_there) in PLACES {
        rows.push(forked(place, move |m, _| is_there(m)));
    }
    rows
}

// One of the fifteen values is copied: from the caller, and not from where else it could come.
fn rows_of_value(place: usize, key: &str) -> Vec<Row<SlotMoment>> {
    let differs = move |m: &SlotMoment, other: Option<&Credentials>| {
        let value = |held: &Credentials| plans::values(held)[place];
        other.zip(m.held()).is_some_and(|(other, held)| value(other) != value(held))
    };
    vec![
        forked(format!("{key} is not the sheet's"), move |m, _| differs(m, Some(&m.start))),
        forked(format!("{key} is not what the slot held before"), move |m, _| differs(m, m.left_in_free.as_ref())),
        forked(format!("{key} is not that of slot 0"), move |m, _| differs(m, m.before.held(0))),
        forked(format!("{key} is not 0"), move |m, _| m.held().is_some_and(|held| plans::values(held)[place] != 0)),
    ]
}
