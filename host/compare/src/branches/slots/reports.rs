//! The report of a slot plan that runs: its results, then each slot in use, and the room that it takes.

use super::texts::{row, SlotSight};
use super::{LONGEST, LONGEST_PLAN, SLOTS};
use crate::branches::seen::NO_ROOM;
use crate::branches::sheet::{IDS, KEYS};
use crate::branches::validity::LARGEST_ID;
use crate::branches::Row;

/// The rows of reports.
pub fn rows() -> Vec<Row<SlotSight>> {
    let mut rows = rows_of_sizes();
    rows.extend(
        (0..SLOTS).map(|slot| reported(format!("slot {slot} is in use at the end"), move |s| s.ends_with(slot))),
    );
    rows.extend(rows_of_ends());
    rows.extend(rows_of_rooms());
    rows
}

fn reported(name: impl std::fmt::Display, when: impl Fn(&SlotSight) -> bool + Send + Sync + 'static) -> Row<SlotSight> {
    row(format!("0: {name}"), move |s| s.plan().is_some() && when(s), SlotSight::is_reported)
}

fn rows_of_sizes() -> Vec<Row<SlotSight>> {
    let mut rows = Vec::new();
    for count in [0, 1, 2, 255, 256] {
        rows.push(reported(format!("{count} steps"), move |s| s.steps() == Some(count)));
    }
    for place in IDS {
        let name = format!("{} 4294967294", KEYS[place]);
        rows.push(reported(name, move |s| s.start().is_some_and(|start| start[place] == LARGEST_ID)));
    }
    rows.push(reported("the longest slot plan", |s| s.text().len() == LONGEST_PLAN));
    rows.push(reported("the longest report", |s| s.length() == LONGEST));
    rows.push(reported("a report of 32,768 bytes or more", |s| s.length() >= 32_768));
    rows
}

fn rows_of_ends() -> Vec<Row<SlotSight>> {
    let mut rows = Vec::new();
    for size in [0, 1, 2, 3, 10, 11, 95, 96] {
        rows.push(reported(format!("{size} slots in use at the end"), move |s| s.size() == size));
    }
    rows.extend([
        reported("no slot in use at the end of one step", |s| s.size() == 0 && s.steps() == Some(1)),
        reported("no slot in use at the end, nor in the steps before", |s| {
            s.size() == 0 && s.results().ends_with(b"code=3\nvalue=0000000000000000\ncause=0\n")
        }),
        reported("slot 0 alone in use at the end", |s| s.size() == 1 && s.ends_with(0)),
        reported("another slot alone in use at the end", |s| s.size() == 1 && !s.ends_with(0)),
        reported("slot 0 is not in use at the end, others are", |s| s.size() > 1 && !s.ends_with(0)),
        reported("a gap between slots in use at the end", |s| s.has_gap()),
        reported("slots of one digit and of two", |s| {
            (0..10).any(|slot| s.ends_with(slot)) && (10..SLOTS).any(|slot| s.ends_with(slot))
        }),
        reported("every slot at the end holds the sheet's credentials, steps or not", |s| s.all_hold(true)),
        reported("no slot at the end holds the sheet's credentials", |s| s.size() > 1 && s.all_hold(false)),
    ]);
    rows
}

fn rows_of_rooms() -> Vec<Row<SlotSight>> {
    let runs = |s: &SlotSight| s.plan().is_some();
    let results = |s: &SlotSight| s.results().len();
    vec![
        row("28: one byte short", runs, |s| s.seen.one_short == NO_ROOM),
        row("28: no room", runs, |s| s.seen.no_room == NO_ROOM),
        row("0: just enough room", runs, |s| s.seen.exact == s.seen.roomy && s.is_reported()),
        row(
            "28: the room ends in the results",
            move |s| runs(s) && s.seen.some.0 < results(s),
            |s| s.seen.some.1 == NO_ROOM,
        ),
        row(
            "28: the room ends in the slots",
            move |s| runs(s) && s.seen.some.0 >= results(s) && s.seen.some.0 < s.length(),
            |s| s.seen.some.1 == NO_ROOM,
        ),
        row(
            "28: room for the results, none for the one slot",
            move |s| runs(s) && s.size() == 1 && s.seen.some.0 >= results(s) && s.seen.some.0 < s.length(),
            |s| s.seen.some.1 == NO_ROOM,
        ),
        row(
            "0: more room than the report takes",
            move |s| runs(s) && s.seen.some.0 > s.length(),
            |s| s.seen.some.1 == s.seen.roomy,
        ),
    ]
}
