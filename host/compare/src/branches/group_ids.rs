//! Calls 19 to 22 touch no capability set: a group 0 is no root, and none of the rules after an ID call runs.

use super::family::{Family, EFFECTIVE, FILESYSTEM, SETFSUID};
use super::fixups::FILESYSTEM_SET;
use super::moment::{KEEP_CAPS, NO_SETUID_FIXUP};
use super::{Moment, Row};

const GROUPS: Family = Family::Groups;

/// The rows of the four calls.
pub fn rows() -> Vec<Row<Moment>> {
    let mut rows = Vec::new();
    for (call, name) in GROUPS.calls().into_iter().zip(GROUPS.names()) {
        rows.push(row(call, name, "securebits and no-new-privs stay", |m| m.before.securebits != 0 && m.before.nnp));
    }
    for (call, name) in GROUPS.calls().into_iter().zip(GROUPS.names()).take(SETFSUID) {
        rows.extend(rows_of_group_0(call, name));
    }
    rows.extend(rows_of_filesystem_group_0());
    rows
}

// A row of a call that changes group IDs: nothing but those has changed.
fn row(call: u8, name: &str, what: &str, when: impl Fn(&Moment) -> bool + Send + Sync + 'static) -> Row<Moment> {
    let changes = move |m: &Moment| GROUPS.new_ids(m).is_some_and(|ids| ids != GROUPS.before(m));
    Row::new(
        format!("{name}: {what}"),
        move |m: &Moment| m.calls(call) && changes(m) && when(m),
        |m: &Moment| m.is_accepted() && GROUPS.are_set(m),
    )
}

// What the rules 1 to 3 after an ID call would do.
fn rows_of_group_0(call: u8, name: &str) -> Vec<Row<Moment>> {
    let would_run = |m: &Moment| !m.secure(NO_SETUID_FIXUP);
    let would_clear_effective = |m: &Moment| GROUPS.goes(m, EFFECTIVE, true, false);
    vec![
        row(call, name, "no group 0 any more, P, E and A stay", move |m| {
            would_run(m) && GROUPS.leaves_0(m) && m.before.effective != 0 && !m.secure(KEEP_CAPS)
        }),
        row(call, name, "no group 0 any more, KEEP_CAPS set, E and A stay", move |m| {
            let would_clear_some = m.before.ambient != 0 || (would_clear_effective(m) && m.before.effective != 0);
            would_run(m) && GROUPS.leaves_0(m) && would_clear_some && m.secure(KEEP_CAPS)
        }),
        row(call, name, "no group 0 any more, NO_SETUID_FIXUP set, P, E and A stay", move |m| {
            !would_run(m) && GROUPS.leaves_0(m) && m.before.effective != 0
        }),
        row(call, name, "effective group from 0 to nonzero, E stays", move |m| {
            would_run(m) && would_clear_effective(m) && m.before.effective != 0
        }),
        row(call, name, "effective group from nonzero to 0, E stays", move |m| {
            would_run(m) && GROUPS.goes(m, EFFECTIVE, false, true) && m.before.effective != m.before.permitted
        }),
        row(call, name, "filesystem group from 0 to nonzero, E stays", move |m| {
            would_run(m) && GROUPS.goes(m, FILESYSTEM, true, false) && m.before.effective & FILESYSTEM_SET != 0
        }),
    ]
}

// What rule 4 would do in call 22.
fn rows_of_filesystem_group_0() -> Vec<Row<Moment>> {
    let (call, name) = (GROUPS.calls()[SETFSUID], GROUPS.names()[SETFSUID]);
    let would_lower = |m: &Moment| GROUPS.goes(m, FILESYSTEM, true, false) && m.before.effective & FILESYSTEM_SET != 0;
    let would_raise = |m: &Moment| {
        GROUPS.goes(m, FILESYSTEM, false, true) && m.before.permitted & !m.before.effective & FILESYSTEM_SET != 0
    };
    vec![
        row(call, name, "from 0 to nonzero, E stays", move |m| would_lower(m) && !m.secure(NO_SETUID_FIXUP)),
        row(call, name, "from nonzero to 0, E stays", move |m| would_raise(m) && !m.secure(NO_SETUID_FIXUP)),
        row(call, name, "from 0 to nonzero, KEEP_CAPS set, E stays", move |m| would_lower(m) && m.secure(KEEP_CAPS)),
        row(call, name, "from 0 to nonzero, NO_SETUID_FIXUP set, E stays", move |m| {
            would_lower(m) && m.secure(NO_SETUID_FIXUP)
        }),
        row(call, name, "from nonzero to 0, NO_SETUID_FIXUP set, E stays", move |m| {
            let goes = GROUPS.goes(m, FILESYSTEM, false, true);
            goes && m.before.effective != m.before.permitted && m.secure(NO_SETUID_FIXUP)
        }),
    ]
}
