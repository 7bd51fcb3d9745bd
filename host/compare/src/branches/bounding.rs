//! Calls 3 and 4: the bounding set.

use super::moment::{asked, done, lacks_setpcap, refused, single, CAP_SETPCAP};
use super::{Moment, Row};

// Whether the call's capability is in the set.
fn names_one_of(m: &Moment, set: u64) -> bool {
    single(m.step.a) & set != 0
}

fn drops(m: &Moment) -> bool {
    m.calls(3) && !lacks_setpcap(m)
}

fn only_bounding_changes(m: &Moment) -> bool {
    let mut expected = m.before.clone();
    expected.bounding &= !single(m.step.a);
    m.answer.after == expected
}

/// The rows of the two calls.
pub fn rows() -> Vec<Row<Moment>> {
    vec![
        done("Bounding drop: done", |m| drops(m) && names_one_of(m, m.before.bounding), only_bounding_changes),
        done(
            "Bounding drop: P stays",
            |m| drops(m) && names_one_of(m, m.before.bounding & m.before.permitted),
            only_bounding_changes,
        ),
        done(
            "Bounding drop: I stays",
            |m| drops(m) && names_one_of(m, m.before.bounding & m.before.inheritable),
            only_bounding_changes,
        ),
        done(
            "Bounding drop: A stays",
            |m| drops(m) && names_one_of(m, m.before.bounding & m.before.ambient),
            only_bounding_changes,
        ),
        done(
            "Bounding drop: of what is gone",
            |m| drops(m) && !names_one_of(m, m.before.bounding),
            Moment::is_unchanged,
        ),
        done("Bounding drop: capability 40", |m| drops(m) && m.step.a == 40, only_bounding_changes),
        refused("Bounding drop: refused without SETPCAP", 1, |m| {
            m.calls(3) && lacks_setpcap(m) && m.before.permitted & CAP_SETPCAP == 0
        }),
        refused("Bounding drop: refused, SETPCAP permitted but not in effect", 1, |m| {
            m.calls(3) && lacks_setpcap(m) && m.before.permitted & CAP_SETPCAP != 0
        }),
        asked("Bounding read: 1", 1, |m| m.calls(4) && names_one_of(m, m.before.bounding)),
        asked("Bounding read: 0", 0, |m| m.calls(4) && !names_one_of(m, m.before.bounding)),
        asked("Bounding read: capability 40", 1, |m| {
            m.calls(4) && m.step.a == 40 && names_one_of(m, m.before.bounding)
        }),
    ]
}
