//! Calls 5 to 8: the ambient set.

use super::moment::{asked, done, refused, single, NO_CAP_AMBIENT_RAISE};
use super::{Moment, Row};

/// Whether the call's capability is in the set.
pub(super) fn is_in(m: &Moment, set: u64) -> bool {
    single(m.step.a) & set != 0
}

// The two tests of a raise, true where they refuse.
pub(super) fn is_not_in_both(m: &Moment) -> bool {
    !is_in(m, m.before.permitted & m.before.inheritable)
}

pub(super) fn is_forbidden(m: &Moment) -> bool {
    m.secure(NO_CAP_AMBIENT_RAISE)
}

fn raises(m: &Moment) -> bool {
    m.calls(5) && !is_not_in_both(m) && !is_forbidden(m)
}

fn only_ambient_is(m: &Moment, ambient: u64) -> bool {
    let mut expected = m.before.clone();
    expected.ambient = ambient;
    m.answer.after == expected
}

fn is_raised(m: &Moment) -> bool {
    only_ambient_is(m, m.before.ambient | single(m.step.a))
}

fn is_lowered(m: &Moment) -> bool {
    only_ambient_is(m, m.before.ambient & !single(m.step.a))
}

/// The rows of the four calls.
pub fn rows() -> Vec<Row<Moment>> {
    vec![
        done("Ambient raise: done", |m| raises(m) && !is_in(m, m.before.ambient), is_raised),
        done("Ambient raise: again", |m| raises(m) && is_in(m, m.before.ambient), Moment::is_unchanged),
        done("Ambient raise: not in E", |m| raises(m) && !is_in(m, m.before.effective), is_raised),
        done("Ambient raise: not in B", |m| raises(m) && !is_in(m, m.before.bounding), is_raised),
        done("Ambient raise: NO_CAP_AMBIENT_RAISE locked clear", |m| raises(m) && m.secure(128), is_raised),
        done("Ambient raise: under no-new-privs", |m| raises(m) && m.before.nnp, is_raised),
        refused("Ambient raise: refused, in P and not in I", 6, |m| {
            m.calls(5) && is_in(m, m.before.permitted & !m.before.inheritable) && !is_forbidden(m)
        }),
        refused("Ambient raise: refused, in I and not in P", 6, |m| {
            m.calls(5) && is_in(m, m.before.inheritable & !m.before.permitted) && !is_forbidden(m)
        }),
        refused("Ambient raise: refused by NO_CAP_AMBIENT_RAISE", 7, |m| {
            m.calls(5) && !is_not_in_both(m) && is_forbidden(m)
        }),
        refused("Ambient raise: refused by NO_CAP_AMBIENT_RAISE though it is there", 7, |m| {
            m.calls(5) && is_in(m, m.before.ambient) && is_forbidden(m)
        }),
        done("Ambient lower: done", |m| m.calls(6) && is_in(m, m.before.ambient), is_lowered),
        done("Ambient lower: of what is gone", |m| m.calls(6) && !is_in(m, m.before.ambient), Moment::is_unchanged),
        done(
            "Ambient lower: under NO_CAP_AMBIENT_RAISE",
            |m| m.calls(6) && is_in(m, m.before.ambient) && m.secure(NO_CAP_AMBIENT_RAISE),
            is_lowered,
        ),
        asked("Ambient is-set: 1", 1, |m| m.calls(7) && is_in(m, m.before.ambient)),
        asked("Ambient is-set: 0", 0, |m| m.calls(7) && !is_in(m, m.before.ambient)),
        asked("Ambient is-set: 0 for what P and I have", 0, |m| {
            m.calls(7) && is_in(m, m.before.permitted & m.before.inheritable & !m.before.ambient)
        }),
        done("Ambient clear all: done", |m| m.calls(8) && m.before.ambient != 0, |m| only_ambient_is(m, 0)),
        done("Ambient clear all: of none", |m| m.calls(8) && m.before.ambient == 0, Moment::is_unchanged),
    ]
}
