//! Call 2: the four refusals, and what is left of the ambient set. What comes back where several tests refuse at once is in `causes`.

use super::moment::{done, is_within, lacks_setpcap, refused, CAP_SETPCAP};
use super::{Moment, Row};
use second::Credentials;

/// Whether the new I is not within I and P together, which SETPCAP allows.
pub(super) fn is_beyond_permitted(m: &Moment) -> bool {
    !is_within(m.step.b, m.before.inheritable | m.before.permitted)
}

// The four tests, true where they refuse.
pub(super) fn takes_beyond_permitted(m: &Moment) -> bool {
    lacks_setpcap(m) && is_beyond_permitted(m)
}

pub(super) fn takes_beyond_bounding(m: &Moment) -> bool {
    !is_within(m.step.b, m.before.inheritable | m.before.bounding)
}

pub(super) fn permits_more(m: &Moment) -> bool {
    !is_within(m.step.a, m.before.permitted)
}

pub(super) fn effects_more(m: &Moment) -> bool {
    !is_within(m.step.c, m.step.a)
}

const TESTS: [fn(&Moment) -> bool; 4] = [takes_beyond_permitted, takes_beyond_bounding, permits_more, effects_more];

// Whether that test refuses and no other does.
fn only(m: &Moment, test: usize) -> bool {
    m.calls(2) && (0..TESTS.len()).all(|at| TESTS[at](m) == (at == test))
}

fn none_refuses(m: &Moment) -> bool {
    m.calls(2) && TESTS.iter().all(|test| !test(m))
}

fn sets_are_those_given(m: &Moment) -> bool {
    let after = &m.answer.after;
    [after.permitted, after.inheritable, after.effective] == [m.step.a, m.step.b, m.step.c]
}

/// The rows of capset.
pub fn rows() -> Vec<Row<Moment>> {
    vec![
        refused("capset: refused, new I beyond I and P without SETPCAP", 2, |m| only(m, 0)),
        refused("capset: refused, SETPCAP permitted but not in effect", 2, |m| {
            only(m, 0) && m.before.permitted & CAP_SETPCAP != 0
        }),
        refused("capset: refused, SETPCAP gained by the call itself is no help", 2, |m| {
            only(m, 0) && m.step.c & CAP_SETPCAP != 0
        }),
        refused("capset: refused, new I beyond I and B with SETPCAP", 3, |m| only(m, 1) && m.has(CAP_SETPCAP)),
        refused("capset: refused, new I beyond I and B, within P, without SETPCAP", 3, |m| {
            only(m, 1) && lacks_setpcap(m)
        }),
        refused("capset: refused, new P beyond P", 4, |m| only(m, 2)),
        refused("capset: refused, new P beyond P with SETPCAP", 4, |m| only(m, 2) && m.has(CAP_SETPCAP)),
        refused("capset: refused, new E beyond new P", 5, |m| only(m, 3)),
        refused("capset: refused, new E within old E and beyond new P", 5, |m| {
            only(m, 3) && is_within(m.step.c, m.before.effective)
        }),
        done("capset: done, sets as given", none_refuses, sets_are_those_given),
        done(
            "capset: nothing but P, I, E and A changes",
            |m| none_refuses(m) && m.before.securebits != 0 && m.before.rgid != m.before.ruid,
            |m| {
                let (before, after) = (m.before.clone(), &m.answer.after);
                let Credentials { permitted, inheritable, effective, ambient, .. } = *after;
                *after == Credentials { permitted, inheritable, effective, ambient, ..before }
            },
        ),
        done(
            "capset: new I beyond I and P, by SETPCAP",
            |m| none_refuses(m) && is_beyond_permitted(m),
            sets_are_those_given,
        ),
        done(
            "capset: new I from P without SETPCAP",
            |m| none_refuses(m) && lacks_setpcap(m) && !is_within(m.step.b, m.before.inheritable),
            sets_are_those_given,
        ),
        done(
            "capset: I kept beyond B",
            |m| none_refuses(m) && !is_within(m.step.b, m.before.bounding),
            sets_are_those_given,
        ),
        done(
            "capset: E grows within P",
            |m| none_refuses(m) && !is_within(m.step.c, m.before.effective),
            sets_are_those_given,
        ),
        done(
            "capset: A loses what left P",
            |m| none_refuses(m) && m.before.ambient & !m.step.a & m.step.b != 0,
            |m| m.answer.after.ambient == m.before.ambient & m.step.a & m.step.b,
        ),
        done(
            "capset: A loses what left I",
            |m| none_refuses(m) && m.before.ambient & !m.step.b & m.step.a != 0,
            |m| m.answer.after.ambient == m.before.ambient & m.step.a & m.step.b,
        ),
        done(
            "capset: A keeps what stays in both",
            |m| none_refuses(m) && m.before.ambient & m.step.a & m.step.b != 0,
            |m| m.answer.after.ambient == m.before.ambient & m.step.a & m.step.b,
        ),
        done(
            "capset: A stays beyond E",
            |m| none_refuses(m) && m.before.ambient & m.step.a & m.step.b & !m.step.c != 0,
            |m| m.answer.after.ambient == m.before.ambient & m.step.a & m.step.b,
        ),
    ]
}
