//! The answers that have cause 0: done, 22 and 60, where a test of the rules fails as well or would do.

use super::{failing, tests_of};
use crate::branches::attribute::{has_bits_above_40, has_other_bits, has_wrong_length, taken_anyway};
use crate::branches::family::{Family, SETFSUID};
use crate::branches::ids::is_denied;
use crate::branches::launching::{falls_short_of, Launch};
use crate::branches::operands::is_wrong_untested;
use crate::branches::{Moment, Row};

/// The rows of one call.
pub fn rows(call: u8) -> Vec<Row<Moment>> {
    let mut rows = vec![done(call)];
    for test in tests_of(call) {
        rows.extend(rows_of_refusal_22(call, test.cause));
    }
    for family in [Family::Users, Family::Groups] {
        if call == family.calls()[SETFSUID] {
            rows.extend(rows_of_silent_call(call, family));
        }
    }
    if call == 1 {
        rows.extend(rows_of_refusal_60());
    }
    rows
}

// No test fails. A launch is refused with 60 then, if its attribute is unreadable.
fn done(call: u8) -> Row<Moment> {
    let is_readable = |m: &Moment| m.launch.as_ref().is_none_or(|launch| !launch.is_unreadable());
    Row::new(
        format!("Causes: call {call}, 0 where it is done"),
        move |m: &Moment| m.calls(call) && failing(m) == 0 && is_readable(m),
        Moment::is_accepted,
    )
}

// 22 comes before 1: something is given that no test looks at, or what one looks at is out of range. The test of a launch looks at no number.
fn rows_of_refusal_22(call: u8, cause: u32) -> Vec<Row<Moment>> {
    let row = |what: &str, untested: bool| {
        Row::new(
            format!("Causes: call {call}, 0 with 22 for {what}, not {cause}"),
            move |m: &Moment| !m.given && failing(m) >> cause & 1 == 1 && is_wrong_untested(&m.step) == untested,
            |m: &Moment| m.is_refused(22),
        )
    };
    let mut rows = vec![row("something untested", true)];
    if call != 1 {
        rows.push(row("an operand", false));
    }
    rows
}

// An ID that is not allowed is not refused, and nothing is said of it.
fn rows_of_silent_call(call: u8, family: Family) -> Vec<Row<Moment>> {
    let denied = move |m: &Moment| m.calls(call) && is_denied(family, m);
    let is_silent = |m: &Moment| m.is_accepted() && m.is_unchanged();
    vec![
        Row::new(format!("Causes: call {call}, 0 for an ID that is not allowed"), denied, is_silent),
        Row::new(
            format!("Causes: call {call}, 0 for an ID that is not allowed, with E empty"),
            move |m: &Moment| denied(m) && m.before.effective == 0,
            is_silent,
        ),
    ]
}

// 60 comes before 1: 12 or 20 bytes that are unreadable, and would fall short if they were taken all the same.
fn rows_of_refusal_60() -> Vec<Row<Moment>> {
    let row = |name: &str, is_so: fn(&[u8]) -> bool| {
        Row::new(
            format!("Causes: call 1, 0 with 60 for {name}, not 11"),
            move |m: &Moment| {
                let is_unreadable = m.launch.as_ref().is_some_and(Launch::is_unreadable);
                let file = taken_anyway(&m.step.attr).filter(|file| file.effective);
                is_unreadable && is_so(&m.step.attr) && file.is_some_and(|file| falls_short_of(&m.before, &file))
            },
            |m: &Moment| m.is_refused(60),
        )
    };
    vec![
        row("a revision", |bytes| has_wrong_length(bytes) && !has_other_bits(bytes)),
        row("other bits in the first word", |bytes| has_other_bits(bytes) && !has_wrong_length(bytes)),
        row("a bit above 40", |bytes| has_bits_above_40(bytes) && !has_wrong_length(bytes)),
    ]
}
