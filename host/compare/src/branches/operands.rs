//! The twenty-two calls and refusal 22: which operands each call has, and what they may be.

use super::launching::{NOSUID, SET_GROUP_ID, SET_USER_ID, TRACED};
use super::{Moment, Row};
use second::Step;

/// How many calls there are; they are numbered from 1.
pub const CALLS: u8 = 22;

/// What an operand may be.
#[derive(Clone, Copy, PartialEq, Eq)]
enum Operand {
    Unused,
    Capability,
    Set,
    Securebits,
    Flags,
    Owner,
    Group,
    Id,
    IdOrLeave,
    ZeroOrOne,
    One,
}

use Operand::*;

impl Operand {
    fn holds(self, value: u64) -> bool {
        match self {
            Unused => value == 0,
            Capability => value <= 40,
            Set => value <= 0x1ff_ffff_ffff,
            Securebits => value <= 255,
            Flags => value <= 31,
            Owner | Group | Id => value <= 4_294_967_294,
            IdOrLeave => value <= 4_294_967_295,
            ZeroOrOne => value <= 1,
            One => value == 1,
        }
    }

    /// Values just out of range, each a row of its own; for the rest there is one row.
    fn faults(self) -> &'static [u64] {
        match self {
            Unused | Set => &[],
            Capability => &[41, 63, 64],
            Securebits => &[256],
            Flags => &[32],
            Owner | Group | Id => &[4_294_967_295, 4_294_967_296],
            IdOrLeave => &[4_294_967_296],
            ZeroOrOne => &[2],
            One => &[0, 2],
        }
    }

    fn is_named(self) -> &'static str {
        match self {
            Unused => "nonzero and unused",
            Capability => "a capability above 40",
            Set => "a set with a bit above 40",
            Securebits => "securebits above 255",
            Flags => "flags above 31",
            Owner => "an owner above 4294967294",
            Group => "a group above 4294967294",
            Id => "an ID above 4294967294",
            IdOrLeave => "an ID above 4294967295",
            ZeroOrOne => "above 1",
            One => "not 1",
        }
    }
}

/// Operands a, b and c of calls 1 to 22.
const OPERANDS: [[Operand; 3]; CALLS as usize] = [
    [Owner, Flags, Group],
    [Set, Set, Set],
    [Capability, Unused, Unused],
    [Capability, Unused, Unused],
    [Capability, Unused, Unused],
    [Capability, Unused, Unused],
    [Capability, Unused, Unused],
    [Unused, Unused, Unused],
    [Securebits, Unused, Unused],
    [Unused, Unused, Unused],
    [ZeroOrOne, Unused, Unused],
    [Unused, Unused, Unused],
    [One, Unused, Unused],
    [Unused, Unused, Unused],
    [Id, Unused, Unused],
    [IdOrLeave, IdOrLeave, Unused],
    [IdOrLeave, IdOrLeave, IdOrLeave],
    [IdOrLeave, Unused, Unused],
    [Id, Unused, Unused],
    [IdOrLeave, IdOrLeave, Unused],
    [IdOrLeave, IdOrLeave, IdOrLeave],
    [IdOrLeave, Unused, Unused],
];

/// Whether no reason for refusal 22 applies.
pub fn is_given(step: &Step) -> bool {
    let Some(operands) = operands_of(step.call) else { return false };
    let values = [step.a, step.b, step.c];
    let all_hold = operands.iter().zip(values).all(|(operand, value)| operand.holds(value));
    all_hold && (step.call == 1 || step.attr.is_empty())
}

/// Whether there is a reason for refusal 22, and none in an operand that the call's rules could refuse: something is given where nothing may be, or
/// a number of a launch is out of range.
pub fn is_wrong_untested(step: &Step) -> bool {
    let Some(operands) = operands_of(step.call) else { return false };
    let values = [step.a, step.b, step.c];
    let is_right = |operand: Operand, value| matches!(operand, Unused | Owner | Flags | Group) || operand.holds(value);
    operands.iter().zip(values).all(|(operand, value)| is_right(*operand, value)) && !is_given(step)
}

fn operands_of(call: u8) -> Option<&'static [Operand; 3]> {
    OPERANDS.get(usize::from(call).checked_sub(1)?)
}

/// The rows of refusal 22 for numbers that are no call: those next to a call, the largest of a plan, and the rest.
pub fn rows_of_no_call() -> Vec<Row<Moment>> {
    let row = |name: &str, when: fn(u8) -> bool| {
        Row::new(name, move |m: &Moment| when(m.step.call), |m: &Moment| m.is_refused(22))
    };
    vec![
        row("22: 0 is no call", |call| call == 0),
        row("22: 23 is no call", |call| call == 23),
        row("22: 99 is no call", |call| call == 99),
        row("22: 24 to 98 are no calls", |call| (24..=98).contains(&call)),
    ]
}

/// The rows of refusal 22 for a file's owner and group, which are looked at whether the set-ID bits are there or not.
pub fn rows_of_owner_and_group() -> Vec<Row<Moment>> {
    let mut rows = Vec::new();
    for (place, name, bit, bit_name) in
        [(0, "owner", SET_USER_ID, "set-user-ID"), (2, "group", SET_GROUP_ID, "set-group-ID")]
    {
        for (given, with) in [(bit, "with"), (0, "without")] {
            rows.push(Row::new(
                format!("22: call 1, {name} above 4294967294 {with} {bit_name}"),
                move |m: &Moment| only_fault(m, place) && m.step.b & bit == given,
                |m| m.is_refused(22),
            ));
        }
        rows.push(Row::new(
            format!("22: call 1, {name} above 4294967294 under an ignored {bit_name}"),
            move |m: &Moment| {
                only_fault(m, place) && m.step.b & bit != 0 && (m.before.nnp || m.step.b & (NOSUID | TRACED) != 0)
            },
            |m| m.is_refused(22),
        ));
    }
    rows
}

/// The rows of refusal 22 for one of the calls.
pub fn rows_of_call(call: u8) -> Vec<Row<Moment>> {
    let operands = operands_of(call).expect("a call has operands");
    let mut rows = Vec::new();
    for (place, operand) in operands.iter().copied().enumerate() {
        rows.extend(rows_of_operand(call, place, operand));
    }
    if call != 1 {
        let name = format!("22: call {call}, attribute given");
        rows.push(Row::new(name, move |m: &Moment| only_fault(m, 3), |m| m.is_refused(22)));
    }
    rows
}

fn rows_of_operand(call: u8, place: usize, operand: Operand) -> Vec<Row<Moment>> {
    let letter = ["a", "b", "c"][place];
    let reason = operand.is_named();
    let mut rows = vec![Row::new(
        format!("22: call {call}, {letter} {reason}"),
        move |m: &Moment| only_fault(m, place),
        |m| m.is_refused(22),
    )];
    for fault in operand.faults().iter().copied() {
        rows.push(Row::new(
            format!("22: call {call}, {letter} = {fault}"),
            move |m: &Moment| only_fault(m, place) && [m.step.a, m.step.b, m.step.c][place] == fault,
            |m| m.is_refused(22),
        ));
    }
    rows
}

// Whether that place (0 to 2 an operand, 3 the attribute) has the one reason for refusal 22.
fn only_fault(m: &Moment, place: usize) -> bool {
    let Some(operands) = operands_of(m.step.call) else { return false };
    let values = [m.step.a, m.step.b, m.step.c];
    let operand_fails = |at: usize| !operands[at].holds(values[at]);
    let attribute_fails = m.step.call != 1 && !m.step.attr.is_empty();
    (0..3).all(|at| operand_fails(at) == (at == place)) && attribute_fails == (place == 3)
}
