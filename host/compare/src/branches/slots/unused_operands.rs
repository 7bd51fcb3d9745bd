//! What fork and exit do not use: any operand and the attribute, refused with 22.

use super::moment::{refused, SlotMoment};
use crate::branches::attribute::{read, Reading};
use crate::branches::Row;
use second::Step;

/// What is given and may not be, alone.
pub const GIVEN: [(&str, fn(&Step) -> bool); 4] = [
    ("a alone", |step| is_alone(step, 0)),
    ("b alone", |step| is_alone(step, 1)),
    ("c alone", |step| is_alone(step, 2)),
    ("an attribute alone", |step| is_alone(step, 3)),
];

// Whether that place (0 to 2 an operand, 3 the attribute) is the one that has something.
fn is_alone(step: &Step, place: usize) -> bool {
    let given = [step.a != 0, step.b != 0, step.c != 0, !step.attr.is_empty()];
    given.iter().enumerate().all(|(at, is_given)| *is_given == (at == place))
}

fn operand(step: &Step, place: usize) -> u64 {
    [step.a, step.b, step.c][place]
}

/// The rows of fork or of exit, by its number and its name.
pub fn rows(call: u8, name: &str) -> Vec<Row<SlotMoment>> {
    let given = |what: String, when: fn(&SlotMoment) -> bool| {
        refused(format!("{name} with {what}"), 22, move |m| m.step.call == call && !m.is_bare() && when(m))
    };
    let mut rows = Vec::new();
    for (what, is_there) in GIVEN {
        let row = |more: &str, when: fn(&SlotMoment) -> bool| {
            let name = format!("{name} with {what}{more}");
            refused(name, 22, move |m| m.step.call == call && is_there(&m.step) && when(m))
        };
        rows.push(row(" in slot 0", |m| m.slot == 0));
        rows.push(row(" in another slot", |m| m.slot != 0));
    }
    for (place, letter) in ["a", "b", "c"].into_iter().enumerate() {
        let row = |what: String, is_it: fn(u64) -> bool| {
            refused(format!("{name} with {letter} {what}"), 22, move |m| {
                m.step.call == call && is_alone(&m.step, place) && is_it(operand(&m.step, place))
            })
        };
        rows.push(row("1".into(), |value| value == 1));
        rows.push(row("0 in its low 32 bits".into(), |value| value as u32 == 0));
        rows.push(row("of 64 ones".into(), |value| value == u64::MAX));
    }
    rows.extend([
        given("all operands".into(), |m| (0..3).all(|place| operand(&m.step, place) != 0)),
        given("an attribute of one zero byte".into(), |m| m.step.attr == [0]),
        given("an attribute that could be read".into(), |m| matches!(read(&m.step.attr), Reading::File(_))),
        given("an attribute that could not be read, and not 60".into(), |m| read(&m.step.attr) == Reading::Unreadable),
        given("a slot in use for a".into(), |m| (1..96).contains(&m.step.a) && m.uses(m.step.a as u8)),
        given("a free slot for a".into(), |m| (1..96).contains(&m.step.a) && !m.uses(m.step.a as u8)),
        given("something, where it is the one slot in use".into(), |m| m.size() == 1),
        given("something, after a refusal with a cause".into(), SlotMoment::follows_a_cause),
        given("something, after a step that gave a value".into(), SlotMoment::follows_a_value),
    ]);
    rows
}
