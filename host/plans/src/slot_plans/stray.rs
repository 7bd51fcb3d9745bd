//! Steps that are refused for their slot, and forks and exits with something where nothing may be.

use super::family::{Family, SLOTS};
use super::{bare, EXIT, FORK};
use crate::attributes;
use crate::random::Random;
use second::{Credentials, Step};

/// What a fork or an exit could be thought to take for an operand: a slot, its neighbour, how many there are; and numbers that are 0 in their low bits.
const OPERANDS: [u64; 10] = [1, 1, 2, 31, 95, 96, 1 << 8, 1 << 32, 1 << 63, u64::MAX];

/// Such a step and its slot.
pub(super) fn step(random: &mut Random, family: &mut Family) -> (u8, Step) {
    match random.below(12) {
        0..=3 => {
            let slot = family.free_slot(random);
            (slot, any(random, family, slot))
        }
        4 | 5 => {
            let slot = SLOTS as u8 + random.below(4) as u8;
            (slot, any(random, family, slot))
        }
        6..=9 => {
            let slot = family.member(random);
            (slot, spoiled(random))
        }
        _ => {
            let slot = family.member(random);
            (slot, no_call(random))
        }
    }
}

/// A step for any slot: a call, a fork, an exit, something wrong with these, or no call.
pub(super) fn any(random: &mut Random, family: &mut Family, slot: u8) -> Step {
    match random.below(8) {
        0..=3 => family.maker(slot).clone().any(random),
        4 => bare(FORK),
        5 => bare(EXIT),
        6 => spoiled(random),
        _ => no_call(random),
    }
}

// A fork or an exit with an operand, with several, or with an attribute.
fn spoiled(random: &mut Random) -> Step {
    let mut step = bare(random.pick(&[FORK, FORK, EXIT]));
    let operand = if random.one_in(4) { random.number() } else { random.pick(&OPERANDS) };
    match random.below(9) {
        0 | 1 => step.a = operand,
        2 | 3 => step.b = operand,
        4 | 5 => step.c = operand,
        6 => [step.a, step.b, step.c] = [operand, random.pick(&OPERANDS), random.pick(&OPERANDS)],
        _ => step.attr = attribute(random),
    }
    step
}

// One zero byte, one that could be read, or one that could not.
fn attribute(random: &mut Random) -> Vec<u8> {
    let guess = Credentials { bounding: crate::sets::FULL, ..crate::starts::valid(random) };
    match random.below(3) {
        0 => vec![0],
        1 => attributes::good(random, &guess),
        _ => {
            let length = 1 + random.below(24);
            random.bytes(length)
        }
    }
}

// A number that is no call in a slot, those next to one more often.
fn no_call(random: &mut Random) -> Step {
    bare(match random.below(8) {
        0 => 0,
        1 => 23,
        2 => 29,
        3 => 32,
        4 => 99,
        5 => 24 + random.below(6) as u8,
        _ => 32 + random.below(68) as u8,
    })
}
