//! Steps with one thing wrong, or just in range.

use super::operand_count;
use crate::attributes;
use crate::random::Random;
use crate::sets;
use second::{Credentials, Step};

/// Numbers just in and just out of the ranges that operands have.
const EDGES: [u64; 19] = [
    0,
    1,
    2,
    31,
    32,
    40,
    41,
    63,
    64,
    255,
    256,
    4_294_967_294,
    4_294_967_295,
    4_294_967_296,
    4_294_968_296,
    1 << 40,
    1 << 41,
    1 << 63,
    u64::MAX,
];

/// Makes one thing of the step wrong, or leaves it just in range.
pub(super) fn spoil(random: &mut Random, step: &mut Step, guess: &Credentials) {
    match random.below(12) {
        0..=4 => {
            let place = random.below(operand_count(step.call));
            *operand(step, place) = end_of_range(random, step.call, place);
        }
        5..=7 => *operand(step, random.below(3)) = random.pick(&EDGES),
        8 => *operand(step, random.below(3)) |= sets::bit_above_40(random),
        9 | 10 => match random.below(3) {
            0 => step.attr = attributes::good(random, guess),
            1 => step.attr = vec![0],
            _ => step.attr = attributes::any(random, guess),
        },
        _ => step.call = unknown_call(random),
    }
}

// A number that is no call, those next to a call more often.
fn unknown_call(random: &mut Random) -> u8 {
    match random.below(8) {
        0 | 1 => 0,
        2 => 23,
        3 => 99,
        _ => 23 + random.below(77) as u8,
    }
}

// A number about the end of the range that an operand of a call has.
fn end_of_range(random: &mut Random, call: u8, place: usize) -> u64 {
    match call {
        1 if place == 1 => random.pick(&[31, 32]),
        2 => sets::bit_above_40(random),
        3..=7 => random.pick(&[40, 41, 63, 64]),
        9 => random.pick(&[255, 256]),
        11 | 13 => random.pick(&[0, 1, 2]),
        1 | 15..=22 => random.pick(&[4_294_967_294, 4_294_967_295, 4_294_967_296]),
        _ => random.pick(&EDGES),
    }
}

fn operand(step: &mut Step, place: usize) -> &mut u64 {
    match place {
        0 => &mut step.a,
        1 => &mut step.b,
        _ => &mut step.c,
    }
}
