//! The values that a status text has: those of the sheet, or changed in some of the ten keys.

use super::lines::{Found, FOUND};
use crate::inputs::values;
use crate::random::Random;
use crate::starts::{self, Family, NO_ID};
use crate::{inputs, sets};
use second::Credentials;

const NNP: usize = 9;

/// The ten values of credentials that a status text has too.
pub(super) fn compared(credentials: &Credentials) -> Found {
    let [ruid, euid, suid, fsuid, _, _, _, _, permitted, inheritable, effective, bounding, ambient, _, nnp] =
        values(credentials);
    [ruid, euid, suid, fsuid, permitted, inheritable, effective, bounding, ambient, nnp]
}

/// What is found where those values are predicted: the same, others in one key, in all but one, in all, in some; or those of other credentials,
/// valid or not.
pub(super) fn found(random: &mut Random, predicted: &Found) -> Found {
    let mut found = *predicted;
    let one = random.below(FOUND);
    let any = random.number();
    let is_changed = |key: usize, how: usize| match how {
        0..=4 => false,
        5..=8 => key == one,
        9..=10 => key != one,
        11..=12 => true,
        _ => any >> key & 1 == 1,
    };
    match random.below(20) {
        17 => return compared(&inputs::start(random)),
        18 => return compared(&inputs::flawed(random)),
        how => {
            for key in (0..FOUND).filter(|key| is_changed(*key, how)) {
                found[key] = changed(random, key, predicted[key]);
            }
        }
    }
    // Two keys exchanged: whoever takes one for the other lists neither.
    if random.one_in(12) {
        let (from, to) = if random.one_in(2) { (0, 4) } else { (4, NNP) };
        found.swap(from + random.below(to - from), from + random.below(to - from));
    }
    found
}

/// Other values in all ten keys, the IDs with ten digits: with those of `starts::ids_of_ten_digits` predicted, the longest list.
pub(super) fn all_changed(random: &mut Random, predicted: &Found) -> Found {
    let mut found = *predicted;
    for (key, value) in found.iter_mut().enumerate() {
        *value = if key < 4 { id_of_ten_digits(random, *value) } else { changed(random, key, *value) };
    }
    found
}

fn id_of_ten_digits(random: &mut Random, other_than: u64) -> u64 {
    loop {
        let id = u64::from(starts::number_of_ten_digits(random));
        if id != other_than {
            return id;
        }
    }
}

// Another value of that key.
fn changed(random: &mut Random, key: usize, value: u64) -> u64 {
    if key == NNP {
        return 1 - value;
    }
    loop {
        let other = if key < 4 { other_id(random, value) } else { other_set(random, value) };
        if other != value {
            return other;
        }
    }
}

// One more or less, right in its low 8 or 16 bits, with a digit more or less, 4294967295, any number of digits, or any.
fn other_id(random: &mut Random, value: u64) -> u64 {
    let other = match random.below(10) {
        0 => value.wrapping_add(1),
        1 => value.wrapping_sub(1),
        2 => value ^ 1 << (8 + random.below(24)),
        3 => value ^ 1 << (16 + random.below(16)),
        4 => value / 10,
        5 => value.wrapping_mul(10),
        6 => u64::from(NO_ID),
        7 => 10_u64.pow(random.below(10) as u32) - random.below(2) as u64,
        8 => u64::from(starts::id(random, Family::Users)),
        _ => random.number(),
    };
    other & u64::from(NO_ID)
}

// One bit more or less, above 40 too; near the other; all 64; the halves exchanged; or any.
fn other_set(random: &mut Random, value: u64) -> u64 {
    match random.below(10) {
        0..=3 => value ^ 1 << random.below(64),
        4 => value | sets::bit_above_40(random),
        5 => sets::near(random, value),
        6 => value.rotate_left(32),
        7 => random.pick(&[0, u64::MAX, sets::FULL, !sets::FULL]),
        8 => sets::any(random),
        _ => random.number(),
    }
}
