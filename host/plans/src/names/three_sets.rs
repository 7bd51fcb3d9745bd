//! Three sets to be written in names: permitted, inheritable, effective.

use super::numbers;
use crate::random::Random;
use crate::sets::{self, FULL};

/// The sets of that seed, in this order: permitted, inheritable, effective. Of four one has a bit above 40 in one of them, or in several.
pub fn named_sets(seed: u64) -> [u64; 3] {
    // Not those of the text of that seed.
    let mut random = numbers(!seed);
    let mut three = in_range(&mut random);
    if random.one_in(4) {
        spoil(&mut random, &mut three);
    }
    three
}

/// Sets of capabilities only: empty, full, of one, few or any, like each other or not.
pub(super) fn in_range(random: &mut Random) -> [u64; 3] {
    match random.below(20) {
        0 => [0; 3],
        1 => [FULL; 3],
        2..=4 => single(random),
        5 => {
            let one = any_single(random);
            [one, sets::within(random, one), sets::within(random, one)]
        }
        6..=9 => {
            // A thread's own: effective within permitted.
            let permitted = sets::any(random);
            [permitted, sets::near(random, permitted), sets::within(random, permitted)]
        }
        10 | 11 => {
            let one = sets::any(random);
            [one; 3]
        }
        12 | 13 => {
            // Each capability has one flag at most.
            let (first, second) = (random.number() & FULL, random.number());
            [first & second, first & !second, !first & FULL & random.number()]
        }
        14 | 15 => [sparse(random), sparse(random), sparse(random)],
        _ => [sets::any(random), sets::any(random), sets::any(random)],
    }
}

// One capability in one of the three, now and then all of them.
fn single(random: &mut Random) -> [u64; 3] {
    let mut three = [0; 3];
    three[random.below(3)] = if random.one_in(12) { FULL } else { any_single(random) };
    three
}

fn any_single(random: &mut Random) -> u64 {
    1 << random.below(41)
}

fn sparse(random: &mut Random) -> u64 {
    random.number() & random.number() & random.number() & random.number() & FULL
}

// Puts a bit above 40 into one of the sets, or several into any of them; now and then nothing else is left.
fn spoil(random: &mut Random, three: &mut [u64; 3]) {
    if random.one_in(6) {
        *three = [0; 3];
    }
    let count = if random.one_in(3) { 2 + random.below(3) } else { 1 };
    for _ in 0..count {
        three[random.below(3)] |= 1 << (41 + random.below(23));
    }
}

#[cfg(test)]
mod tests {
    use super::*;

    #[test]
    fn each_set_is_in_range_and_out_of_it_and_every_bit_is_met() {
        let mut seen = [[false; 2]; 3];
        let mut met = [0; 3];
        for seed in 0..20_000 {
            for (place, set) in named_sets(seed).into_iter().enumerate() {
                seen[place][usize::from(set > FULL)] = true;
                met[place] |= set;
            }
        }
        assert_eq!(seen, [[true; 2]; 3]);
        assert_eq!(met, [u64::MAX; 3]);
    }

    #[test]
    fn sets_in_range_have_capabilities_only() {
        let mut random = Random::new(3);
        for _ in 0..2000 {
            assert!(in_range(&mut random).iter().all(|set| set & !FULL == 0));
        }
    }
}
