//! Capability sets that are worth trying: small ones, full ones, full but for one, and sets near to another set.

use crate::random::Random;

/// Every capability, 0 to 40.
pub(crate) const FULL: u64 = 0x0000_01ff_ffff_ffff;
pub(crate) const SETGID: u64 = 1 << 6;
pub(crate) const SETUID: u64 = 1 << 7;
pub(crate) const SETPCAP: u64 = 1 << 8;

/// The capabilities that a rule names, the ends of the range and of its words, and some that the plans of examples/ use.
const FAVOURED: [u64; 19] = [0, 1, 2, 3, 4, 6, 7, 8, 9, 10, 12, 13, 17, 27, 31, 32, 33, 39, 40];

/// A capability's number, 0 to 40.
pub(crate) fn capability(random: &mut Random) -> u64 {
    if random.one_in(3) {
        random.below(41) as u64
    } else {
        random.pick(&FAVOURED)
    }
}

/// A set of one capability.
pub(crate) fn single(random: &mut Random) -> u64 {
    1 << capability(random)
}

/// Any set, the small and the full ones more often than the rest.
pub(crate) fn any(random: &mut Random) -> u64 {
    match random.below(8) {
        0 => 0,
        1 => single(random),
        2 => single(random) | single(random) | single(random),
        3 => random.number() & FULL,
        4 => random.number() & random.number() & random.number() & FULL,
        5 => FULL & !single(random),
        6 => FULL & !(single(random) | single(random) | single(random)),
        _ => FULL,
    }
}

/// A set within `of`: all of it, none, all but one, one, or any part.
pub(crate) fn within(random: &mut Random, of: u64) -> u64 {
    match random.below(8) {
        0 => 0,
        1..=3 => of,
        4 => of & !member_set(random, of),
        5 => of & member_set(random, of),
        _ => of & random.number(),
    }
}

/// A set near to `of`: within it, the same, with one more, or with one exchanged.
pub(crate) fn near(random: &mut Random, of: u64) -> u64 {
    match random.below(4) {
        0 => of | single(random),
        1 => (of & !member_set(random, of)) | single(random),
        _ => within(random, of),
    }
}

/// A capability of `of`; any capability if it has none.
pub(crate) fn member(random: &mut Random, of: u64) -> u64 {
    if of & FULL == 0 {
        return capability(random);
    }
    let mut skipped = random.below((of & FULL).count_ones() as usize);
    for capability in 0..=40 {
        if of >> capability & 1 == 1 {
            if skipped == 0 {
                return capability;
            }
            skipped -= 1;
        }
    }
    unreachable!("fewer members than were counted")
}

fn member_set(random: &mut Random, of: u64) -> u64 {
    1 << member(random, of)
}

/// A bit above 40, which stands for no capability.
pub(crate) fn bit_above_40(random: &mut Random) -> u64 {
    let lowest = 41;
    1 << if random.one_in(3) { lowest } else { lowest + random.below(64 - lowest) }
}

#[cfg(test)]
mod tests {
    use super::*;

    #[test]
    fn sets_have_capabilities_only() {
        let mut random = Random::new(2);
        for _ in 0..1000 {
            let set = any(&mut random);
            assert_eq!(set & !FULL, 0);
            assert_eq!(within(&mut random, set) & !set, 0);
            assert_eq!(near(&mut random, set) & !FULL, 0);
            assert_ne!(bit_above_40(&mut random) & !FULL, 0);
            let chosen = member(&mut random, set);
            assert!(set == 0 || set >> chosen & 1 == 1);
        }
    }
}
