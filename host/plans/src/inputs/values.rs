//! Numbers for the sheet writer: those of credentials, valid and not, and those that no credentials have.

use super::{flawed, start};
use crate::random::Random;
use second::Credentials;
use std::ops::Range;

/// How many numbers a sheet has.
pub const VALUES: usize = 15;

const IDS: usize = 8;
const GROUPS: Range<usize> = 4..8;
const SECUREBITS: usize = 13;
const NNP: usize = 14;

/// The fifteen numbers of a sheet, in the order of its lines.
pub fn values(credentials: &Credentials) -> [u64; VALUES] {
    [
        u64::from(credentials.ruid),
        u64::from(credentials.euid),
        u64::from(credentials.suid),
        u64::from(credentials.fsuid),
        u64::from(credentials.rgid),
        u64::from(credentials.egid),
        u64::from(credentials.sgid),
        u64::from(credentials.fsgid),
        credentials.permitted,
        credentials.inheritable,
        credentials.effective,
        credentials.bounding,
        credentials.ambient,
        u64::from(credentials.securebits),
        u64::from(credentials.nnp),
    ]
}

/// Of twenty lists six are those of valid credentials, five of others; nine have something that no credentials have.
pub(super) fn any(random: &mut Random) -> Vec<u64> {
    let good = values(&start(random));
    match random.below(20) {
        0..=5 => good.to_vec(),
        6..=10 => values(&flawed(random)).to_vec(),
        11 => noise(random),
        12 => {
            let mut values = spoilt(random, good);
            let at = random.below(VALUES);
            values[at] = edge(random, values[at]);
            values.to_vec()
        }
        13..=16 => spoilt(random, good).to_vec(),
        _ => of_another_count(random, &good),
    }
}

// The list with an ID, the securebits or the last number out of range.
fn spoilt(random: &mut Random, mut values: [u64; VALUES]) -> [u64; VALUES] {
    let at = match random.below(8) {
        0 => SECUREBITS,
        1 => NNP,
        _ => random.below(IDS),
    };
    let value = values[at];
    values[at] = match at {
        SECUREBITS => random.pick(&[256, 257, value + (1 << 8), value + (1 << 32), 1 << 63, u64::MAX]),
        NNP => random.pick(&[2, 3, 255, value + (1 << 8), value + (1 << 32), 1 << 63, u64::MAX]),
        _ => random.pick(&[
            4_294_967_295,
            4_294_967_296,
            value + (1 << 32),
            4_294_967_294 + (1 << 32),
            1 << 63,
            u64::MAX,
        ]),
    };
    values
}

// A number that is at the end of a range, or right in its low bits.
fn edge(random: &mut Random, value: u64) -> u64 {
    random.pick(&[
        0,
        1,
        2,
        255,
        256,
        4_294_967_294,
        4_294_967_295,
        4_294_967_296,
        1 << 40,
        1 << 41,
        1 << 63,
        u64::MAX,
        value ^ 1 << 32,
        value ^ 1 << 63,
    ])
}

// The numbers cut, or with more behind them: zeros, the first again, or any; or without the group IDs. A few have a count that is right in its
// low 8 or 16 bits.
fn of_another_count(random: &mut Random, values: &[u64; VALUES]) -> Vec<u64> {
    let mut values = values.to_vec();
    let count = match random.below(13) {
        0..=7 => random.below(VALUES),
        8 | 9 => VALUES + 1,
        10 => VALUES + 2,
        11 => VALUES + random.pick(&[VALUES, 256, 256, 65_536]),
        _ => {
            values.drain(GROUPS);
            return values;
        }
    };
    let more = random.pick(&[0, values[0], u64::MAX]);
    values.resize(count, more);
    values
}

// 0 to 17 numbers of no kind, or of one.
fn noise(random: &mut Random) -> Vec<u64> {
    let count = if random.one_in(2) { VALUES } else { random.below(VALUES + 3) };
    let small = random.one_in(3);
    (0..count).map(|_| if small { edge(random, 0) } else { random.number() }).collect()
}

#[cfg(test)]
mod tests {
    use super::*;

    #[test]
    fn the_numbers_stand_in_the_order_of_the_lines() {
        let credentials = Credentials {
            ruid: 1,
            euid: 2,
            suid: 3,
            fsuid: 4,
            rgid: 5,
            egid: 6,
            sgid: 7,
            fsgid: 8,
            permitted: 9,
            inheritable: 10,
            effective: 11,
            bounding: 12,
            ambient: 13,
            securebits: 14,
            nnp: true,
        };
        assert_eq!(values(&credentials), [1, 2, 3, 4, 5, 6, 7, 8, 9, 10, 11, 12, 13, 14, 1]);
    }

    #[test]
    fn every_count_is_made() {
        let mut random = Random::new(5);
        let mut seen = [false; VALUES + 3];
        for _ in 0..5000 {
            if let Some(seen) = seen.get_mut(any(&mut random).len()) {
                *seen = true;
            }
        }
        assert_eq!(seen, [true; VALUES + 3]);
    }

    #[test]
    fn what_is_spoilt_is_out_of_range() {
        let mut random = Random::new(6);
        for _ in 0..1000 {
            let good = values(&start(&mut random));
            let values = spoilt(&mut random, good);
            let ids_fit = values[..IDS].iter().all(|id| *id <= 4_294_967_294);
            assert!(!ids_fit || values[SECUREBITS] > 255 || values[NNP] > 1);
        }
    }
}
