//! Numbers for the attribute writer: two sets and an effective bit, in range and out of it.

use crate::random::Random;
use crate::{attributes, sets, starts};

/// What the attribute writer is given.
#[derive(Clone, Copy, Debug, PartialEq, Eq)]
pub struct Operands {
    /// The permitted set.
    pub permitted: u64,
    /// The inheritable set.
    pub inheritable: u64,
    /// The effective bit, which is 0 or 1 where it is in range.
    pub effective: u64,
}

/// Of ten some six are in range; the others have one thing out of range, or any two.
pub(super) fn any(random: &mut Random) -> Operands {
    let guess = starts::valid(random);
    let file = attributes::file(random, &guess);
    let mut operands =
        Operands { permitted: file.permitted, inheritable: file.inheritable, effective: u64::from(file.effective) };
    if random.one_in(100) {
        (operands.permitted, operands.inheritable) = (sets::FULL, sets::FULL);
    }
    match random.below(10) {
        0..=4 => {}
        5 => spoil_twice(random, &mut operands),
        _ => spoil(random, &mut operands),
    }
    operands
}

fn spoil_twice(random: &mut Random, operands: &mut Operands) {
    spoil(random, operands);
    spoil(random, operands);
}

// Puts a bit above 40 into a set, or 40 itself, which may be there; or makes the effective bit more than one bit.
fn spoil(random: &mut Random, operands: &mut Operands) {
    let bit = match random.below(8) {
        0 => 1 << 40,
        1 => 1 << 63,
        _ => sets::bit_above_40(random),
    };
    let effective = operands.effective;
    match random.below(3) {
        0 => operands.permitted |= bit,
        1 => operands.inheritable |= bit,
        _ => {
            operands.effective =
                random.pick(&[2, 2, 3, 255, effective | 1 << 8, effective | 1 << 32, effective | 1 << 63, u64::MAX]);
        }
    }
}

#[cfg(test)]
mod tests {
    use super::*;

    #[test]
    fn each_operand_is_in_range_and_out_of_it() {
        let mut random = Random::new(8);
        let mut seen = [[false; 2]; 3];
        for _ in 0..1000 {
            let Operands { permitted, inheritable, effective } = any(&mut random);
            seen[0][usize::from(permitted > sets::FULL)] = true;
            seen[1][usize::from(inheritable > sets::FULL)] = true;
            seen[2][usize::from(effective > 1)] = true;
        }
        assert_eq!(seen, [[true; 2]; 3]);
    }
}
