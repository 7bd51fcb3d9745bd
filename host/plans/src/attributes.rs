//! Bytes of a file attribute ("Attribute bytes"): good ones of both versions, and unreadable ones of every kind.

use crate::random::Random;
use crate::sets;
use second::Credentials;

/// The longest attribute that a plan can hold.
pub(crate) const LONGEST: usize = 24;
/// The longest that the reader by itself is given, but for a few.
const LONGEST_ALONE: usize = 32;

/// What an attribute says.
pub(crate) struct File {
    pub(crate) permitted: u64,
    pub(crate) inheritable: u64,
    pub(crate) effective: bool,
}

/// An attribute for a launch by a thread that holds about what `guess` says: none, a good one, or an unreadable one.
pub(crate) fn any(random: &mut Random, guess: &Credentials) -> Vec<u8> {
    match random.below(20) {
        0..=5 => Vec::new(),
        6..=13 => version_2(&file(random, guess)),
        14 | 15 => version_1(&file(random, guess)),
        _ => unreadable(random, guess, LONGEST),
    }
}

/// An attribute for the reader by itself, which takes any number of bytes.
pub(crate) fn alone(random: &mut Random, guess: &Credentials) -> Vec<u8> {
    match random.below(20) {
        0 | 1 => Vec::new(),
        2..=6 => version_2(&file(random, guess)),
        7..=9 => version_1(&file(random, guess)),
        10 => far_too_long(random, guess),
        _ => unreadable(random, guess, LONGEST_ALONE),
    }
}

/// A good attribute.
pub(crate) fn good(random: &mut Random, guess: &Credentials) -> Vec<u8> {
    let file = file(random, guess);
    if random.one_in(6) {
        version_1(&file)
    } else {
        version_2(&file)
    }
}

/// An attribute that demands those capabilities: they are permitted, and the effective bit is on.
pub(crate) fn demanding(permitted: u64) -> Vec<u8> {
    version_2(&File { permitted, inheritable: 0, effective: true })
}

/// Sets about the thread's inheritable and bounding sets, so that a launch is refused for a missing capability about as often as not.
pub(crate) fn file(random: &mut Random, guess: &Credentials) -> File {
    let effective = random.one_in(2);
    if random.one_in(6) {
        return File { permitted: 0, inheritable: 0, effective };
    }
    let inheritable = match random.below(5) {
        0 => 0,
        1 => guess.inheritable,
        2 => sets::near(random, guess.inheritable),
        3 => sets::near(random, guess.inheritable & !guess.bounding),
        _ => sets::any(random),
    };
    let granted = guess.inheritable & inheritable;
    let permitted = match random.below(10) {
        0 => 0,
        1 => guess.bounding,
        2 => sets::within(random, guess.bounding | granted),
        3 => granted,
        4 => sets::near(random, guess.bounding | granted),
        5 => sets::single(random),
        6 => sets::near(random, granted),
        7 => sets::within(random, guess.inheritable & !guess.bounding),
        8 => sets::within(random, sets::FULL & !guess.bounding),
        _ => sets::any(random),
    };
    File { permitted, inheritable, effective }
}

fn first_word(revision: u32, file: &File) -> u32 {
    revision << 24 | u32::from(file.effective)
}

fn version_1(file: &File) -> Vec<u8> {
    joined(&[first_word(1, file), file.permitted as u32, file.inheritable as u32])
}

fn version_2(file: &File) -> Vec<u8> {
    let low = [file.permitted as u32, file.inheritable as u32];
    let high = [(file.permitted >> 32) as u32, (file.inheritable >> 32) as u32];
    joined(&[first_word(2, file), low[0], low[1], high[0], high[1]])
}

fn joined(words: &[u32]) -> Vec<u8> {
    words.iter().flat_map(|word| word.to_le_bytes()).collect()
}

// A good attribute with so many zeros behind it that its length is right in its low 8 or 16 bits.
fn far_too_long(random: &mut Random, guess: &Credentials) -> Vec<u8> {
    let file = file(random, guess);
    let mut bytes = if random.one_in(2) { version_1(&file) } else { version_2(&file) };
    let more = random.pick(&[256, 65_536]);
    bytes.resize(bytes.len() + more, 0);
    bytes
}

// An attribute that cannot be read, or (among random bytes) hardly ever can.
fn unreadable(random: &mut Random, guess: &Credentials, longest: usize) -> Vec<u8> {
    let mut bytes = if random.one_in(3) { version_1(&file(random, guess)) } else { version_2(&file(random, guess)) };
    match random.below(12) {
        // A good front, cut or lengthened with zeros.
        0..=3 => bytes.resize(random.below(longest + 1), 0),
        // The other version's length.
        4 => bytes.resize(if bytes.len() == 12 { 20 } else { 12 }, 0),
        // The other version's revision.
        5 => bytes[3] ^= 3,
        6 => bytes[3] = random.pick(&[0, 0, 3, 3, 4, 5, 0x12, 0x82, 0xff]),
        7 => bytes[3] = random.byte(),
        // Other bits of the first word: 1 to 23.
        8 | 9 => {
            let bit = 1 + random.below(23);
            bytes[bit / 8] ^= 1 << (bit % 8);
        }
        // A bit above 40 in the permitted or the inheritable set; version 1 has no room for one.
        10 => {
            bytes.resize(20, 0);
            bytes[3] = 2;
            let above = sets::bit_above_40(random).trailing_zeros() as usize - 32;
            let word = random.pick(&[12, 16]);
            bytes[word + above / 8] |= 1 << (above % 8);
        }
        _ => {
            let length = random.below(longest + 1);
            bytes = random.bytes(length);
        }
    }
    bytes
}

#[cfg(test)]
mod tests {
    use super::*;

    // The example of "Attribute bytes": NET_RAW permitted, bit on.
    #[test]
    fn net_raw_byte_for_byte() {
        let file = File { permitted: 1 << 13, inheritable: 0, effective: true };
        let expected = [1, 0, 0, 2, 0, 0x20, 0, 0, 0, 0, 0, 0, 0, 0, 0, 0, 0, 0, 0, 0];
        assert_eq!(version_2(&file), expected);
        assert_eq!(version_1(&file), [1, 0, 0, 1, 0, 0x20, 0, 0, 0, 0, 0, 0]);
    }

    #[test]
    fn every_length_is_made() {
        let mut random = Random::new(3);
        let guess = crate::starts::valid(&mut random);
        let mut seen = [false; LONGEST + 1];
        for _ in 0..5000 {
            seen[any(&mut random, &guess).len()] = true;
        }
        assert_eq!(seen, [true; LONGEST + 1]);
    }

    #[test]
    fn every_length_is_made_for_the_reader_by_itself_and_some_are_far_too_long() {
        let mut random = Random::new(3);
        let guess = crate::starts::valid(&mut random);
        let mut seen = [false; LONGEST_ALONE + 1];
        let mut longer = Vec::new();
        for _ in 0..5000 {
            let length = alone(&mut random, &guess).len();
            match seen.get_mut(length) {
                Some(seen) => *seen = true,
                None => longer.push(length),
            }
        }
        assert_eq!(seen, [true; LONGEST_ALONE + 1]);
        longer.sort_unstable();
        longer.dedup();
        assert_eq!(longer, [256 + 12, 256 + 20, 65_536 + 12, 65_536 + 20]);
    }
}
