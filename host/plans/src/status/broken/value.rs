//! Faults of one value.

use crate::random::Random;
use crate::status::StatusFault;

/// How many values Uid has.
const IDS: usize = 4;
/// The place of the flag.
const FLAG: usize = 9;

/// The number of the wanted line that has the value at that place.
pub(super) fn line_of(place: usize) -> usize {
    place.saturating_sub(IDS - 1)
}

/// A position within a right line, after its colon, such that what stands before it is no right line.
pub(super) fn within(random: &mut Random, line: &[u8]) -> usize {
    let colon = line.iter().position(|byte| *byte == b':').expect("a wanted line has a colon");
    let last_tab = line.iter().rposition(|byte| *byte == b'\t').expect("a wanted line has a tab");
    // Digits less make another ID, but no set.
    let is_set = line.len() - last_tab > 16;
    let end = if is_set { line.len() } else { last_tab + 2 };
    match random.below(4) {
        0 => colon + 1,
        1 => end - 1,
        _ => colon + 1 + random.below(end - colon - 1),
    }
}

/// The line with the fault in the value at that place.
pub(super) fn wrong(random: &mut Random, fault: StatusFault, place: usize, line: &[u8]) -> Vec<u8> {
    let fields: Vec<&[u8]> = line.split(|byte| *byte == b'\t').collect();
    let own = if place < IDS { place + 1 } else { 1 };
    let mut other = fields[0].to_vec();
    for (field, value) in fields.iter().enumerate().skip(1) {
        if field == own {
            other.extend(tab_and_value(random, fault, place, value));
        } else {
            other.push(b'\t');
            other.extend_from_slice(value);
        }
    }
    other
}

// The wrong value with what stands before it.
fn tab_and_value(random: &mut Random, fault: StatusFault, place: usize, value: &[u8]) -> Vec<u8> {
    let (before, value): (&[u8], Vec<u8>) = match fault {
        StatusFault::NoDigits => (b"\t", Vec::new()),
        StatusFault::ValueLost => (b"", Vec::new()),
        StatusFault::SpaceForTab => (random.pick(&[&b" "[..], b" ", b"        "]), value.to_vec()),
        StatusFault::TabDoubled => (b"\t\t", value.to_vec()),
        StatusFault::TabLost => (b"", value.to_vec()),
        StatusFault::BlankBeforeValue => (b"\t ", value.to_vec()),
        _ => (b"\t", wrong_value(random, fault, place, value)),
    };
    [before, &value].concat()
}

fn wrong_value(random: &mut Random, fault: StatusFault, place: usize, value: &[u8]) -> Vec<u8> {
    let mut value = value.to_vec();
    let at = random.below(value.len());
    let is_set = (IDS..FLAG).contains(&place);
    match fault {
        StatusFault::NotADigit => value[at] = random.pick(if is_set { b"//::``gg@GXx. " } else { b"//::aAxef. -" }),
        StatusFault::UpperCase => value[at] = random.pick(b"ABCDEF"),
        StatusFault::Sign if is_set && random.one_in(2) => value[0] = random.pick(b"+-"),
        StatusFault::Sign => value.insert(0, random.pick(b"+-")),
        StatusFault::LeadingZero => value.splice(0..0, vec![b'0'; random.pick(&[1, 1, 2, 9, 20])]).for_each(drop),
        StatusFault::TooLarge => value = too_large(random, place).as_bytes().to_vec(),
        StatusFault::DigitLost => value.truncate(random.pick(&[15, 15, 14, 8, 1])),
        StatusFault::HexPrefix if random.one_in(2) => value[..2].copy_from_slice(b"0x"),
        StatusFault::HexPrefix => value.splice(0..0, *b"0x").for_each(drop),
        _ if is_set => {
            let count = random.pick(&[1, 1, 2, 16]);
            let digit = random.pick(b"01f");
            value.splice(at..at, vec![digit; count]).for_each(drop);
        }
        _ => value.push(random.pick(b"01")),
    }
    value
}

// One too large, right in the low 8, 32 or 64 bits, one digit too many.
fn too_large(random: &mut Random, place: usize) -> &'static str {
    if place == FLAG {
        return random.pick(&["2", "2", "3", "9", "10", "256", "4294967296"]);
    }
    random.pick(&[
        "4294967296",
        "4294967296",
        "4294967297",
        "4294968296",
        "9999999999",
        "10000000000",
        "42949672950",
        "18446744073709551616",
        "18446744073709552616",
        "340282366920938463463374607431768211456",
    ])
}
