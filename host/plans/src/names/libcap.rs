//! Texts of the forms that libcap takes and others that are near to them.

use super::numbers;
use super::spelling::Case;
use super::words::{ALL, CAPABILITY_NAMES, FLAGS};
use crate::random::Random;

/// A text for libcap: numbers for names, `all` in lists, all that C takes for space, a zero byte, and clauses of every sequence of operators; one in
/// five with a byte changed, more or less.
pub fn libcap_text(seed: u64) -> Vec<u8> {
    // Not those of the text of that seed.
    let mut random = numbers(seed.rotate_left(32));
    let mut text = Vec::new();
    for place in 0..random.below(6) {
        if place > 0 || random.one_in(4) {
            put_blanks(&mut random, &mut text);
        }
        put_clause(&mut random, &mut text);
    }
    if random.one_in(4) {
        put_blanks(&mut random, &mut text);
    }
    match random.below(20) {
        0 => text.insert(random.below(text.len() + 1), 0),
        1..=4 => change(&mut random, &mut text),
        _ => {}
    }
    text
}

fn put_blanks(random: &mut Random, text: &mut Vec<u8>) {
    for _ in 0..1 + random.below(3) * random.below(2) {
        text.push(if random.one_in(8) { random.pick(b"\r\x0b\x0c") } else { random.pick(b" \t\n") });
    }
}

fn put_clause(random: &mut Random, text: &mut Vec<u8>) {
    let names = if random.one_in(6) { 0 } else { 1 + random.below(3) * random.below(2) };
    for place in 0..names {
        if place > 0 {
            text.push(b',');
        }
        put_name(random, text);
    }
    for place in 0..1 + random.below(3) * random.below(2) {
        // Mostly what libcap takes: `=` first alone.
        let operator = match place {
            0 if names == 0 => b'=',
            0 => random.pick(b"=+-"),
            _ if random.one_in(6) => b'=',
            _ => random.pick(b"+-"),
        };
        text.push(operator);
        let flags = random.below(4);
        let flags = if operator != b'=' && !random.one_in(20) { flags.max(1) } else { flags };
        text.extend((0..flags).map(|_| random.pick(FLAGS)));
    }
}

fn put_name(random: &mut Random, text: &mut Vec<u8>) {
    match random.below(10) {
        0..=4 => {
            let name = random.pick(&CAPABILITY_NAMES);
            text.extend(Case::any(random).of(random, name));
        }
        5 => text.extend(Case::any(random).of(random, ALL)),
        _ => {
            // Most are a capability's or one that has a bit; some are beyond.
            let number = if random.one_in(8) { random.number() >> random.below(64) } else { random.below(66) as u64 };
            let written = match random.below(8) {
                0 => format!("{number:#x}"),
                1 => format!("0X{number:02X}"),
                2 => format!("0{number:o}"),
                3 => format!("0{number}"),
                _ => number.to_string(),
            };
            text.extend(written.into_bytes());
        }
    }
}

// One byte another, more or less.
fn change(random: &mut Random, text: &mut Vec<u8>) {
    let at = random.below(text.len() + 1);
    let byte = if random.one_in(8) { random.byte() } else { random.pick(b"eip=+-,0189xX_alc \r") };
    match random.below(3) {
        0 => text.insert(at, byte),
        1 if at < text.len() => {
            text.remove(at);
        }
        _ if at < text.len() => text[at] = byte,
        _ => text.push(byte),
    }
}
