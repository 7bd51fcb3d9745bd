//! Changes anywhere, which may leave a text well-formed, and texts that were never well-formed.

use crate::broken::several_changed;
use crate::random::Random;
use crate::status::lines::{Found, Line, Lines, WANTED};
use crate::status::{unwanted, StatusFault};

/// The text with that fault.
pub(super) fn broken(random: &mut Random, fault: StatusFault, lines: &Lines, found: &Found) -> Vec<u8> {
    match fault {
        StatusFault::CutAnywhere => {
            let text = lines.text();
            text[..random.below(text.len() + 1)].to_vec()
        }
        StatusFault::LinesMoved => moved(random, lines),
        StatusFault::LinesAtRandom => at_random(random, found),
        StatusFault::Noise => noise(random),
        StatusFault::StatusThenNoise => [lines.text(), noise(random)].concat(),
        _ => bytes_changed(random, fault, lines.text()),
    }
}

fn bytes_changed(random: &mut Random, fault: StatusFault, mut text: Vec<u8>) -> Vec<u8> {
    let at = random.below(text.len());
    match fault {
        StatusFault::ByteChanged => text[at] = byte(random),
        StatusFault::ByteInserted => text.insert(random.below(text.len() + 1), byte(random)),
        StatusFault::ByteDeleted => {
            text.remove(at);
        }
        _ => several_changed(random, &mut text, byte),
    }
    text
}

// Any byte, or one that texts have.
fn byte(random: &mut Random) -> u8 {
    if random.one_in(4) {
        random.byte()
    } else {
        random.pick(b"0123456789abcdef:::\t\t\n\n\r UCNid")
    }
}

fn moved(random: &mut Random, lines: &Lines) -> Vec<u8> {
    let mut lines = lines.clone();
    let (one, other) = (random.below(lines.lines.len()), random.below(lines.lines.len()));
    match random.below(3) {
        0 => {
            lines.lines.remove(one);
        }
        1 => lines.lines.insert(one, lines.lines[other].clone()),
        _ => lines.lines.swap(one, other),
    }
    lines.text()
}

// Mostly in the order in which they are due, so that now and then they are all there.
fn at_random(random: &mut Random, found: &Found) -> Vec<u8> {
    let mut lines = Lines { lines: Vec::new(), has_last_newline: random.one_in(2) };
    let mut due = 0;
    while due < WANTED.len() {
        match random.below(24) {
            0 => lines.lines.push(Line::right(random.below(WANTED.len()), found)),
            1 => due += 1,
            2..=9 => lines.lines.push(Line::passed_over(unwanted::any(random))),
            _ => {
                lines.lines.push(Line::right(due, found));
                due += 1;
            }
        }
    }
    lines.text()
}

// Few are long, the longest having some 20 kilobytes; some are empty. Half are of bytes that texts have.
fn noise(random: &mut Random) -> Vec<u8> {
    let most = match random.below(200) {
        0 => 20_000,
        1..=9 => 1_000,
        10..=49 => 4,
        _ => 40,
    };
    let count = random.below(most);
    if random.one_in(2) {
        random.bytes(count)
    } else {
        (0..count).map(|_| random.pick(b"Uid::\t\t0011\n\n\r ")).collect()
    }
}
