//! Faults whose place is not known when they are made.

use super::super::spelling::{blanks, Case, Spelling};
use super::super::words::{ALL, CAPABILITY_NAMES, FLAGS};
use crate::broken::several_changed;
use crate::names::NameFault;
use crate::random::Random;

/// The text with the fault, or another text.
pub(super) fn broken(random: &mut Random, fault: NameFault, spelling: &Spelling) -> Vec<u8> {
    let text = &spelling.text;
    match fault {
        NameFault::CutAnywhere => text[..random.below(text.len() + 1)].to_vec(),
        NameFault::PiecesMoved => pieces_moved(random, spelling),
        NameFault::PiecesAtRandom => pieces_at_random(random),
        NameFault::Noise => noise(random),
        NameFault::ClausesThenNoise => [&text[..], &noise(random)].concat(),
        _ => bytes_changed(random, fault, text.clone()),
    }
}

fn bytes_changed(random: &mut Random, fault: NameFault, mut text: Vec<u8>) -> Vec<u8> {
    if text.is_empty() {
        text.push(b'=');
    }
    let at = random.below(text.len());
    match fault {
        NameFault::ByteChanged => text[at] = byte(random),
        NameFault::ByteInserted => text.insert(random.below(text.len() + 1), byte(random)),
        NameFault::ByteDeleted => {
            text.remove(at);
        }
        _ => several_changed(random, &mut text, byte),
    }
    text
}

// Any byte, or one that texts have.
fn byte(random: &mut Random) -> u8 {
    if random.one_in(4) {
        random.byte()
    } else {
        random.pick(b"eeiipp===++--,, \t\nEIPacAC_lrs")
    }
}

fn pieces_moved(random: &mut Random, spelling: &Spelling) -> Vec<u8> {
    let mut pieces: Vec<&[u8]> = spelling.pieces.iter().map(|piece| &spelling.text[piece.at.clone()]).collect();
    if pieces.is_empty() {
        return Vec::new();
    }
    let (one, other) = (random.below(pieces.len()), random.below(pieces.len()));
    match random.below(4) {
        0 => {
            pieces.remove(one);
        }
        1 => pieces.insert(one, pieces[one]),
        2 => pieces.insert(one, pieces[other]),
        _ => pieces.swap(one, other),
    }
    pieces.concat()
}

fn pieces_at_random(random: &mut Random) -> Vec<u8> {
    let mut text = Vec::new();
    for _ in 0..1 + random.below(12) {
        match random.below(16) {
            0..=3 => {
                let case = Case::any(random);
                let name = random.pick(&CAPABILITY_NAMES);
                text.extend(case.of(random, name));
            }
            4 => text.extend_from_slice(ALL.as_bytes()),
            5 | 6 => text.push(b','),
            7..=9 => text.push(random.pick(b"=+-")),
            10..=13 => text.push(random.pick(FLAGS)),
            _ => text.extend(blanks(random)),
        }
    }
    text
}

// Few are long, the longest having some 20 kilobytes; some are empty. Half are of bytes that texts have.
fn noise(random: &mut Random) -> Vec<u8> {
    let most = match random.below(200) {
        0 => 20_000,
        1..=9 => 1_000,
        10..=49 => 4,
        _ => 40,
    };
    let count = random.below(most);
    if random.one_in(2) {
        random.bytes(count)
    } else {
        (0..count).map(|_| random.pick(b"  \t\n=+-eipc,")).collect()
    }
}
