//! Bytes that cannot stand where they are put.

use super::super::spelling::{Kind, Spelling};
use super::super::words::{beginning, BLANKS};
use super::edit::{piece, within, Edit};
use crate::names::NameFault;
use crate::random::Random;

/// What is not ASCII, for a byte that it resembles: the first two are the letters k and s to whoever folds the case of all scripts.
const ALIKE: [(u8, &str); 18] = [
    (b'k', "\u{212a}"),
    (b's', "\u{17f}"),
    (b'i', "\u{131}"),
    (b'i', "\u{130}"),
    (b'a', "\u{430}"),
    (b'c', "\u{441}"),
    (b'e', "\u{435}"),
    (b'p', "\u{440}"),
    (b'l', "\u{ff4c}"),
    (b' ', "\u{a0}"),
    (b' ', "\u{3000}"),
    (b'\t', "\u{2003}"),
    (b'\n', "\u{85}"),
    (b'\n', "\u{2028}"),
    (b'=', "\u{ff1d}"),
    (b'+', "\u{ff0b}"),
    (b'-', "\u{2212}"),
    (b',', "\u{ff0c}"),
];

/// What stands before a stray byte.
#[derive(Clone, Copy)]
enum Spot {
    Start,
    After(Kind),
    Within(Kind),
}

const SPOTS: [Spot; 11] = [
    Spot::Start,
    Spot::After(Kind::Blanks),
    Spot::After(Kind::Name),
    Spot::After(Kind::All),
    Spot::After(Kind::Comma),
    Spot::After(Kind::Equals),
    Spot::After(Kind::Plus),
    Spot::After(Kind::Minus),
    Spot::After(Kind::Flag),
    Spot::Within(Kind::Name),
    Spot::Within(Kind::All),
];

/// What puts the fault into the text, if the text has a spot for it.
pub(super) fn edit(random: &mut Random, fault: NameFault, spelling: &Spelling) -> Option<Edit> {
    match fault {
        NameFault::CarriageReturn => carriage_return(random, spelling),
        NameFault::VerticalTab => Some(anywhere(random, spelling, b"\x0b")),
        NameFault::FormFeed => Some(anywhere(random, spelling, b"\x0c")),
        NameFault::Nul => Some(anywhere(random, spelling, b"\0")),
        NameFault::HighByte => {
            let byte = 128 + random.below(128) as u8;
            Some(anywhere(random, spelling, &[byte]))
        }
        NameFault::OtherScript => other_script(random, spelling),
        _ => stray(random, spelling),
    }
}

// Bytes that stand in no well-formed text, in any place, half of the time between two pieces.
fn anywhere(random: &mut Random, spelling: &Spelling, bytes: &[u8]) -> Edit {
    let position = match spelling.pieces.len() {
        0 => 0,
        count if random.one_in(2) => spelling.pieces[random.below(count)].at.end,
        _ => random.below(spelling.text.len() + 1),
    };
    Edit::inserting(position, bytes, position)
}

// One for blanks, or before them, or anywhere.
fn carriage_return(random: &mut Random, spelling: &Spelling) -> Option<Edit> {
    if random.one_in(3) {
        return Some(anywhere(random, spelling, b"\r"));
    }
    let found = piece(random, spelling, |index| spelling.pieces[index].kind == Kind::Blanks)?;
    let at = spelling.pieces[found].at.clone();
    let place = at.start;
    Some(Edit::replacing(at, random.pick(&[&b"\r\n"[..], b"\r"]), place))
}

fn other_script(random: &mut Random, spelling: &Spelling) -> Option<Edit> {
    match random.below(12) {
        0 => return Some(Edit::inserting(0, "\u{feff}".as_bytes(), 0)),
        1 => return Some(anywhere(random, spelling, "\u{e9}".as_bytes())),
        _ => {}
    }
    let (byte, letter) = random.pick(&ALIKE);
    let is_it = |position: &usize| spelling.text[*position].to_ascii_lowercase() == byte;
    let positions: Vec<usize> = (0..spelling.text.len()).filter(is_it).collect();
    if positions.is_empty() {
        return None;
    }
    let position = random.pick(&positions);
    Some(Edit::replacing(position..position + 1, letter.as_bytes(), position))
}

// A byte of any class at a spot where it cannot stand; a third of the time the text ends with it.
fn stray(random: &mut Random, spelling: &Spelling) -> Option<Edit> {
    let spot = random.pick(&SPOTS);
    let (position, front) = match spot {
        Spot::Start => (0, None),
        Spot::After(kind) | Spot::Within(kind) => {
            let found = piece(random, spelling, |index| spelling.pieces[index].kind == kind)?;
            let at = &spelling.pieces[found].at;
            let position = if matches!(spot, Spot::After(_)) { at.end } else { within(random, at) };
            (position, Some((at.start, spelling.is_at_front(found))))
        }
    };
    let byte = any_byte(random);
    let can_stand = match (spot, front) {
        (Spot::Within(_), Some((start, is_at_front))) => {
            let word = [&spelling.text[start..position], &[byte]].concat();
            beginning(&word, is_at_front) == word.len()
        }
        (Spot::After(kind), _) => can_follow(kind, byte),
        _ => can_begin(byte),
    };
    if can_stand {
        return None;
    }
    let end = if random.one_in(3) { spelling.text.len() } else { position };
    Some(Edit::replacing(position..end, &[byte], position))
}

// Whether a byte can follow a whole piece.
fn can_follow(kind: Kind, byte: u8) -> bool {
    let is_flag = matches!(byte, b'e' | b'i' | b'p');
    let is_operator = matches!(byte, b'=' | b'+' | b'-');
    match kind {
        Kind::Blanks => can_begin(byte),
        Kind::Name => is_operator || byte == b',',
        Kind::All => is_operator,
        Kind::Comma => matches!(byte, b'c' | b'C'),
        Kind::Equals | Kind::Flag => is_flag || is_operator || BLANKS.contains(&byte),
        Kind::Plus | Kind::Minus => is_flag,
    }
}

// Whether a clause, or blanks, can begin with a byte.
fn can_begin(byte: u8) -> bool {
    BLANKS.contains(&byte) || matches!(byte, b'=' | b'a' | b'A' | b'c' | b'C')
}

// Each class of bytes as often as each other.
fn any_byte(random: &mut Random) -> u8 {
    match random.below(20) {
        0 => b' ',
        1 => b'\t',
        2 => b'\n',
        3 => b',',
        4 => b'=',
        5 => b'+',
        6 => b'-',
        7 => random.pick(b"eip"),
        8 => random.pick(b"EIP"),
        9 => random.pick(b"abcdfghjklmnoqrstuvwxyz"),
        10 => random.pick(b"ABCDFGHJKLMNOQRSTUVWXYZ"),
        11 => b'_',
        12 => random.pick(b"0123456789"),
        13 => b'\r',
        14 => 0x0b,
        15 => 0x0c,
        16 => 0,
        17 => random.pick(&[1, 7, 8, 14, 27, 31, 127]),
        18 => random.pick(b"!\"#$%&'()*./:;<>?@[\\]^`{|}~"),
        _ => 128 + random.below(128) as u8,
    }
}
