//! Clauses as a text: each letter of a name in either case, blanks of all kinds, and where each piece of the text stands.

use super::clauses::{Clause, Subject};
use super::words::{ALL, BLANKS, CAPABILITY_NAMES};
use crate::random::Random;
use std::ops::Range;

/// What a piece of a text is.
#[derive(Clone, Copy, Debug, PartialEq, Eq)]
pub(super) enum Kind {
    /// Blanks, one or more.
    Blanks,
    /// A capability's name.
    Name,
    /// `all`.
    All,
    /// A comma.
    Comma,
    /// `=`.
    Equals,
    /// `+`.
    Plus,
    /// `-`.
    Minus,
    /// A flag.
    Flag,
}

impl Kind {
    /// Whether it needs a flag after it.
    pub(super) fn is_sign(self) -> bool {
        matches!(self, Kind::Plus | Kind::Minus)
    }

    pub(super) fn is_operator(self) -> bool {
        self.is_sign() || self == Kind::Equals
    }

    /// Whether it is a name or `all`.
    pub(super) fn is_word(self) -> bool {
        matches!(self, Kind::Name | Kind::All)
    }
}

/// A piece of a text.
#[derive(Clone, Debug, PartialEq, Eq)]
pub(super) struct Piece {
    pub(super) kind: Kind,
    /// Where it stands.
    pub(super) at: Range<usize>,
}

/// A text and its pieces, one after the other.
#[derive(Default)]
pub(super) struct Spelling {
    pub(super) text: Vec<u8>,
    pub(super) pieces: Vec<Piece>,
}

impl Spelling {
    fn put(&mut self, kind: Kind, bytes: &[u8]) {
        self.put_by(kind, |text| text.extend_from_slice(bytes));
    }

    // A piece that is put at the end of the text.
    fn put_by(&mut self, kind: Kind, put: impl FnOnce(&mut Vec<u8>)) {
        let start = self.text.len();
        put(&mut self.text);
        self.pieces.push(Piece { kind, at: start..self.text.len() });
    }

    fn put_clause(&mut self, clause: &Clause, mut put_word: impl FnMut(&mut Vec<u8>, &str)) {
        match &clause.subject {
            Subject::Nothing => {}
            Subject::All => self.put_by(Kind::All, |text| put_word(text, ALL)),
            Subject::Names(names) => {
                for (place, number) in names.iter().enumerate() {
                    if place > 0 {
                        self.put(Kind::Comma, b",");
                    }
                    self.put_by(Kind::Name, |text| put_word(text, CAPABILITY_NAMES[*number]));
                }
            }
        }
        for action in &clause.actions {
            let kind = match action.operator {
                b'=' => Kind::Equals,
                b'+' => Kind::Plus,
                _ => Kind::Minus,
            };
            self.put(kind, &[action.operator]);
            for flag in &action.flags {
                self.put(Kind::Flag, &[*flag]);
            }
        }
    }

    /// What the piece before that one is, if there is one.
    pub(super) fn before(&self, piece: usize) -> Option<Kind> {
        piece.checked_sub(1).map(|before| self.pieces[before].kind)
    }

    /// What the piece after that one is, if there is one.
    pub(super) fn after(&self, piece: usize) -> Option<Kind> {
        self.pieces.get(piece + 1).map(|piece| piece.kind)
    }

    /// Whether a clause begins with that piece.
    pub(super) fn is_at_front(&self, piece: usize) -> bool {
        self.pieces[piece].kind != Kind::Blanks && matches!(self.before(piece), None | Some(Kind::Blanks))
    }
}

/// The clauses in lower case, one space between.
pub(super) fn written(clauses: &[Clause]) -> Spelling {
    let mut spelling = Spelling::default();
    for (place, clause) in clauses.iter().enumerate() {
        if place > 0 {
            spelling.put(Kind::Blanks, b" ");
        }
        spelling.put_clause(clause, |text, word| text.extend_from_slice(word.as_bytes()));
    }
    spelling
}

/// The clauses with letters of either case and with blanks of all kinds, also at the ends.
pub(super) fn any(random: &mut Random, clauses: &[Clause]) -> Spelling {
    let mut spelling = Spelling::default();
    let of_all_words = random.one_in(2).then(|| Case::any(random));
    let are_plain = random.one_in(3);
    let put_blanks = |spelling: &mut Spelling, random: &mut Random| {
        let blanks = if are_plain { b" ".to_vec() } else { blanks(random) };
        spelling.put(Kind::Blanks, &blanks);
    };
    for (place, clause) in clauses.iter().enumerate() {
        if place > 0 || random.one_in(6) {
            put_blanks(&mut spelling, random);
        }
        spelling.put_clause(clause, |text, word| {
            let case = of_all_words.unwrap_or_else(|| Case::any(random));
            case.put(random, word, text);
        });
    }
    if random.one_in(5) {
        put_blanks(&mut spelling, random);
    }
    spelling
}

/// One blank, or a few of any kinds; hardly ever hundreds.
pub(super) fn blanks(random: &mut Random) -> Vec<u8> {
    let count = match random.below(2000) {
        0 => 256 + random.below(100),
        1..=100 => 5 + random.below(20),
        101..=500 => 2 + random.below(3),
        _ => 1,
    };
    (0..count).map(|_| random.pick(BLANKS)).collect()
}

/// In which case the letters of a word are.
#[derive(Clone, Copy)]
pub(super) enum Case {
    Lower,
    Upper,
    /// Each at random.
    Each,
    /// The first alone in upper case.
    First,
    /// The last alone in upper case.
    Last,
    /// One alone in lower case.
    AllButOne,
}

impl Case {
    pub(super) fn any(random: &mut Random) -> Case {
        match random.below(16) {
            0..=6 => Case::Lower,
            7..=9 => Case::Upper,
            10..=12 => Case::Each,
            13 => Case::First,
            14 => Case::Last,
            _ => Case::AllButOne,
        }
    }

    /// The word in that case.
    pub(super) fn of(self, random: &mut Random, word: &str) -> Vec<u8> {
        let mut letters = Vec::new();
        self.put(random, word, &mut letters);
        letters
    }

    // Puts the word at the end of the text.
    fn put(self, random: &mut Random, word: &str, text: &mut Vec<u8>) {
        let start = text.len();
        text.extend_from_slice(word.as_bytes());
        let letters = &mut text[start..];
        let last = letters.len() - 1;
        match self {
            Case::Lower => {}
            Case::Upper => letters.make_ascii_uppercase(),
            Case::Each => {
                let upper = random.number();
                for (place, letter) in letters.iter_mut().enumerate() {
                    if upper >> place & 1 == 1 {
                        letter.make_ascii_uppercase();
                    }
                }
            }
            Case::First => letters[0].make_ascii_uppercase(),
            Case::Last => letters[last].make_ascii_uppercase(),
            Case::AllButOne => {
                letters.make_ascii_uppercase();
                let one = random.below(letters.len());
                letters[one].make_ascii_lowercase();
            }
        }
    }
}

#[cfg(test)]
mod tests {
    use super::super::clauses;
    use super::*;

    #[test]
    fn the_pieces_are_the_whole_text() {
        let mut random = Random::new(7);
        for _ in 0..500 {
            let clauses = clauses::any(&mut random);
            let spelling = any(&mut random, &clauses);
            let mut end = 0;
            for Piece { kind, at } in &spelling.pieces {
                assert_eq!(at.start, end);
                end = at.end;
                let bytes = &spelling.text[at.clone()];
                match kind {
                    Kind::Blanks => assert!(bytes.iter().all(|byte| BLANKS.contains(byte))),
                    Kind::Name => assert!(bytes[..4].eq_ignore_ascii_case(b"cap_")),
                    Kind::All => assert!(bytes.eq_ignore_ascii_case(b"all")),
                    Kind::Comma => assert_eq!(bytes, b","),
                    Kind::Equals => assert_eq!(bytes, b"="),
                    Kind::Plus => assert_eq!(bytes, b"+"),
                    Kind::Minus => assert_eq!(bytes, b"-"),
                    Kind::Flag => assert!(matches!(bytes, b"e" | b"i" | b"p")),
                }
            }
            assert_eq!(end, spelling.text.len());
        }
    }

    #[test]
    fn words_are_spelled_in_every_way() {
        let mut random = Random::new(8);
        let mut seen = std::collections::HashSet::new();
        for _ in 0..500 {
            let case = Case::any(&mut random);
            seen.insert(case.of(&mut random, ALL));
        }
        assert_eq!(seen.len(), 8);
    }
}
