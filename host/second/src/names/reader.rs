//! Reads a text in names.
//!
//! The reader goes through the text once, from left to right, and goes on only over bytes that some others complete to
//! a well-formed text. So where it cannot go on, what lies behind it is the longest beginning that well-formed text can
//! have, and the length of that is the place of the fault.

use super::table::{is_word_byte, ALL, NAMES};
use super::three_sets::{Flags, ThreeSets};
use crate::capability::{bit, FULL_SET};
use crate::refusal::Refusal;

/// Reads a whole text: clauses, apart by blanks, with any number of blanks at the ends. "Text without a clause is three
/// empty sets."
pub(super) fn read(text: &[u8]) -> Result<ThreeSets, Refusal> {
    let mut reader = Reader { text, place: 0 };
    let mut sets = ThreeSets::default();
    reader.skip_blanks();
    while !reader.is_at_end() {
        reader.clause(&mut sets)?;
        reader.skip_blanks();
    }
    Ok(sets)
}

/// An operator of a clause, each with its byte in the text.
#[derive(Clone, Copy, PartialEq, Eq)]
enum Operator {
    /// `=`
    Set,
    /// `+`
    Give,
    /// `-`
    Take,
}

/// A text and how much of it is read.
struct Reader<'t> {
    text: &'t [u8],
    place: usize,
}

impl<'t> Reader<'t> {
    /// Reads a clause up to the blank or the end of the text that ends it, and does to the sets what it says: "then one
    /// or more operators", and "within a clause none [no blank] can stand".
    fn clause(&mut self, sets: &mut ThreeSets) -> Result<(), Refusal> {
        let capabilities = self.capabilities()?;
        self.action(capabilities, sets)?;
        while !self.is_at_end() && !self.is_at_blank() {
            self.action(capabilities, sets)?;
        }
        Ok(())
    }

    /// Reads what a clause begins with, up to its first operator: "names joined by commas, or `all` by itself". "A
    /// clause without names begins with `=`" and "means all 41".
    fn capabilities(&mut self) -> Result<u64, Refusal> {
        match self.peek() {
            Some(b'=') => Ok(FULL_SET),
            // No name begins so.
            Some(b'a' | b'A') => self.all(),
            _ => self.names(),
        }
    }

    /// "`all` stands alone": a comma after it is no operator, so the clause is at fault there.
    fn all(&mut self) -> Result<u64, Refusal> {
        self.one_of(&[ALL])?;
        Ok(FULL_SET)
    }

    /// Names joined by commas; "names given twice count once".
    fn names(&mut self) -> Result<u64, Refusal> {
        let mut capabilities = self.name()?;
        while self.peek() == Some(b',') {
            self.place += 1;
            capabilities |= self.name()?;
        }
        Ok(capabilities)
    }

    fn name(&mut self) -> Result<u64, Refusal> {
        let capability = self.one_of(&NAMES)?;
        Ok(bit(capability))
    }

    /// Reads one of these words, in either case, and gives its number among them.
    ///
    /// The text's word ends before the first byte that can stand in none. Where it is none of the words, the beginning
    /// goes on just as far as it agrees with one of them: past that, neither a longer part of a word comes nor anything
    /// that can follow a word.
    fn one_of(&mut self, words: &[&str]) -> Result<u32, Refusal> {
        let read = self.word();
        match (0..).zip(words).find(|(_, word)| read.eq_ignore_ascii_case(word.as_bytes())) {
            Some((number, _)) => {
                self.place += read.len();
                Ok(number)
            }
            None => {
                self.place += words.iter().map(|word| agreement(read, word)).max().unwrap_or(0);
                Err(self.fault())
            }
        }
    }

    /// Reads one operator with its flags and does to the sets what it says: "each with flags e, i, p in any order, also
    /// repeated (none only after `=`)".
    fn action(&mut self, capabilities: u64, sets: &mut ThreeSets) -> Result<(), Refusal> {
        let operator = self.operator()?;
        let flags = self.flags();
        if flags == Flags::NONE && operator != Operator::Set {
            return Err(self.fault());
        }
        match operator {
            Operator::Set => sets.set(capabilities, flags),
            Operator::Give => sets.give(capabilities, flags),
            Operator::Take => sets.take(capabilities, flags),
        }
        Ok(())
    }

    fn operator(&mut self) -> Result<Operator, Refusal> {
        let operator = match self.peek() {
            Some(b'=') => Operator::Set,
            Some(b'+') => Operator::Give,
            Some(b'-') => Operator::Take,
            _ => return Err(self.fault()),
        };
        self.place += 1;
        Ok(operator)
    }

    /// Reads all the flags that come, maybe none; "flags are lower case".
    fn flags(&mut self) -> Flags {
        let mut flags = Flags::NONE;
        loop {
            match self.peek() {
                Some(b'e') => flags.effective = true,
                Some(b'i') => flags.inheritable = true,
                Some(b'p') => flags.permitted = true,
                _ => return flags,
            }
            self.place += 1;
        }
    }

    fn skip_blanks(&mut self) {
        while self.is_at_blank() {
            self.place += 1;
        }
    }

    /// "Space, tab and newline part clauses", and no other byte does.
    fn is_at_blank(&self) -> bool {
        matches!(self.peek(), Some(b' ' | b'\t' | b'\n'))
    }

    fn is_at_end(&self) -> bool {
        self.peek().is_none()
    }

    /// The byte that comes next, which stays to be read.
    fn peek(&self) -> Option<u8> {
        self.text.get(self.place).copied()
    }

    /// The word that comes next, maybe an empty one, which stays to be read.
    fn word(&self) -> &'t [u8] {
        let rest = &self.text[self.place..];
        let length = rest.iter().take_while(|&&byte| is_word_byte(byte)).count();
        &rest[..length]
    }

    /// The refusal for a text whose longest beginning ends here.
    fn fault(&self) -> Refusal {
        Refusal::MalformedAt { place: self.place }
    }
}

/// How many bytes at the front of the text are those of the word, "upper and lower case each letter by itself".
fn agreement(text: &[u8], word: &str) -> usize {
    text.iter().zip(word.as_bytes()).take_while(|(byte, letter)| byte.eq_ignore_ascii_case(letter)).count()
}

#[cfg(test)]
mod tests {
    use super::*;

    fn place(text: &[u8]) -> Option<usize> {
        match read(text) {
            Ok(_) => None,
            Err(Refusal::MalformedAt { place }) => Some(place),
            Err(other) => panic!("{other:?}"),
        }
    }

    #[test]
    fn agreement_is_counted_in_either_case() {
        assert_eq!(agreement(b"", "all"), 0);
        assert_eq!(agreement(b"x", "all"), 0);
        assert_eq!(agreement(b"aL", "all"), 2);
        assert_eq!(agreement(b"ALL", "all"), 3);
        assert_eq!(agreement(b"allow", "all"), 3);
        assert_eq!(agreement(b"alone", "all"), 2);
        assert_eq!(agreement(b"CAP_x", "cap_bpf"), 4);
    }

    #[test]
    fn no_name_begins_like_all() {
        for name in NAMES {
            assert_eq!(agreement(name.as_bytes(), ALL), 0);
        }
    }

    #[test]
    fn the_quoted_clause() {
        let sets = ThreeSets { permitted: 1 << 13, inheritable: 0, effective: 1 << 13 };
        assert_eq!(read(b"cap_net_raw+ep"), Ok(sets));
    }

    #[test]
    fn the_quoted_places() {
        assert_eq!(place(b"all,cap_chown=e"), Some(3));
        assert_eq!(place(b"cap_chown,all=e"), Some(10));
        assert_eq!(place(b"cap_net_raw"), Some(11));
        assert_eq!(place(b"+e"), Some(0));
        assert_eq!(place(b"cap_chown+e="), None);
    }

    #[test]
    fn every_byte_after_a_name() {
        for byte in 0..=255 {
            let mut text = b"cap_chown".to_vec();
            text.push(byte);
            let expected = match byte {
                b'=' => None,
                b',' | b'+' | b'-' => Some(10),
                _ => Some(9),
            };
            assert_eq!(place(&text), expected, "{byte:#04x}");
        }
    }

    #[test]
    fn every_byte_after_a_flag() {
        for byte in 0..=255 {
            let mut text = b"cap_chown+e".to_vec();
            text.push(byte);
            let expected = match byte {
                b'e' | b'i' | b'p' | b'=' | b' ' | b'\t' | b'\n' => None,
                b'+' | b'-' => Some(12),
                _ => Some(11),
            };
            assert_eq!(place(&text), expected, "{byte:#04x}");
        }
    }
}
