//! "Say it in names": a text in names, as the rows of its reader and its writer see it. It is read byte by byte, by what can stand after what.

mod clause;
mod stop;

pub use super::validity::FULL;
pub use clause::{sets, words_with, Action, Clause, Effect, Effects, Spelled, Subject, ALL, WORDS};
pub use stop::{After, Next, Stop};

use plans::CAPABILITY_NAMES;

/// The sets, in the order of the values.
pub const SETS: [&str; 3] = ["permitted", "inheritable", "effective"];
pub const PERMITTED: usize = 0;
pub const INHERITABLE: usize = 1;
pub const EFFECTIVE: usize = 2;

/// The flag of each set.
pub const FLAGS: [u8; 3] = *b"pie";

/// The most bytes of a text that is written.
pub const LONGEST: usize = 748;

/// The written form of three sets.
pub fn written(sets: &[u64; 3]) -> Vec<u8> {
    let mut text = Vec::new();
    for (number, name) in CAPABILITY_NAMES.iter().enumerate() {
        let is_in = |set: usize| sets[set] >> number & 1 == 1;
        let flags = match (is_in(EFFECTIVE), is_in(INHERITABLE), is_in(PERMITTED)) {
            (false, false, false) => continue,
            (true, false, false) => "=e",
            (false, true, false) => "=i",
            (false, false, true) => "=p",
            (true, true, false) => "=ei",
            (true, false, true) => "=ep",
            (false, true, true) => "=ip",
            (true, true, true) => "=eip",
        };
        if !text.is_empty() {
            text.push(b' ');
        }
        text.extend_from_slice(name.as_bytes());
        text.extend_from_slice(flags.as_bytes());
    }
    text
}

/// What was read of a text.
pub struct Reading {
    /// Its clauses. Where it is malformed, those that it begins with, the last of which need not be whole.
    pub clauses: Vec<Clause>,
    /// Where it is malformed.
    pub stop: Option<Stop>,
    /// Which kinds of byte, or its end, it has after what.
    pub met: [u32; After::ALL.len()],
}

/// Reads a text.
pub fn read(text: &[u8]) -> Reading {
    let mut reader =
        Reader { clauses: Vec::new(), after: After::Start, word: Word::default(), met: Default::default() };
    for (place, byte) in text.iter().enumerate() {
        let before = reader.after;
        if !reader.takes(place, *byte) {
            return reader.stopped(place, Next::of(*byte));
        }
        reader.met[before as usize] |= 1 << Next::of(*byte) as u32;
    }
    if !reader.after.can_end() {
        return reader.stopped(text.len(), Next::End);
    }
    reader.met[reader.after as usize] |= 1 << Next::End as u32;
    Reading { clauses: reader.clauses, stop: None, met: reader.met }
}

/// The name, or `all`, that is being read.
#[derive(Clone, Copy, Default)]
struct Word {
    /// The words that it can be, by their numbers.
    could_be: u64,
    /// How many letters it has.
    length: usize,
    /// Which of them are upper case.
    upper: u32,
}

struct Reader {
    clauses: Vec<Clause>,
    /// What stands before the next byte.
    after: After,
    word: Word,
    met: [u32; After::ALL.len()],
}

impl Reader {
    // Takes a byte, if some well-formed text has it after what was taken.
    fn takes(&mut self, place: usize, byte: u8) -> bool {
        use After::*;
        self.after = match (self.after, byte) {
            (Start | Blank | Equals | Flag, b' ' | b'\t' | b'\n') => Blank,
            (Start | Blank, b'=') => {
                self.clauses.push(Clause { subject: Subject::Nothing, actions: Vec::new() });
                self.operator(place, byte)
            }
            (Name | All | Equals | Flag, b'=' | b'+' | b'-') => self.operator(place, byte),
            (Name, b',') => Comma,
            (Equals | Plus | Minus | Flag, b'e' | b'i' | b'p') => self.flag(place, byte),
            (Start | Blank, _) => return self.takes_letter(Word { could_be: u64::MAX, ..Word::default() }, byte),
            (Comma, _) => return self.takes_letter(Word { could_be: !(1 << ALL), ..Word::default() }, byte),
            (PartOfName | PartOfAll, _) => return self.takes_letter(self.word, byte),
            _ => return false,
        };
        true
    }

    // Takes a letter of a word, if one of the words that it could be goes on with it.
    fn takes_letter(&mut self, word: Word, byte: u8) -> bool {
        let could_be = word.could_be & words_with(word.length, byte.to_ascii_lowercase());
        if could_be == 0 {
            return false;
        }
        let upper = word.upper | u32::from(byte.is_ascii_uppercase()) << word.length;
        self.word = Word { could_be, length: word.length + 1, upper };
        let number = could_be.trailing_zeros() as usize;
        let is_whole = WORDS[number].len() == self.word.length;
        if is_whole {
            self.put_word(Spelled { number, upper });
        }
        self.after = match (number == ALL, is_whole) {
            (false, false) => After::PartOfName,
            (false, true) => After::Name,
            (true, false) => After::PartOfAll,
            (true, true) => After::All,
        };
        true
    }

    // A whole word: the first of a clause, or one more of a list, whose last name has no operator behind it yet.
    fn put_word(&mut self, word: Spelled) {
        if let Some(Clause { subject: Subject::Names(names), actions }) = self.clauses.last_mut() {
            if actions.is_empty() {
                names.push(word);
                return;
            }
        }
        let subject = if word.number == ALL { Subject::All(word) } else { Subject::Names(vec![word]) };
        self.clauses.push(Clause { subject, actions: Vec::new() });
    }

    fn operator(&mut self, place: usize, operator: u8) -> After {
        let clause = self.clauses.last_mut().expect("a clause has begun");
        clause.actions.push(Action { operator, flags: place + 1..place + 1, bits: 0 });
        match operator {
            b'=' => After::Equals,
            b'+' => After::Plus,
            _ => After::Minus,
        }
    }

    fn flag(&mut self, place: usize, flag: u8) -> After {
        let action = self.clauses.last_mut().and_then(|clause| clause.actions.last_mut());
        let action = action.expect("an operator stands before");
        action.flags.end = place + 1;
        action.bits |= 1 << FLAGS.iter().position(|own| *own == flag).expect("it is a flag");
        After::Flag
    }

    fn stopped(self, place: usize, next: Next) -> Reading {
        let Word { could_be, length, .. } = self.word;
        let stop = Stop { place, after: self.after, next, could_be, length, clauses: self.clauses.len() };
        Reading { clauses: self.clauses, stop: Some(stop), met: self.met }
    }
}

#[cfg(test)]
mod tests {
    use super::*;

    fn place(text: &str) -> Option<usize> {
        read(text.as_bytes()).stop.map(|stop| stop.place)
    }

    fn sets_of(text: &str) -> [u64; 3] {
        let reading = read(text.as_bytes());
        assert!(reading.stop.is_none(), "{text}");
        sets(reading.clauses.iter().flat_map(Clause::acts))
    }

    // Every text and place that the request and its notes have.
    #[test]
    fn places_are_those_of_the_request() {
        assert_eq!(place("all,cap_chown=e"), Some(3));
        assert_eq!(place("cap_chown,all=e"), Some(10));
        assert_eq!(place("cap_net_raw"), Some(11));
        assert_eq!(place("+e"), Some(0));
        assert_eq!(place("cap_chown+e="), None);
        assert_eq!(place(""), None);
    }

    #[test]
    fn the_place_is_that_of_the_longest_beginning() {
        for (text, expected) in [
            ("x", 0),
            ("cap_net_", 8),
            ("cap_net_x", 8),
            ("cap_chownx=e", 9),
            ("cap_chown =e", 9),
            ("cap_chown= e", 11),
            ("cap_chown=e +p", 12),
            ("cap_chown+ e", 10),
            ("cap_chown+=e", 10),
            ("cap_chown=E", 10),
            ("cap_chown,", 10),
            ("cap_chown,,cap_kill=e", 10),
            ("cap_chown=e,cap_kill=p", 11),
            ("cap_chown=e\r\n", 11),
            ("=e -", 3),
            ("al", 2),
            ("13=e", 0),
        ] {
            assert_eq!(place(text), Some(expected), "{text}");
        }
    }

    #[test]
    fn clauses_come_to_their_sets() {
        assert_eq!(sets_of(" \t\n"), [0; 3]);
        assert_eq!(sets_of("cap_net_raw+ep"), [1 << 13, 0, 1 << 13]);
        assert_eq!(sets_of("Cap_Net_RAW,cap_chown+ie\tCAP_CHOWN-i\n"), [0, 1 << 13, 1 << 13 | 1]);
        assert_eq!(sets_of("aLL=pp cap_checkpoint_restore=i"), [FULL >> 1, 1 << 40, 0]);
        assert_eq!(sets_of("=eip-p+p= =i"), [0, FULL, 0]);
        assert_eq!(sets_of("cap_kill+e="), [0; 3]);
    }

    #[test]
    fn the_written_form_is_read_as_its_sets() {
        let three = [1 << 40 | 1, 1 << 40, 1 << 40 | 1 << 13];
        let text = written(&three);
        assert_eq!(text, b"cap_chown=p cap_net_raw=e cap_checkpoint_restore=eip");
        assert_eq!(sets_of(std::str::from_utf8(&text).unwrap()), three);
        assert_eq!(written(&[FULL; 3]).len(), LONGEST);
        assert_eq!(written(&[0; 3]), b"");
    }
}
