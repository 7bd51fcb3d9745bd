//! Capability sets in names, with many texts that no one wrote by hand: what they come to is asked of the paper's
//! definitions, put down once more here in the plainest way.

use crate::helpers::*;
use second::{read_names, write_names, Written};

/// What a place of a lent list holds before the call.
const UNTOUCHED: u64 = 0xa5a5_a5a5_a5a5_a5a5;

/// Numbers that look random and are the same in every run (xorshift).
struct Numbers(u64);

impl Numbers {
    fn next(&mut self) -> u64 {
        self.0 ^= self.0 << 13;
        self.0 ^= self.0 >> 7;
        self.0 ^= self.0 << 17;
        self.0
    }

    fn below(&mut self, limit: usize) -> usize {
        (self.next() % limit as u64) as usize
    }

    fn one_of<T: Copy>(&mut self, choices: &[T]) -> T {
        choices[self.below(choices.len())]
    }

    /// A set without a bit above 40; some are nearly empty and some nearly full.
    fn set(&mut self) -> u64 {
        let set = match self.below(4) {
            0 => self.next() & self.next() & self.next(),
            1 => self.next() | self.next() | self.next(),
            _ => self.next(),
        };
        set & FULL
    }
}

/// A text is well-formed if each clause is; the clauses are what is left when the text is cut at the blanks.
fn is_well_formed(text: &[u8]) -> bool {
    text.split(|byte| b" \t\n".contains(byte)).filter(|clause| !clause.is_empty()).all(is_clause)
}

/// A clause is cut before its first operator.
fn is_clause(clause: &[u8]) -> bool {
    let Some(end_of_names) = clause.iter().position(|byte| b"=+-".contains(byte)) else { return false };
    let (names, actions) = clause.split_at(end_of_names);
    let names_fit = match names {
        b"" => actions[0] == b'=',
        _ if names.eq_ignore_ascii_case(b"all") => true,
        _ => names.split(|&byte| byte == b',').all(is_name),
    };
    names_fit && are_actions(actions)
}

fn is_name(word: &[u8]) -> bool {
    NAMES.iter().any(|name| word.eq_ignore_ascii_case(name.as_bytes()))
}

/// Operators and flags, the first an operator, and a flag after each `+` and `-`.
fn are_actions(actions: &[u8]) -> bool {
    let flag_at = |at: usize| actions.get(at).is_some_and(|byte| b"eip".contains(byte));
    actions.iter().all(|byte| b"=+-eip".contains(byte))
        && actions.iter().enumerate().all(|(at, byte)| !b"+-".contains(byte) || flag_at(at + 1))
}

/// Bytes that complete any beginning at all: nothing where the text is well-formed already, an operator after names, a
/// flag after an operator, and within or before a word what it lacks, with an operator.
fn completions() -> Vec<String> {
    let mut completions = vec![String::new(), "=".to_string(), "e".to_string()];
    for word in NAMES.iter().chain(&["all"]) {
        for from in 0..word.len() {
            completions.push(format!("{}=", &word[from..]));
        }
    }
    completions.sort();
    completions.dedup();
    completions
}

/// "A beginning is a text that some bytes complete to a well-formed one."
fn is_beginning(text: &[u8], completions: &[String]) -> bool {
    completions.iter().any(|completion| is_well_formed(&[text, completion.as_bytes()].concat()))
}

/// The reader takes a text that is well-formed. It refuses any other, at a place up to which the text is a beginning;
/// the text up to the next place is none, and so no longer one is.
fn assert_read_as_defined(text: &[u8], completions: &[String]) {
    let mut values = [UNTOUCHED; 3];
    let written = read_names(text, &mut values);
    let shown = String::from_utf8_lossy(text);
    if is_well_formed(text) {
        assert_eq!(written, Written { code: 0, number: 3 }, "{shown:?}");
    } else {
        let place = written.number as usize;
        assert_eq!(written.code, 70, "{shown:?}");
        assert!(is_beginning(&text[..place], completions), "{shown:?} at {place}");
        assert!(place == text.len() || !is_beginning(&text[..=place], completions), "{shown:?} at {place}");
        assert_eq!(values, [UNTOUCHED; 3]);
    }
}

/// A well-formed text under way, with the flags that each capability has by then: permitted, inheritable, effective.
struct Made {
    text: String,
    flags: [[bool; 3]; 41],
}

impl Made {
    fn new(numbers: &mut Numbers) -> Made {
        let mut made = Made { text: String::new(), flags: [[false; 3]; 41] };
        made.add_blanks(numbers, 0);
        for _ in 0..numbers.below(5) {
            made.add_clause(numbers);
            made.add_blanks(numbers, 1);
        }
        if numbers.below(2) == 0 {
            made.text.truncate(made.text.trim_end().len());
        }
        made
    }

    fn add_blanks(&mut self, numbers: &mut Numbers, at_least: usize) {
        for _ in 0..at_least + numbers.below(3) {
            self.text.push(numbers.one_of(&[' ', '\t', '\n']));
        }
    }

    fn add_clause(&mut self, numbers: &mut Numbers) {
        let mut meant = [true; 41];
        let nameless = match numbers.below(4) {
            0 => true,
            1 => {
                self.add_word(numbers, "all");
                false
            }
            _ => {
                meant = [false; 41];
                for number in 0..1 + numbers.below(4) {
                    if number > 0 {
                        self.text.push(',');
                    }
                    let capability = numbers.below(41);
                    meant[capability] = true;
                    self.add_word(numbers, NAMES[capability]);
                }
                false
            }
        };
        for number in 0..1 + numbers.below(4) {
            let operator = if nameless && number == 0 { '=' } else { numbers.one_of(&['=', '+', '-']) };
            self.add_action(numbers, operator, &meant);
        }
    }

    /// Adds a word with each letter in either case.
    fn add_word(&mut self, numbers: &mut Numbers, word: &str) {
        let upper_case = numbers.below(3);
        for letter in word.chars() {
            let upper = upper_case == 1 || (upper_case == 2 && numbers.below(2) == 0);
            self.text.push(if upper { letter.to_ascii_uppercase() } else { letter });
        }
    }

    fn add_action(&mut self, numbers: &mut Numbers, operator: char, meant: &[bool; 41]) {
        self.text.push(operator);
        let mut named = [false; 3];
        let at_least = if operator == '=' { 0 } else { 1 };
        for _ in 0..at_least + numbers.below(4) {
            let flag = numbers.below(3);
            named[flag] = true;
            self.text.push(['p', 'i', 'e'][flag]);
        }
        for (flags, _) in self.flags.iter_mut().zip(meant).filter(|(_, meant)| **meant) {
            for (flag, named) in flags.iter_mut().zip(named) {
                *flag = match operator {
                    '+' => *flag || named,
                    '-' => *flag && !named,
                    _ => named,
                };
            }
        }
    }

    /// The three sets as numbers.
    fn sets(&self) -> [u64; 3] {
        [0, 1, 2].map(|flag| (0..41).filter(|&capability| self.flags[capability][flag]).map(|c| 1 << c).sum())
    }
}

/// The text with one byte or a few other, more or fewer.
fn broken(text: &[u8], numbers: &mut Numbers) -> Vec<u8> {
    let mut text = text.to_vec();
    let at = numbers.below(text.len() + 1);
    let byte = match numbers.below(8) {
        0 => numbers.below(256) as u8,
        _ => numbers.one_of(b"=+-eipEIP,, \t\n\raAlLcC_0cap_"),
    };
    match numbers.below(6) {
        0 => text.truncate(at),
        1 => text.insert(at, byte),
        2 if at < text.len() => text[at] = byte,
        3 if at < text.len() => {
            text.remove(at);
        }
        4 => {
            let word = numbers.one_of(&["all", "cap_", "ALL,", ",cap_kill", "cap_sys", "+=", "=e ", "a", " +e"]);
            text.splice(at..at, word.bytes());
        }
        _ => {
            let end = (at + numbers.below(8)).min(text.len());
            text.drain(at..end);
        }
    }
    text
}

#[test]
fn the_definitions_are_the_papers() {
    for text in ["", " ", "cap_net_raw+ep", "cap_chown+e=", "=", "=+e", "ALL=e Cap_Net_RAW-p\n"] {
        assert!(is_well_formed(text.as_bytes()), "{text:?}");
    }
    let completions = completions();
    for (text, place) in [("all,cap_chown=e", 3), ("cap_chown,all=e", 10), ("cap_net_raw", 11), ("+e", 0)] {
        let text = text.as_bytes();
        assert!(!is_well_formed(text));
        let longest = (0..=text.len()).rev().find(|&end| is_beginning(&text[..end], &completions));
        assert_eq!(longest, Some(place));
    }
}

#[test]
fn well_formed_texts_give_their_sets() {
    let mut numbers = Numbers(0x2545_f491_4f6c_dd1d);
    for _ in 0..20_000 {
        let made = Made::new(&mut numbers);
        assert!(is_well_formed(made.text.as_bytes()), "{:?}", made.text);
        let mut values = [UNTOUCHED; 3];
        let written = read_names(made.text.as_bytes(), &mut values);
        assert_eq!(written, Written { code: 0, number: 3 }, "{:?}", made.text);
        assert_eq!(values, made.sets(), "{:?}", made.text);
    }
}

#[test]
fn broken_texts_are_refused_at_the_defined_place() {
    let completions = completions();
    let mut numbers = Numbers(0x9e37_79b9_7f4a_7c15);
    for _ in 0..1000 {
        let made = Made::new(&mut numbers);
        let text = broken(made.text.as_bytes(), &mut numbers);
        assert_read_as_defined(&text, &completions);
    }
}

#[test]
fn every_short_row_of_parts_is_read_as_defined() {
    const PARTS: [&str; 12] = ["cap_chown", "All", "cap_", ",", "=", "+", "-", "e", "P", " ", "\r", "a"];
    let completions = completions();
    let mut rows = vec![String::new()];
    for _ in 0..3 {
        rows = rows.iter().flat_map(|row| PARTS.map(|part| format!("{row}{part}"))).collect();
        for row in &rows {
            assert_read_as_defined(row.as_bytes(), &completions);
        }
    }
    assert_eq!(rows.len(), 1728);
}

#[test]
fn written_then_read_gives_back_many_sets() {
    let mut numbers = Numbers(0xd1b5_4a32_d192_ed03);
    for _ in 0..10_000 {
        let [permitted, inheritable, effective] = [numbers.set(), numbers.set(), numbers.set()];
        let mut buffer = [0xa5; 748];
        let written = write_names(permitted, inheritable, effective, &mut buffer);
        assert_eq!(written.code, 0);
        let (text, rest) = buffer.split_at(written.number as usize);
        assert!(rest.iter().all(|&byte| byte == 0xa5));
        let mut values = [UNTOUCHED; 3];
        assert_eq!(read_names(text, &mut values), Written { code: 0, number: 3 });
        assert_eq!(values, [permitted, inheritable, effective]);
    }
}

#[test]
fn what_was_read_is_written_in_the_one_form() {
    let mut numbers = Numbers(0x0123_4567_89ab_cdef);
    for _ in 0..2000 {
        let made = Made::new(&mut numbers);
        let mut values = [UNTOUCHED; 3];
        read_names(made.text.as_bytes(), &mut values);
        let mut clauses = Vec::new();
        for (name, [permitted, inheritable, effective]) in NAMES.iter().zip(made.flags) {
            let flags = [(effective, "e"), (inheritable, "i"), (permitted, "p")];
            let flags: String = flags.iter().filter(|(has, _)| *has).map(|(_, flag)| *flag).collect();
            if !flags.is_empty() {
                clauses.push(format!("{name}={flags}"));
            }
        }
        let expected = clauses.join(" ");
        let mut buffer = vec![0xa5; expected.len()];
        let written = write_names(values[0], values[1], values[2], &mut buffer);
        assert_eq!(written, Written { code: 0, number: expected.len() as u32 });
        assert_eq!(String::from_utf8(buffer).unwrap(), expected);
    }
}
