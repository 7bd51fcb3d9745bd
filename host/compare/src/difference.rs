//! What is printed when something does not agree.

use crate::buffers::Element;
use std::fmt::{Debug, Write};

/// How much of a long text is printed: its front and its end.
const FRONT: usize = 6_000;
const END: usize = 600;
/// How many elements of a buffer are printed before and after the first that differs.
const AROUND: usize = 60;

/// A plan, an input, names, a status text or a slot plan on which the programs differ, or which do not come to what is known of them.
pub struct Difference {
    /// Its seed.
    pub seed: u64,
    /// What is wrong, in a line.
    pub what: String,
    /// What the programs were given, in lines.
    pub given: String,
    /// What came back, in lines.
    pub more: String,
}

/// A difference, if there is one.
pub type Checked<T> = Result<T, Box<Difference>>;

impl Difference {
    /// The whole message.
    pub fn message(&self) -> String {
        let Difference { seed, what, given, more } = self;
        format!(
            "compare: DIFFERENCE at seed {seed}: {what}\n\
             compare: to repeat it: compare --seed {seed} --count 1\n\
             ---- {given}\n---- what came back\n{more}"
        )
    }
}

/// The two answers and the first element in which the buffers differ.
pub fn both<T: Element>(proved: (impl Debug, &[T]), second: (impl Debug, &[T])) -> String {
    let mut lines = format!("proved library: {:?}\nsecond program: {:?}\n", proved.0, second.0);
    let differing = proved.1.iter().zip(second.1).position(|(one, other)| one != other);
    if let Some(at) = differing {
        let name = T::NAME;
        let _ = writeln!(lines, "the buffers differ first at {name} {at}: {:?} and {:?}", proved.1[at], second.1[at]);
        let _ = writeln!(lines, "proved library: {}", around(proved.1, at));
        let _ = writeln!(lines, "second program: {}", around(second.1, at));
    }
    lines
}

// The elements about a place.
fn around<T: Element>(elements: &[T], at: usize) -> String {
    let from = at.saturating_sub(AROUND);
    let to = elements.len().min(at + AROUND);
    format!("..{}..", T::shown(&elements[from..to]))
}

/// A text under its name, so that everything in it can be read: line by line, other bytes escaped, the middle of a long one left out.
pub fn text(name: &str, text: &[u8]) -> String {
    format!("{name}, {} bytes\n{}", text.len(), shown(text))
}

fn shown(text: &[u8]) -> String {
    if text.len() <= FRONT + END {
        return escaped(text);
    }
    let left_out = text.len() - FRONT - END;
    format!("{}\n---- {left_out} bytes\n{}", escaped(&text[..FRONT]), escaped(&text[text.len() - END..]))
}

fn escaped(text: &[u8]) -> String {
    text.escape_ascii().to_string().replace("\\n", "\n")
}

#[cfg(test)]
mod tests {
    use super::*;

    #[test]
    fn what_cannot_be_read_is_escaped() {
        assert_eq!(text("the plan", b"ruid=0\n\xff\0"), "the plan, 9 bytes\nruid=0\n\\xff\\x00");
    }

    #[test]
    fn a_long_text_is_cut() {
        let long = vec![b'x'; 1_000_000];
        let shown = shown(&long);
        assert!(shown.len() < FRONT + END + 100);
        assert!(shown.contains("---- 993400 bytes"));
    }

    #[test]
    fn the_first_differing_element_is_told() {
        let told = both((3, &b"abc"[..]), (3, &b"abd"[..]));
        assert!(told.contains("differ first at byte 2: 99 and 100\nproved library: ..abc..\n"));
        let told = both((2, &[10_u64, 20][..]), (2, &[11, 20]));
        assert!(told.contains("differ first at place 0: 10 and 11\nproved library: ..a 14..\n"));
    }

    #[test]
    fn a_difference_says_how_to_repeat_it() {
        let difference =
            Difference { seed: 7, what: "why".into(), given: text("the plan", b"ruid=0\n"), more: "more\n".into() };
        let expected = "compare: DIFFERENCE at seed 7: why\ncompare: to repeat it: compare --seed 7 --count 1\n\
                        ---- the plan, 7 bytes\nruid=0\n\n---- what came back\nmore\n";
        assert_eq!(difference.message(), expected);
    }
}
