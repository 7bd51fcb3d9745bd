//! "The roaster's own word": a status text and a list, as the rows see them.
//!
//! A line is right where it is the line that its own values are written as, which is another way to say it than digit by digit.

mod passed_over;

pub use passed_over::{Kind as PassedOver, Position};

use super::sheet::{Values, AMBIENT, BOUNDING, EFFECTIVE, INHERITABLE, KEYS, NNP, PERMITTED};
use passed_over::Seen;

/// The names of the wanted lines, in the order in which they are due.
pub const WANTED: [&str; 7] = ["Uid", "CapInh", "CapPrm", "CapEff", "CapBnd", "CapAmb", "NoNewPrivs"];

/// The keys that are compared, by their places in a sheet, in its order.
pub const COMPARED: [usize; 10] = [0, 1, 2, 3, PERMITTED, INHERITABLE, EFFECTIVE, BOUNDING, AMBIENT, NNP];

/// Where a value stands among the compared keys, for each wanted line that has one value.
const PLACES: [usize; 7] = [0, 5, 4, 6, 7, 8, 9];
/// How many IDs Uid has, and the places of the sets.
pub const IDS: usize = 4;
pub const SETS: std::ops::Range<usize> = 4..9;
pub const FLAG: usize = 9;

/// The last line of a list.
const LAST_LINE: &str = "not compared: securebits, group IDs\n";
/// The bytes of a list where nothing differs.
pub const SHORTEST: usize = 36;
/// The bytes of a list where everything differs, with IDs of ten digits.
pub const LONGEST: usize = 372;

/// The compared values, in the order of a sheet.
pub type Compared = [u64; 10];

/// The compared values of a sheet.
pub fn compared(values: &Values) -> Compared {
    COMPARED.map(|place| values[place])
}

/// The list of what differs.
pub fn list(predicted: &Compared, found: &Compared) -> Vec<u8> {
    let mut list = String::new();
    for (at, place) in COMPARED.into_iter().enumerate().filter(|(at, _)| predicted[*at] != found[*at]) {
        list += &format!("{} {} {}\n", KEYS[place], written(at, predicted[at]), written(at, found[at]));
    }
    (list + LAST_LINE).into_bytes()
}

// A value in the sheet's digits.
fn written(at: usize, value: u64) -> String {
    if SETS.contains(&at) {
        format!("{value:016x}")
    } else {
        value.to_string()
    }
}

/// What a status text comes to.
pub struct Reading {
    /// How many lines it has.
    pub lines: usize,
    /// Whether it ends with a newline.
    pub has_last_newline: bool,
    /// Its first fault, or the values of its lines.
    pub found: Result<Compared, Fault>,
    /// Its lines that are passed over, up to the fault.
    pub passed_over: Seen,
}

/// The first fault of a text.
pub struct Fault {
    /// Its line, from 1 on.
    pub line: usize,
    /// How many wanted lines were right before it.
    pub due: usize,
    pub what: What,
    /// Whether a wanted line follows that is wrong by itself.
    pub is_followed: bool,
}

/// What is at fault.
#[derive(Clone, Copy, Debug, PartialEq, Eq)]
pub enum What {
    /// A wanted line that is due is malformed.
    Malformed,
    /// A wanted line, by its place among the seven, is not the next one due.
    OutOfTurn(usize),
    /// A line is due, and the text ends.
    End,
}

/// Reads a status text.
pub fn read(text: &[u8]) -> Reading {
    let has_last_newline = text.ends_with(b"\n");
    let front = text.strip_suffix(b"\n").unwrap_or(text);
    let lines: Vec<&[u8]> = if text.is_empty() { Vec::new() } else { front.split(|byte| *byte == b'\n').collect() };
    let wanted = lines.iter().enumerate().filter_map(|(at, line)| Some((at, wanted_name(line)?)));
    let wanted: Vec<(usize, usize)> = wanted.collect();
    let mut found = [0; 10];
    let mut fault = (wanted.len() < WANTED.len()).then_some((lines.len(), wanted.len(), What::End));
    for (due, (at, name)) in wanted.iter().enumerate().rev() {
        let right = values(*name, lines[*at]);
        if *name != due {
            fault = Some((*at, due, What::OutOfTurn(*name)));
        } else if let Some(right) = right {
            found[PLACES[due]..][..right.len()].copy_from_slice(&right);
        } else {
            fault = Some((*at, due, What::Malformed));
        }
    }
    let end = fault.map_or(lines.len(), |(at, _, _)| at);
    let passed_over = Seen::of(&lines[..end], &wanted);
    let found = match fault {
        None => Ok(found),
        Some((at, due, what)) => {
            let is_followed = wanted.iter().any(|(other, name)| *other > at && values(*name, lines[*other]).is_none());
            Err(Fault { line: at + 1, due, what, is_followed })
        }
    };
    Reading { lines: lines.len(), has_last_newline, found, passed_over }
}

// Which of the seven a line begins with, before a colon.
fn wanted_name(line: &[u8]) -> Option<usize> {
    let name = line.split(|byte| *byte == b':').next().filter(|name| name.len() < line.len())?;
    WANTED.iter().position(|wanted| wanted.as_bytes() == name)
}

// The values of a wanted line, if it is how these are written.
fn values(name: usize, line: &[u8]) -> Option<Vec<u64>> {
    let (_, digits) = std::str::from_utf8(line).ok()?.split_once('\t')?;
    let count = if name == 0 { IDS } else { 1 };
    let at = PLACES[name];
    let (radix, largest) = match at {
        FLAG => (10, 1),
        _ if SETS.contains(&at) => (16, u64::MAX),
        _ => (10, u64::from(u32::MAX)),
    };
    let values = digits.split('\t').map(|digits| u64::from_str_radix(digits, radix).ok().filter(|v| *v <= largest));
    let values: Vec<u64> = values.collect::<Option<_>>()?;
    let rewritten: String = values.iter().map(|value| format!("\t{}", written(at, *value))).collect();
    (values.len() == count && format!("{}:{rewritten}", WANTED[name]).as_bytes() == line).then_some(values)
}

#[cfg(test)]
mod tests {
    use super::*;

    const TEXT: &str =
        "Name:\tx\nUid:\t1000\t0\t4294967295\t7\nGid:\t1\nCapInh:\t0000000000000001\nCapPrm:\t8000000000000002\n\
        CapEff:\t0000000000000003\nCapBnd:\t000001ffffffffff\nCapAmb:\t0000000000000005\nNoNewPrivs:\t1\nSeccomp:\t0\n";
    const FOUND: Compared = [1000, 0, 4_294_967_295, 7, 1 << 63 | 2, 1, 3, 0x1ff_ffff_ffff, 5, 1];

    fn line_of_fault(text: &str) -> usize {
        match read(text.as_bytes()).found {
            Err(fault) => fault.line,
            Ok(found) => panic!("it has no fault: {found:?}"),
        }
    }

    #[test]
    fn values_are_read_from_the_file_and_put_in_the_sheets_order() {
        for text in [TEXT, TEXT.trim_end(), &TEXT.replace("Name:\tx\n", "\n\r\n\0Uid:\n"), &TEXT[8..]] {
            let reading = read(text.as_bytes());
            assert!(reading.found.is_ok_and(|found| found == FOUND), "{text}");
            assert_eq!(reading.has_last_newline, text.ends_with('\n'));
        }
    }

    // "How it is read": each sentence that makes a line malformed, and what is passed over.
    #[test]
    fn faults_are_in_their_lines() {
        for (right, wrong, line) in [
            ("4294967295", "4294967296", 2),
            ("Uid:\t1000", "Uid:\t01000", 2),
            ("Uid:\t1000", "Uid: 1000", 2),
            ("Uid:\t1000", "Uid:\t\t1000", 2),
            ("\t7\n", "\n", 2),
            ("\t7\n", "\t7\t7\n", 2),
            ("\t7\n", "\t7\r\n", 2),
            ("\t7\n", "\t+7\n", 2),
            ("000001ffffffffff", "000001FFFFFFFFFF", 7),
            ("0000000000000005", "000000000000005", 8),
            ("NoNewPrivs:\t1", "NoNewPrivs:\t2", 9),
            ("NoNewPrivs:\t1", "NoNewPrivs:", 9),
            ("Seccomp:\t0", "Uid:\t1\t1\t1\t1", 10),
            ("Seccomp:\t0", "NoNewPrivs:", 10),
            ("Uid:", "uid:", 4),
            ("Uid:", "Uid", 4),
            ("Uid:", " Uid:", 4),
            ("CapInh:", "CapInhX:", 5),
            ("CapAmb:\t0000000000000005\n", "", 8),
            ("NoNewPrivs:", "NoNewPrivs", 11),
        ] {
            assert_eq!(line_of_fault(&TEXT.replace(right, wrong)), line, "{wrong:?}");
        }
        for (text, line) in [("", 1), ("x", 2), ("x\n", 2), ("\n", 2), ("\n\n", 3), ("x\ny", 3), ("Uid:", 1)] {
            assert_eq!(line_of_fault(text), line, "{text:?}");
        }
    }

    #[test]
    fn what_is_at_fault_is_told() {
        let fault =
            |text: &str| read(text.as_bytes()).found.err().map(|fault| (fault.due, fault.what, fault.is_followed));
        assert_eq!(fault(&TEXT.replace("CapEff:", "CapBnd:")), Some((3, What::OutOfTurn(4), false)));
        assert_eq!(fault(&TEXT.replace("CapEff:\t", "CapEff: ")), Some((3, What::Malformed, false)));
        assert_eq!(fault(&TEXT.replace(":\t000000", ":\t00000")), Some((1, What::Malformed, true)));
        assert_eq!(fault(&TEXT.replace("NoNewPrivs:\t1\n", "")), Some((6, What::End, false)));
        assert_eq!(fault(&TEXT.repeat(2)), Some((7, What::OutOfTurn(0), false)));
    }

    #[test]
    fn lists_are_of_their_lengths() {
        assert_eq!(list(&FOUND, &FOUND), LAST_LINE.as_bytes());
        assert_eq!(LAST_LINE.len(), SHORTEST);
        let mut other = FOUND;
        other[3] = 4_294_967_294;
        other[5] = 1 << 40;
        other[9] = 0;
        let expected = "fsuid 7 4294967294\ninheritable 0000000000000001 0000010000000000\nnnp 1 0\n\
            not compared: securebits, group IDs\n";
        assert_eq!(list(&FOUND, &other), expected.as_bytes());
        let [small, large]: [Compared; 2] =
            [1_000_000_000, 4_294_967_295].map(|id| [id, id, id, id, id, id, id, id, id, id % 2]);
        assert_eq!(list(&small, &large).len(), LONGEST);
    }
}
