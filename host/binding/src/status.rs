//! Captured status files, laid beside predicted credentials.

use core::fmt;

use crate::interface;
use crate::number::{apart, no_such_code, DONE, INVALID, MALFORMED, NO_ROOM};

/// The most bytes that a list has: a buffer of this length is never too short.
pub const LONGEST_LIST: usize = 372;

/// What comes of laying a status file beside a predicted sheet.
#[derive(Clone, Copy, Debug, PartialEq, Eq)]
#[must_use]
pub enum StatusComparison {
    /// What differs is the first `length` bytes of the buffer; the bytes past it are as they were.
    Listed {
        /// How many bytes the list has.
        length: usize,
    },
    /// The text is no status file. The buffer is as it was.
    MalformedStatus {
        /// The first line that is at fault, from 1 on: a wanted line that is malformed or not the next one due, or the line after the last where one
        /// is still due. 4294967295 stands for that line or any later one.
        line: u32,
    },
    /// The predicted sheet is none. The buffer is as it was.
    MalformedSheet,
    /// The predicted credentials are not valid. The buffer is as it was.
    Invalid,
    /// The list is longer than the buffer, which is as it was.
    NoRoom,
}

impl StatusComparison {
    /// The code of this answer: 0 for a list, 70 for a malformed status file or sheet, 72 for predicted credentials that are not valid, 28 for a
    /// buffer that is too short.
    ///
    /// ```
    /// assert_eq!(urrezkalu::StatusComparison::MalformedStatus { line: 9 }.code(), 70);
    /// ```
    #[must_use]
    pub const fn code(self) -> u32 {
        match self {
            StatusComparison::Listed { .. } => DONE,
            StatusComparison::MalformedStatus { .. } | StatusComparison::MalformedSheet => MALFORMED,
            StatusComparison::Invalid => INVALID,
            StatusComparison::NoRoom => NO_ROOM,
        }
    }
}

/// In words, as after a file's name in a message.
///
/// ```
/// use urrezkalu::StatusComparison;
///
/// assert_eq!(StatusComparison::MalformedStatus { line: 9 }.to_string(), "malformed at line 9");
/// assert_eq!(StatusComparison::MalformedStatus { line: u32::MAX }.to_string(), "malformed at line 4294967295 or a later one");
/// assert_eq!(StatusComparison::MalformedSheet.to_string(), "the predicted sheet is malformed");
/// ```
impl fmt::Display for StatusComparison {
    fn fmt(&self, f: &mut fmt::Formatter<'_>) -> fmt::Result {
        match self {
            StatusComparison::Listed { length } => write!(f, "a list of {length} bytes"),
            StatusComparison::MalformedStatus { line: u32::MAX } => {
                write!(f, "malformed at line 4294967295 or a later one")
            }
            StatusComparison::MalformedStatus { line } => write!(f, "malformed at line {line}"),
            StatusComparison::MalformedSheet => write!(f, "the predicted sheet is malformed"),
            StatusComparison::Invalid => write!(f, "the predicted credentials are not valid"),
            StatusComparison::NoRoom => write!(f, "the list does not fit the buffer"),
        }
    }
}

/// Lays `status`, the text of a /proc/PID/status, beside the credentials of `sheet`, and writes what differs at the front of `list`.
///
/// Seven lines are wanted, in this order: Uid, CapInh, CapPrm, CapEff, CapBnd, CapAmb, NoNewPrivs. Each has its name, a colon, and its values in the
/// sheet's digits, each after one tab; the last line's newline may be missing. Lines that begin otherwise are passed over, whatever bytes they hold.
/// A found value need not be valid: an ID of 4294967295 and a bit above 40 are read and listed.
///
/// The list has a line for each key whose values differ, in the order of the sheet: key, predicted value, found value. Its last line says what is not
/// compared: the securebits, which a status file does not have, and the group IDs. [`differences`](crate::differences) takes a list apart.
///
/// A refusal leaves every byte of `list` as it was, and the bytes past a list stay. What would be refused for several reasons is refused for the first
/// of malformed status, malformed sheet, invalid, no room.
///
/// ```
/// use urrezkalu::{compare_status, StatusComparison, LONGEST_LIST};
///
/// let status = "Name:\tlog-script\nUid:\t1002\t1002\t1002\t1002\nGid:\t1000\t1000\t1000\t1000\n\
///     CapInh:\t0000000000020000\nCapPrm:\t0000000000020000\nCapEff:\t0000000000000000\n\
///     CapBnd:\t000001ffffffffff\nCapAmb:\t0000000000000000\nNoNewPrivs:\t0\nSeccomp:\t0\n";
/// let sheet = "ruid=1002\neuid=1002\nsuid=1002\nfsuid=1002\nrgid=0\negid=0\nsgid=0\nfsgid=0\n\
///     permitted=0000000000000000\ninheritable=0000000000020000\neffective=0000000000000000\n\
///     bounding=000001ffffffffff\nambient=0000000000000000\nsecurebits=00\nnnp=1\n";
/// let mut list = [0; LONGEST_LIST];
/// let answer = compare_status(status.as_bytes(), sheet.as_bytes(), &mut list);
/// let StatusComparison::Listed { length } = answer else { panic!("{answer}") };
/// assert_eq!(
///     std::str::from_utf8(&list[..length]).unwrap(),
///     "permitted 0000000000000000 0000000000020000\nnnp 1 0\nnot compared: securebits, group IDs\n"
/// );
///
/// // Two spaces for a tab.
/// let broken = status.replace("CapPrm:\t", "CapPrm:  ");
/// let malformed = StatusComparison::MalformedStatus { line: 5 };
/// assert_eq!(compare_status(broken.as_bytes(), sheet.as_bytes(), &mut list), malformed);
/// assert_eq!(compare_status(status.as_bytes(), b"ruid=1002\n", &mut list), StatusComparison::MalformedSheet);
/// ```
///
/// What is read and what is written cannot overlap, which the library asks for and C cannot promise:
///
/// ```compile_fail,E0502
/// let mut bytes = [0; 16];
/// let _ = urrezkalu::compare_status(b"", &bytes, &mut bytes);
/// ```
pub fn compare_status(status: &[u8], sheet: &[u8], list: &mut [u8]) -> StatusComparison {
    comparison(interface::compare_status(status, sheet, list))
}

fn comparison(number: u64) -> StatusComparison {
    match apart(number) {
        (DONE, length) => StatusComparison::Listed { length: length as usize },
        (MALFORMED, 0) => StatusComparison::MalformedSheet,
        (MALFORMED, line) => StatusComparison::MalformedStatus { line },
        (INVALID, _) => StatusComparison::Invalid,
        (NO_ROOM, _) => StatusComparison::NoRoom,
        (code, _) => no_such_code(code),
    }
}

#[cfg(test)]
mod tests {
    use super::{comparison, StatusComparison, LONGEST_LIST};

    // The paper's numbers, multiplied out: code times 4294967296 plus line or length.
    #[test]
    fn every_code_is_taken_apart() {
        assert_eq!(comparison(36), StatusComparison::Listed { length: 36 });
        assert_eq!(comparison(372), StatusComparison::Listed { length: LONGEST_LIST });
        assert_eq!(comparison(300_647_710_720), StatusComparison::MalformedSheet);
        assert_eq!(comparison(300_647_710_721), StatusComparison::MalformedStatus { line: 1 });
        assert_eq!(comparison(304_942_678_015), StatusComparison::MalformedStatus { line: 4_294_967_295 });
        assert_eq!(comparison(309_237_645_312), StatusComparison::Invalid);
        assert_eq!(comparison(120_259_084_288), StatusComparison::NoRoom);
    }

    #[test]
    #[should_panic(expected = "no code 22")]
    fn no_other_code_is_taken_for_one() {
        let _ = comparison(22 << 32);
    }

    #[test]
    fn codes_are_the_papers() {
        assert_eq!(StatusComparison::Listed { length: 36 }.code(), 0);
        assert_eq!(StatusComparison::NoRoom.code(), 28);
        assert_eq!(StatusComparison::MalformedStatus { line: 1 }.code(), 70);
        assert_eq!(StatusComparison::MalformedSheet.code(), 70);
        assert_eq!(StatusComparison::Invalid.code(), 72);
    }
}
