//! Plans, and what they come to.

use core::fmt;

use crate::interface;
use crate::number::{apart, no_such_code, DONE, INVALID, MALFORMED, NO_ROOM};

/// The most bytes that a well-formed plan has. A longer text is refused, and its first `LONGEST_PLAN + 1` bytes decide the line.
pub const LONGEST_PLAN: usize = 30_748;

/// The most bytes that a report has: a buffer of this length is never too short.
pub const LONGEST_REPORT: usize = 10_268;

/// What a plan or a slot plan comes to.
#[derive(Clone, Copy, Debug, PartialEq, Eq)]
#[must_use]
pub enum Outcome {
    /// The plan was run. The report is the first `length` bytes of the buffer; the bytes past it are as they were.
    Report {
        /// How many bytes the report has.
        length: usize,
    },
    /// The text is no plan. The buffer is as it was.
    Malformed {
        /// The first line that is at fault: one more than the complete correct lines before it.
        line: u32,
    },
    /// The credentials that the plan starts with are not valid. The buffer is as it was.
    Invalid,
    /// The report is longer than the buffer, which is as it was.
    NoRoom,
}

impl Outcome {
    /// The code of this outcome: 0 for a report, 70 for a malformed text, 72 for an invalid start, 28 for a buffer that is too short.
    ///
    /// ```
    /// assert_eq!(urrezkalu::Outcome::Malformed { line: 20 }.code(), 70);
    /// ```
    #[must_use]
    pub const fn code(self) -> u32 {
        match self {
            Outcome::Report { .. } => DONE,
            Outcome::Malformed { .. } => MALFORMED,
            Outcome::Invalid => INVALID,
            Outcome::NoRoom => NO_ROOM,
        }
    }
}

/// In words, as after a file's name in a message.
///
/// ```
/// assert_eq!(urrezkalu::Outcome::Malformed { line: 20 }.to_string(), "malformed at line 20");
/// ```
impl fmt::Display for Outcome {
    fn fmt(&self, f: &mut fmt::Formatter<'_>) -> fmt::Result {
        match self {
            Outcome::Report { length } => write!(f, "a report of {length} bytes"),
            Outcome::Malformed { line } => write!(f, "malformed at line {line}"),
            Outcome::Invalid => write!(f, "the credentials at the start are not valid"),
            Outcome::NoRoom => write!(f, "the report does not fit the buffer"),
        }
    }
}

/// Runs `plan` and writes its report at the front of `report`.
///
/// A refused plan leaves every byte of `report` as it was, and the bytes past a report stay. A step that is refused does not refuse the plan: its
/// code and its cause are in the report, which [`results`](crate::results) takes apart. A plan that would be refused for several reasons is refused
/// for the first of malformed, invalid, no room.
///
/// ```
/// use urrezkalu::{run_plan, Outcome};
///
/// assert_eq!(run_plan(b"", &mut []), Outcome::Malformed { line: 1 });
/// assert_eq!(run_plan(b"ruid=0\neuid=01\n", &mut []), Outcome::Malformed { line: 2 });
/// ```
///
/// A report ends with the sheet of what the thread then holds. Here it tells which groups a label printer's program ends in that is set-group-ID,
/// its file's group being 107:
///
/// ```
/// use urrezkalu::{read_sheet, results, run_plan, Outcome, SheetReading, LONGEST_REPORT};
///
/// let plan = b"ruid=1000\neuid=1000\nsuid=1000\nfsuid=1000\nrgid=1000\negid=1000\nsgid=1000\nfsgid=1000\n\
///     permitted=0000000000000000\ninheritable=0000000000000000\neffective=0000000000000000\n\
///     bounding=000001ffffffffff\nambient=0000000000000000\nsecurebits=00\nnnp=0\n\
///     call=1\na=0000000000000000\nb=0000000000000002\nc=000000000000006b\nattr=\n";
/// let mut report = [0; LONGEST_REPORT];
/// let Outcome::Report { length } = run_plan(plan, &mut report) else { panic!("the plan is refused") };
///
/// let mut results = results(&report[..length]);
/// assert_eq!(results.by_ref().count(), 1);
/// let SheetReading::Sheet(after) = read_sheet(results.rest()) else { panic!("a report ends with a sheet") };
/// assert_eq!([after.rgid, after.egid, after.sgid, after.fsgid], [1000, 107, 107, 107]);
/// ```
///
/// The two buffers cannot overlap, which the library asks for and C cannot promise:
///
/// ```compile_fail,E0502
/// let mut bytes = [0; 16];
/// let _ = urrezkalu::run_plan(&bytes, &mut bytes);
/// ```
pub fn run_plan(plan: &[u8], report: &mut [u8]) -> Outcome {
    outcome(interface::run_plan(plan, report))
}

pub(crate) fn outcome(number: u64) -> Outcome {
    match apart(number) {
        (DONE, length) => Outcome::Report { length: length as usize },
        (MALFORMED, line) => Outcome::Malformed { line },
        (INVALID, _) => Outcome::Invalid,
        (NO_ROOM, _) => Outcome::NoRoom,
        (code, _) => no_such_code(code),
    }
}

#[cfg(test)]
mod tests {
    use super::{outcome, Outcome, LONGEST_REPORT};
    use crate::LONGEST_SLOT_REPORT;

    // The paper's numbers, multiplied out: code times 4294967296 plus line or length.
    #[test]
    fn every_code_is_taken_apart() {
        assert_eq!(outcome(274), Outcome::Report { length: 274 });
        assert_eq!(outcome(10_268), Outcome::Report { length: LONGEST_REPORT });
        assert_eq!(outcome(37_911), Outcome::Report { length: LONGEST_SLOT_REPORT });
        assert_eq!(outcome(4_294_967_295), Outcome::Report { length: 4_294_967_295 });
        assert_eq!(outcome(300_647_710_721), Outcome::Malformed { line: 1 });
        assert_eq!(outcome(300_647_712_016), Outcome::Malformed { line: 1_296 });
        assert_eq!(outcome(300_647_712_272), Outcome::Malformed { line: 1_552 });
        assert_eq!(outcome(304_942_678_015), Outcome::Malformed { line: 4_294_967_295 });
        assert_eq!(outcome(309_237_645_312), Outcome::Invalid);
        assert_eq!(outcome(120_259_084_288), Outcome::NoRoom);
    }

    #[test]
    #[should_panic(expected = "no code 22")]
    fn no_other_code_is_taken_for_one() {
        let _ = outcome(22 << 32);
    }

    #[test]
    #[should_panic(expected = "no code 4294967295")]
    fn no_code_wraps() {
        let _ = outcome(u64::MAX);
    }

    #[test]
    fn codes_are_the_papers() {
        assert_eq!(Outcome::Report { length: 274 }.code(), 0);
        assert_eq!(Outcome::NoRoom.code(), 28);
        assert_eq!(Outcome::Malformed { line: 1 }.code(), 70);
        assert_eq!(Outcome::Invalid.code(), 72);
    }
}
