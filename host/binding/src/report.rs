//! A report, step by step.

use core::fmt;

use crate::cause::Cause;
use crate::number::{DONE, NOT_PERMITTED, NO_SLOT, NO_THREAD, OUT_OF_RANGE, UNREADABLE};

/// What a report says of a step.
#[derive(Clone, Copy, Debug, PartialEq, Eq)]
pub enum StepResult {
    /// The call was done.
    Done {
        /// What the call gives: a bit, the flags, the old filesystem ID or the slot that a fork takes; 0 for a call that gives nothing.
        value: u64,
    },
    /// The rules refuse the call.
    NotPermitted(Cause),
    /// In a slot plan alone: the slot that is named is not in use.
    NoThread,
    /// In a slot plan alone, of a fork: no slot is free.
    NoSlot,
    /// Number, operands and attribute make no call; or, in a slot plan, the slot that is named is above 95.
    InvalidArgument,
    /// The attribute cannot be read.
    UnreadableAttribute,
}

impl StepResult {
    /// The code of this result: 0 done, 1 refused by the rules, 3 slot not in use, 11 no slot free, 22 no call, 60 attribute unreadable.
    #[must_use]
    pub const fn code(self) -> u32 {
        match self {
            StepResult::Done { .. } => DONE,
            StepResult::NotPermitted(_) => NOT_PERMITTED,
            StepResult::NoThread => NO_THREAD,
            StepResult::NoSlot => NO_SLOT,
            StepResult::InvalidArgument => OUT_OF_RANGE,
            StepResult::UnreadableAttribute => UNREADABLE,
        }
    }

    /// The value of this result: 0 for a refusal.
    #[must_use]
    pub const fn value(self) -> u64 {
        match self {
            StepResult::Done { value } => value,
            _ => 0,
        }
    }

    fn of_numbers(code: u64, value: u64, cause: u64) -> Option<StepResult> {
        let cause = u32::try_from(cause).ok()?;
        let result = match u32::try_from(code).ok()? {
            DONE => StepResult::Done { value },
            NOT_PERMITTED => StepResult::NotPermitted(Cause::from_number(cause)?),
            NO_THREAD => StepResult::NoThread,
            NO_SLOT => StepResult::NoSlot,
            OUT_OF_RANGE => StepResult::InvalidArgument,
            UNREADABLE => StepResult::UnreadableAttribute,
            _ => return None,
        };
        let has_cause = matches!(result, StepResult::NotPermitted(_));
        (result.value() == value && has_cause == (cause != 0)).then_some(result)
    }
}

/// In words, as after a step's line in a message.
///
/// ```
/// use urrezkalu::{Cause, StepResult};
///
/// assert_eq!(StepResult::Done { value: 0 }.to_string(), "done");
/// assert_eq!(StepResult::NotPermitted(Cause::LockUndone).to_string(), "refused: a lock of the securebits would be undone");
/// assert_eq!(StepResult::NoThread.to_string(), "refused: the slot is not in use");
/// ```
impl fmt::Display for StepResult {
    fn fmt(&self, f: &mut fmt::Formatter<'_>) -> fmt::Result {
        match self {
            StepResult::Done { .. } => write!(f, "done"),
            StepResult::NotPermitted(cause) => write!(f, "refused: {cause}"),
            StepResult::NoThread => write!(f, "refused: the slot is not in use"),
            StepResult::NoSlot => write!(f, "refused: no slot is free"),
            StepResult::InvalidArgument => write!(f, "refused: number, operands and attribute make no call"),
            StepResult::UnreadableAttribute => write!(f, "refused: the attribute cannot be read"),
        }
    }
}

/// The results in a report, in the order of the steps.
#[derive(Clone, Debug)]
pub struct Results<'a> {
    rest: &'a [u8],
}

/// The results in `report`, which the run of a plan or of a slot plan has written. Of any other text they are those at its front, as far as they
/// have the form of results.
///
/// A step stands in five lines of the plan, after the fifteen of its sheet, and in six of a slot plan:
///
/// ```
/// use urrezkalu::{results, run_plan, Cause, Outcome, StepResult, LONGEST_REPORT};
///
/// let plan = b"ruid=1000\neuid=1000\nsuid=1000\nfsuid=1000\nrgid=1000\negid=1000\nsgid=1000\nfsgid=1000\n\
///     permitted=0000000000000000\ninheritable=0000000000000000\neffective=0000000000000000\n\
///     bounding=000001ffffffffff\nambient=0000000000000000\nsecurebits=00\nnnp=0\n\
///     call=4\na=000000000000000d\nb=0000000000000000\nc=0000000000000000\nattr=\n\
///     call=15\na=0000000000000000\nb=0000000000000000\nc=0000000000000000\nattr=\n";
/// let mut report = [0; LONGEST_REPORT];
/// let Outcome::Report { length } = run_plan(plan, &mut report) else { panic!("the plan is refused") };
///
/// let mut results = results(&report[..length]);
/// assert_eq!(results.next(), Some(StepResult::Done { value: 1 }));
/// assert_eq!(results.next(), Some(StepResult::NotPermitted(Cause::IdNotAllowed)));
/// assert_eq!(results.next(), None);
/// assert!(results.rest().starts_with(b"ruid=1000\n"));
/// ```
#[must_use]
pub const fn results(report: &[u8]) -> Results<'_> {
    Results { rest: report }
}

impl<'a> Results<'a> {
    /// What has not been read: after the last result, the sheet, or the slots of a slot plan's report.
    #[must_use]
    pub const fn rest(&self) -> &'a [u8] {
        self.rest
    }
}

impl Iterator for Results<'_> {
    type Item = StepResult;

    fn next(&mut self) -> Option<StepResult> {
        let (code, rest) = number(self.rest, b"code=", 10)?;
        let (value, rest) = number(rest, b"value=", 16)?;
        let (cause, rest) = number(rest, b"cause=", 10)?;
        let result = StepResult::of_numbers(code, value, cause)?;
        self.rest = rest;
        Some(result)
    }
}

/// The number of the line that `text` begins with, behind its key, and what stands after the line.
fn number<'a>(text: &'a [u8], key: &[u8], radix: u32) -> Option<(u64, &'a [u8])> {
    let after = text.strip_prefix(key)?;
    let digits = after.iter().position(|byte| !matches!(byte, b'0'..=b'9' | b'a'..=b'f'))?;
    let rest = after[digits..].strip_prefix(b"\n")?;
    let digits = core::str::from_utf8(&after[..digits]).ok()?;
    Some((u64::from_str_radix(digits, radix).ok()?, rest))
}

#[cfg(test)]
mod tests {
    extern crate std;

    use super::{results, StepResult};
    use crate::Cause;
    use std::format;

    const THREE: &[u8] = b"code=0\nvalue=00000000000000ff\ncause=0\n\
        code=1\nvalue=0000000000000000\ncause=11\n\
        code=60\nvalue=0000000000000000\ncause=0\nruid=0\n";

    #[test]
    fn results_come_in_their_order() {
        let mut found = results(THREE);
        assert_eq!(found.next(), Some(StepResult::Done { value: 255 }));
        assert_eq!(found.next(), Some(StepResult::NotPermitted(Cause::LaunchFallsShort)));
        assert_eq!(found.next(), Some(StepResult::UnreadableAttribute));
        assert_eq!(found.next(), None);
        assert_eq!(found.rest(), b"ruid=0\n");
    }

    #[test]
    fn every_code_is_told() {
        let codes = [0, 1, 3, 11, 22, 60];
        let told = [
            StepResult::Done { value: 0 },
            StepResult::NotPermitted(Cause::LockUndone),
            StepResult::NoThread,
            StepResult::NoSlot,
            StepResult::InvalidArgument,
            StepResult::UnreadableAttribute,
        ];
        assert_eq!(told.map(StepResult::code), codes);
        for (code, result) in codes.into_iter().zip(told) {
            let cause = if code == 1 { 8 } else { 0 };
            assert_eq!(StepResult::of_numbers(code.into(), 0, cause), Some(result));
        }
    }

    #[test]
    fn no_other_numbers_are_a_result() {
        for (code, value, cause) in [
            (72, 0, 0),
            (2, 0, 0),
            (1, 0, 0),
            (1, 0, 12),
            (0, 0, 1),
            (22, 0, 10),
            (22, 1, 0),
            (3, 0, 1),
            (3, 1, 0),
            (11, 0, 11),
            (11, 96, 0),
            (1, 1, 1),
            (1 << 32, 0, 0),
        ] {
            assert_eq!(StepResult::of_numbers(code, value, cause), None, "{code} {value} {cause}");
        }
    }

    #[test]
    fn a_text_cut_short_has_the_results_before_the_cut() {
        let ends = [0, 38, 77, 116];
        for length in 0..=THREE.len() {
            let whole = ends.into_iter().filter(|end| *end <= length).count() - 1;
            let mut found = results(&THREE[..length]);
            assert_eq!(found.by_ref().count(), whole, "{length}");
            assert_eq!(found.rest(), &THREE[ends[whole]..length], "{length}");
        }
    }

    #[test]
    fn a_number_is_digits_alone() {
        for code in ["+1", "-1", "", " 1", "1 ", "0x1", "A", "18446744073709551616"] {
            let text = format!("code={code}\nvalue=0000000000000000\ncause=1\n");
            assert_eq!(results(text.as_bytes()).next(), None, "{code:?}");
        }
    }
}
