//! The readers and writers of sheets, attributes and names, the comparison of a status text, and the run of a slot plan, each in both programs.

use super::scattered;
use crate::branches::{Answer, Seen, LONGEST_LIST, LONGEST_NAMES, LONGEST_SHEET, LONGEST_SLOT_REPORT};
use crate::buffers::{Buffers, Element};
use crate::difference::both;
use plans::{Operands, VALUES};
use second::{Outcome, Written};
use urrezkalu::interface;

/// One of the eight with what it is given.
pub trait Function {
    /// What it writes.
    type Element: Element;

    /// The most that it writes.
    const MOST: usize;

    /// Runs the proved library.
    fn proved(&self, buffer: &mut [Self::Element]) -> u64;

    /// Runs the second program.
    fn second(&self, buffer: &mut [Self::Element]) -> Written;
}

pub struct ReadSheet<'t>(pub &'t [u8]);

impl Function for ReadSheet<'_> {
    type Element = u64;
    const MOST: usize = VALUES;

    fn proved(&self, values: &mut [u64]) -> u64 {
        interface::read_sheet(self.0, values)
    }

    fn second(&self, values: &mut [u64]) -> Written {
        second::read_sheet(self.0, values)
    }
}

pub struct WriteSheet<'v>(pub &'v [u64]);

impl Function for WriteSheet<'_> {
    type Element = u8;
    const MOST: usize = LONGEST_SHEET;

    fn proved(&self, sheet: &mut [u8]) -> u64 {
        interface::write_sheet(self.0, sheet)
    }

    fn second(&self, sheet: &mut [u8]) -> Written {
        second::write_sheet(self.0, sheet)
    }
}

pub struct ReadAttribute<'b>(pub &'b [u8]);

impl Function for ReadAttribute<'_> {
    type Element = u64;
    const MOST: usize = 4;

    fn proved(&self, values: &mut [u64]) -> u64 {
        interface::read_attribute(self.0, values)
    }

    fn second(&self, values: &mut [u64]) -> Written {
        second::read_attribute(self.0, values)
    }
}

pub struct WriteAttribute(pub Operands);

impl Function for WriteAttribute {
    type Element = u8;
    const MOST: usize = 20;

    fn proved(&self, attribute: &mut [u8]) -> u64 {
        let Operands { permitted, inheritable, effective } = self.0;
        interface::write_attribute(permitted, inheritable, effective, attribute)
    }

    fn second(&self, attribute: &mut [u8]) -> Written {
        let Operands { permitted, inheritable, effective } = self.0;
        second::write_attribute(permitted, inheritable, effective, attribute)
    }
}

pub struct ReadNames<'t>(pub &'t [u8]);

impl Function for ReadNames<'_> {
    type Element = u64;
    const MOST: usize = 3;

    fn proved(&self, values: &mut [u64]) -> u64 {
        interface::read_names(self.0, values)
    }

    fn second(&self, values: &mut [u64]) -> Written {
        second::read_names(self.0, values)
    }
}

/// The sets are permitted, inheritable, effective.
pub struct WriteNames(pub [u64; 3]);

impl Function for WriteNames {
    type Element = u8;
    const MOST: usize = LONGEST_NAMES;

    fn proved(&self, text: &mut [u8]) -> u64 {
        let [permitted, inheritable, effective] = self.0;
        interface::write_names(permitted, inheritable, effective, text)
    }

    fn second(&self, text: &mut [u8]) -> Written {
        let [permitted, inheritable, effective] = self.0;
        second::write_names(permitted, inheritable, effective, text)
    }
}

pub struct CompareStatus<'t> {
    pub status: &'t [u8],
    pub sheet: &'t [u8],
}

impl Function for CompareStatus<'_> {
    type Element = u8;
    const MOST: usize = LONGEST_LIST;

    fn proved(&self, list: &mut [u8]) -> u64 {
        interface::compare_status(self.status, self.sheet, list)
    }

    fn second(&self, list: &mut [u8]) -> Written {
        second::compare_status(self.status, self.sheet, list)
    }
}

pub struct RunSlotPlan<'t>(pub &'t [u8]);

impl Function for RunSlotPlan<'_> {
    type Element = u8;
    const MOST: usize = LONGEST_SLOT_REPORT;

    fn proved(&self, report: &mut [u8]) -> u64 {
        interface::run_slot_plan(self.0, report)
    }

    fn second(&self, report: &mut [u8]) -> Written {
        match second::run_slot_plan(self.0, report) {
            Outcome::Report { length } => Written { code: 0, number: length as u32 },
            Outcome::Malformed { line } => Written { code: 70, number: line },
            Outcome::Invalid => Written { code: 72, number: 0 },
            Outcome::NoRoom => Written { code: 28, number: 0 },
        }
    }
}

/// What is wrong, in a line, and what came back, in lines.
pub struct Fault {
    pub what: String,
    pub more: String,
}

/// Runs both with no room, with an element less than is written, with just enough, with some random room, and with more than enough. Where
/// nothing is written, the most that could be is taken for it.
pub fn see<F: Function>(function: &F, buffers: &mut Buffers<F::Element>, seed: u64) -> Result<Seen<F::Element>, Fault> {
    let no_room = agree(function, buffers, 0)?;
    let roomy = agree(function, buffers, buffers.length())?;
    let written = buffers.proved[..roomy.written()].to_vec();
    let enough = if written.is_empty() { F::MOST } else { written.len() };
    let one_short = agree(function, buffers, enough - 1)?;
    let exact = agree(function, buffers, enough)?;
    let room = scattered(seed) as usize % (2 * enough).min(buffers.length() + 1);
    let some = (room, agree(function, buffers, room)?);
    Ok(Seen { no_room, one_short, exact, some, roomy, written })
}

/// Runs both on what their counterpart has written, with more than enough room, and gives what they write.
pub fn back_again<F: Function>(function: &F, buffers: &mut Buffers<F::Element>) -> Result<Vec<F::Element>, Fault> {
    let answer = agree(function, buffers, buffers.length());
    let answer = answer.map_err(|Fault { what, more }| Fault { what: format!("back again, {what}"), more })?;
    Ok(buffers.proved[..answer.written()].to_vec())
}

// Runs both in a buffer of that length: the whole number has to be the same, and every element in the buffer and after it. The elements past
// what was written have to stay.
fn agree<F: Function>(function: &F, buffers: &mut Buffers<F::Element>, room: usize) -> Result<Answer, Fault> {
    let (proved, second) =
        buffers.run(room, |buffer| function.proved(buffer), |buffer| joined(function.second(buffer)));
    let (answer, other) = (Answer::of_number(proved), Answer::of_number(second));
    let fault = if proved == second { buffers.fault(room, answer.written()) } else { Some("the answers differ") };
    let Some(fault) = fault else { return Ok(answer) };
    let what = format!("{fault}, with room for {room} {}s", F::Element::NAME);
    Err(Fault { what, more: both((answer, &buffers.proved), (other, &buffers.second)) })
}

// The number that the C interface gives for an answer.
fn joined(Written { code, number }: Written) -> u64 {
    u64::from(code) * 4_294_967_296 + u64::from(number)
}

#[cfg(test)]
mod tests {
    use super::*;

    // Twice the same program, the second of which can be told to write something else and to answer something else.
    struct Told {
        content: u8,
        answer: Written,
    }

    impl Function for Told {
        type Element = u8;
        const MOST: usize = 2;

        fn proved(&self, buffer: &mut [u8]) -> u64 {
            let Some(front) = buffer.get_mut(..2) else { return 28 << 32 };
            front.copy_from_slice(&[1, 2]);
            2
        }

        fn second(&self, buffer: &mut [u8]) -> Written {
            let Some(front) = buffer.get_mut(..2) else { return Written { code: 28, number: 0 } };
            front.copy_from_slice(&[1, self.content]);
            self.answer
        }
    }

    fn seen(content: u8, code: u32, number: u32) -> Result<Seen<u8>, Fault> {
        see(&Told { content, answer: Written { code, number } }, &mut Buffers::of_bytes(8), 1)
    }

    #[test]
    fn equal_programs_agree_in_every_room() {
        let Ok(seen) = seen(2, 0, 2) else { panic!("they differ") };
        assert!(seen.is_done(&[1, 2]));
    }

    #[test]
    fn another_element_and_another_number_are_told() {
        let Err(fault) = seen(3, 0, 2) else { panic!("another element passes") };
        assert_eq!(fault.what, "the buffers differ, with room for 8 bytes");
        let Err(fault) = seen(2, 0, 3) else { panic!("another length passes") };
        assert_eq!(fault.what, "the answers differ, with room for 8 bytes");
        assert!(fault.more.starts_with(
            "proved library: Answer { code: 0, number: 2 }\nsecond program: Answer { code: 0, number: 3 }"
        ));
        assert!(seen(2, 1, 2).is_err());
    }

    #[test]
    fn what_is_taken_back_is_given_or_told_so() {
        let told = |content| Told { content, answer: Written { code: 0, number: 2 } };
        assert!(matches!(back_again(&told(2), &mut Buffers::of_bytes(8)), Ok(written) if written == [1, 2]));
        let Err(fault) = back_again(&told(3), &mut Buffers::of_bytes(8)) else { panic!("another element passes") };
        assert_eq!(fault.what, "back again, the buffers differ, with room for 8 bytes");
    }
}
