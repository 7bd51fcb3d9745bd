//! Capability sets in names: the text form of cap_text_formats(7), from text to three numbers and back.

mod reader;
mod table;
mod three_sets;
mod writer;

use crate::buffer::put_in_front;
use crate::decode::capability_set;
use crate::refusal::Refusal;
use crate::written::Written;
use three_sets::ThreeSets;

/// Reads a text in names into the first three places of `values`: permitted, inheritable, effective. Answers 3, or
/// refuses with 70 and the place of the fault, or with 28 (fewer than three places), in that order. The place is the
/// length of the longest beginning of the text that some bytes complete to a well-formed one; from 4294967295 on it is
/// given as 4294967295. A refusal leaves every place of `values` as it was, and places past the third stay.
pub fn read_names(text: &[u8], values: &mut [u64]) -> Written {
    Written::from_result(read_into(text, values))
}

/// Writes the three sets in names at the front of `text`: one clause for each capability that is in any of them.
/// Answers the length of what is written, or refuses with 22 (a capability above the last one in any of the sets) or 28
/// (the written text is longer than the buffer), in that order. A refusal leaves every byte as it was, and bytes past
/// those written stay.
pub fn write_names(permitted: u64, inheritable: u64, effective: u64, text: &mut [u8]) -> Written {
    Written::from_result(write_into(permitted, inheritable, effective, text))
}

fn read_into(text: &[u8], values: &mut [u64]) -> Result<usize, Refusal> {
    let sets = reader::read(text)?;
    put_in_front(&[sets.permitted, sets.inheritable, sets.effective], values).ok_or(Refusal::NoRoom)
}

fn write_into(permitted: u64, inheritable: u64, effective: u64, text: &mut [u8]) -> Result<usize, Refusal> {
    let sets = ThreeSets {
        permitted: capability_set(permitted)?,
        inheritable: capability_set(inheritable)?,
        effective: capability_set(effective)?,
    };
    put_in_front(writer::write(&sets).as_bytes(), text).ok_or(Refusal::NoRoom)
}
