//! A captured /proc/PID/status laid beside predicted credentials: what differs, as a list.

mod found;
mod list;
mod reader;

use crate::buffer::put_in_front;
use crate::reader::read_sheet;
use crate::refusal::Refusal;
use crate::written::Written;

/// Reads a captured /proc/PID/status, lays it beside the predicted credentials of a sheet and puts the list of what
/// differs at the front of `list`: a line with key, predicted value and found value for each key that differs, in the
/// order of the sheet, and always a last line that says what is not compared. Answers the list's length, or refuses
/// with 70 and the line of the first fault in the status (from 4294967295 on it is given as 4294967295), 70 and 0 (the
/// sheet is malformed), 72 (the predicted credentials are not valid) or 28 (the list is longer than the buffer), in that
/// order. What is found in the status need not be valid. A refusal leaves every byte as it was, and bytes past the list
/// stay.
pub fn compare_status(status: &[u8], sheet: &[u8], list: &mut [u8]) -> Written {
    Written::from_result(compare_into(status, sheet, list))
}

fn compare_into(status: &[u8], sheet: &[u8], list: &mut [u8]) -> Result<usize, Refusal> {
    let found = reader::read(status)?;
    let predicted = read_sheet(sheet).map_err(|_| Refusal::MalformedPrediction)?;
    if !predicted.is_valid() {
        return Err(Refusal::InvalidCredentials);
    }
    let text = list::write(&predicted, &found).expect("a String takes whatever is written into it");
    put_in_front(text.as_bytes(), list).ok_or(Refusal::NoRoom)
}
