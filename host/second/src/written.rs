//! What the readers and writers of sheets, attributes, texts in names and lists of what differs answer.

use crate::refusal::Refusal;

/// How a reading or a writing ends.
#[derive(Clone, Copy, Debug, PartialEq, Eq)]
pub struct Written {
    /// 0 where it is done, else the number of its refusal.
    pub code: u32,
    /// Where it is done, how many places or bytes are written; for refusal 70 the line of the fault in a sheet or in a
    /// captured status, or its place in a text in names (4294967295 stands for any line or place from there on), but 0
    /// where the sheet beside a captured status is malformed; else 0.
    pub number: u32,
}

impl Written {
    /// The answer for so many places or bytes written, or for a refusal.
    pub(crate) fn from_result(result: Result<usize, Refusal>) -> Written {
        let number = match result {
            Ok(length) => u32::try_from(length).expect("what is written has few bytes"),
            Err(Refusal::Malformed { line }) => line,
            Err(Refusal::MalformedAt { place }) => u32::try_from(place).unwrap_or(u32::MAX),
            Err(Refusal::MalformedStatus { line }) => u32::try_from(line).unwrap_or(u32::MAX),
            Err(_) => 0,
        };
        let code = match result {
            Ok(_) => 0,
            Err(refusal) => refusal.code(),
        };
        Written { code, number }
    }
}

#[cfg(test)]
mod tests {
    use super::*;

    #[test]
    fn a_place_or_line_too_large_for_the_number_is_the_largest_number() {
        for (place, number) in [
            (0, 0),
            (748, 748),
            (u32::MAX as usize - 1, 4_294_967_294),
            (u32::MAX as usize, 4_294_967_295),
            (usize::MAX, 4_294_967_295),
        ] {
            let written = Written::from_result(Err(Refusal::MalformedAt { place }));
            assert_eq!(written, Written { code: 70, number }, "{place}");
            let written = Written::from_result(Err(Refusal::MalformedStatus { line: place }));
            assert_eq!(written, Written { code: 70, number }, "{place}");
        }
    }
}
