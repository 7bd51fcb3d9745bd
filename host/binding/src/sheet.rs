//! Credential sheets: read and written by themselves.

use core::fmt;

use crate::credentials::{Credentials, SHEET_VALUES};
use crate::interface;
use crate::number::{apart, no_such_code, DONE, INVALID, MALFORMED, NO_ROOM};

/// The most bytes that a sheet has: a buffer of this length is never too short. A longer text is refused, and its first `LONGEST_SHEET + 1` bytes
/// decide the line.
pub const LONGEST_SHEET: usize = 284;

/// What a text comes to that is read as a sheet.
#[derive(Clone, Copy, Debug, PartialEq, Eq)]
#[must_use]
pub enum SheetReading {
    /// The text is the sheet of these credentials, which are valid.
    Sheet(Credentials),
    /// The text is no sheet.
    Malformed {
        /// The first line that is at fault: one more than the complete correct lines before it.
        line: u32,
    },
    /// The text is a sheet of credentials that are not valid.
    Invalid,
}

impl SheetReading {
    /// The code of this answer: 0 for a sheet, 70 for a malformed text, 72 for credentials that are not valid.
    ///
    /// ```
    /// assert_eq!(urrezkalu::SheetReading::Malformed { line: 16 }.code(), 70);
    /// ```
    #[must_use]
    pub const fn code(self) -> u32 {
        match self {
            SheetReading::Sheet(_) => DONE,
            SheetReading::Malformed { .. } => MALFORMED,
            SheetReading::Invalid => INVALID,
        }
    }
}

/// In words, as after a file's name in a message.
///
/// ```
/// assert_eq!(urrezkalu::SheetReading::Malformed { line: 16 }.to_string(), "malformed at line 16");
/// ```
impl fmt::Display for SheetReading {
    fn fmt(&self, f: &mut fmt::Formatter<'_>) -> fmt::Result {
        match self {
            SheetReading::Sheet(_) => write!(f, "a sheet"),
            SheetReading::Malformed { line } => write!(f, "malformed at line {line}"),
            SheetReading::Invalid => write!(f, "the credentials are not valid"),
        }
    }
}

/// Reads `text` as a sheet. Text past the sheet is a fault, at line 16; what is malformed and not valid is malformed.
///
/// ```
/// use urrezkalu::{read_sheet, SheetReading};
///
/// let sheet = "ruid=1000\neuid=1000\nsuid=1000\nfsuid=1000\n\
///     rgid=1000\negid=107\nsgid=107\nfsgid=107\n\
///     permitted=0000000000002000\ninheritable=0000000000002000\neffective=0000000000002000\n\
///     bounding=000001ffffffffff\nambient=0000000000000000\nsecurebits=00\nnnp=0\n";
/// let SheetReading::Sheet(credentials) = read_sheet(sheet.as_bytes()) else { panic!("the sheet is refused") };
/// assert_eq!(credentials.fsuid, 1000);
/// assert_eq!(credentials.egid, 107);
/// assert_eq!(credentials.effective, 1 << 13);
/// assert!(!credentials.nnp);
///
/// // What is effective has to be permitted.
/// let invalid = sheet.replace("permitted=0000000000002000", "permitted=0000000000000000");
/// assert_eq!(read_sheet(invalid.as_bytes()), SheetReading::Invalid);
///
/// let longer = [sheet, "\n"].concat();
/// assert_eq!(read_sheet(longer.as_bytes()), SheetReading::Malformed { line: 16 });
/// ```
pub fn read_sheet(text: &[u8]) -> SheetReading {
    let mut values = [0; SHEET_VALUES];
    reading(interface::read_sheet(text, &mut values), values)
}

fn reading(number: u64, values: [u64; SHEET_VALUES]) -> SheetReading {
    match apart(number) {
        (DONE, _) => SheetReading::Sheet(Credentials::from_values(values)),
        (MALFORMED, line) => SheetReading::Malformed { line },
        (INVALID, _) => SheetReading::Invalid,
        (code, _) => no_such_code(code),
    }
}

/// What comes of writing a sheet.
#[derive(Clone, Copy, Debug, PartialEq, Eq)]
#[must_use]
pub enum SheetWriting {
    /// The sheet is the first `length` bytes of the buffer; the bytes past it are as they were.
    Written {
        /// How many bytes the sheet has.
        length: usize,
    },
    /// The credentials are not valid. The buffer is as it was.
    Invalid,
    /// The sheet is longer than the buffer, which is as it was.
    NoRoom,
}

impl SheetWriting {
    /// The code of this answer: 0 for a sheet, 72 for credentials that are not valid, 28 for a buffer that is too short.
    ///
    /// ```
    /// assert_eq!(urrezkalu::SheetWriting::NoRoom.code(), 28);
    /// ```
    #[must_use]
    pub const fn code(self) -> u32 {
        match self {
            SheetWriting::Written { .. } => DONE,
            SheetWriting::Invalid => INVALID,
            SheetWriting::NoRoom => NO_ROOM,
        }
    }
}

/// In words, as after a file's name in a message.
///
/// ```
/// assert_eq!(urrezkalu::SheetWriting::NoRoom.to_string(), "the sheet does not fit the buffer");
/// ```
impl fmt::Display for SheetWriting {
    fn fmt(&self, f: &mut fmt::Formatter<'_>) -> fmt::Result {
        match self {
            SheetWriting::Written { length } => write!(f, "a sheet of {length} bytes"),
            SheetWriting::Invalid => write!(f, "the credentials are not valid"),
            SheetWriting::NoRoom => write!(f, "the sheet does not fit the buffer"),
        }
    }
}

/// Writes the sheet of `credentials` at the front of `sheet`.
///
/// A refusal leaves every byte of `sheet` as it was, and the bytes past a sheet stay. What would be refused for both reasons is refused as invalid.
///
/// ```
/// use urrezkalu::{write_sheet, Credentials, SheetWriting, LONGEST_SHEET};
///
/// let net_raw = 1 << 13;
/// let mut printer = Credentials {
///     ruid: 1000,
///     euid: 1000,
///     suid: 1000,
///     fsuid: 1000,
///     rgid: 1000,
///     egid: 107,
///     sgid: 107,
///     fsgid: 107,
///     permitted: net_raw,
///     inheritable: 0,
///     effective: net_raw,
///     bounding: 0x1ff_ffff_ffff,
///     ambient: 0,
///     securebits: 0,
///     nnp: true,
/// };
/// let mut sheet = [0; LONGEST_SHEET];
/// assert_eq!(write_sheet(&printer, &mut sheet), SheetWriting::Written { length: 233 });
/// assert_eq!(
///     std::str::from_utf8(&sheet[..233]).unwrap(),
///     "ruid=1000\neuid=1000\nsuid=1000\nfsuid=1000\n\
///     rgid=1000\negid=107\nsgid=107\nfsgid=107\n\
///     permitted=0000000000002000\ninheritable=0000000000000000\neffective=0000000000002000\n\
///     bounding=000001ffffffffff\nambient=0000000000000000\nsecurebits=00\nnnp=1\n"
/// );
///
/// // What is ambient has to be inheritable too.
/// printer.ambient = net_raw;
/// assert_eq!(write_sheet(&printer, &mut sheet), SheetWriting::Invalid);
/// ```
pub fn write_sheet(credentials: &Credentials, sheet: &mut [u8]) -> SheetWriting {
    writing(interface::write_sheet(&credentials.values(), sheet))
}

fn writing(number: u64) -> SheetWriting {
    match apart(number) {
        (DONE, length) => SheetWriting::Written { length: length as usize },
        (INVALID, _) => SheetWriting::Invalid,
        (NO_ROOM, _) => SheetWriting::NoRoom,
        (code, _) => no_such_code(code),
    }
}

#[cfg(test)]
mod tests {
    use super::{reading, writing, Credentials, SheetReading, SheetWriting, LONGEST_SHEET, SHEET_VALUES};

    const VALUES: [u64; SHEET_VALUES] = [2, 3, 4, 5, 6, 7, 8, 9, 10, 11, 12, 13, 14, 15, 1];

    // The paper's numbers, multiplied out: code times 4294967296 plus line or length.
    #[test]
    fn every_code_of_a_reading_is_taken_apart() {
        assert_eq!(reading(15, VALUES), SheetReading::Sheet(Credentials::from_values(VALUES)));
        assert_eq!(reading(300_647_710_721, VALUES), SheetReading::Malformed { line: 1 });
        assert_eq!(reading(300_647_710_736, VALUES), SheetReading::Malformed { line: 16 });
        assert_eq!(reading(304_942_678_015, VALUES), SheetReading::Malformed { line: 4_294_967_295 });
        assert_eq!(reading(309_237_645_312, VALUES), SheetReading::Invalid);
    }

    #[test]
    fn every_code_of_a_writing_is_taken_apart() {
        assert_eq!(writing(212), SheetWriting::Written { length: 212 });
        assert_eq!(writing(284), SheetWriting::Written { length: LONGEST_SHEET });
        assert_eq!(writing(309_237_645_312), SheetWriting::Invalid);
        assert_eq!(writing(120_259_084_288), SheetWriting::NoRoom);
    }

    // Fifteen values are lent, so that there always is room.
    #[test]
    #[should_panic(expected = "no code 28")]
    fn a_reading_has_room() {
        let _ = reading(28 << 32, VALUES);
    }

    #[test]
    #[should_panic(expected = "no code 70")]
    fn a_writing_has_no_line() {
        let _ = writing(70 << 32 | 1);
    }

    #[test]
    fn codes_are_the_papers() {
        assert_eq!(SheetReading::Sheet(Credentials::from_values(VALUES)).code(), 0);
        assert_eq!(SheetReading::Malformed { line: 1 }.code(), 70);
        assert_eq!(SheetReading::Invalid.code(), 72);
        assert_eq!(SheetWriting::Written { length: 212 }.code(), 0);
        assert_eq!(SheetWriting::Invalid.code(), 72);
        assert_eq!(SheetWriting::NoRoom.code(), 28);
    }
}
