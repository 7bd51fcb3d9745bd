//! File attributes: the bytes of security.capability, read and written.

use core::fmt;

use crate::interface;
use crate::number::{apart, no_such_code, DONE, NO_ROOM, OUT_OF_RANGE, UNREADABLE};

/// How many values are read of an attribute: whether one is attached, the two sets, the effective bit.
pub const FILE_VALUES: usize = 4;

/// The bytes of every attribute that is written.
pub const ATTRIBUTE_LENGTH: usize = 20;

/// What an attribute gives its file. In a set, bit n is capability n, 0 to 40.
#[derive(Clone, Copy, Debug, PartialEq, Eq)]
pub struct FileCapabilities {
    /// The file's permitted set.
    pub permitted: u64,
    /// The file's inheritable set.
    pub inheritable: u64,
    /// The file's effective bit.
    pub effective: bool,
}

/// What bytes come to that are read as an attribute.
#[derive(Clone, Copy, Debug, PartialEq, Eq)]
#[must_use]
pub enum AttributeReading {
    /// No bytes: the file has no attribute, which is not the same as one of empty sets.
    NoneAttached,
    /// The bytes are an attribute, which has these sets and this bit.
    File(FileCapabilities),
    /// The bytes are no attribute.
    Unreadable,
}

impl AttributeReading {
    /// The code of this answer: 60 for unreadable bytes, else 0.
    ///
    /// ```
    /// assert_eq!(urrezkalu::AttributeReading::Unreadable.code(), 60);
    /// ```
    #[must_use]
    pub const fn code(self) -> u32 {
        match self {
            AttributeReading::NoneAttached | AttributeReading::File(_) => DONE,
            AttributeReading::Unreadable => UNREADABLE,
        }
    }
}

/// In words, as after a file's name in a message.
///
/// ```
/// assert_eq!(urrezkalu::AttributeReading::Unreadable.to_string(), "the attribute is unreadable");
/// ```
impl fmt::Display for AttributeReading {
    fn fmt(&self, f: &mut fmt::Formatter<'_>) -> fmt::Result {
        match self {
            AttributeReading::NoneAttached => write!(f, "no attribute"),
            AttributeReading::File(_) => write!(f, "an attribute"),
            AttributeReading::Unreadable => write!(f, "the attribute is unreadable"),
        }
    }
}

/// Reads `attribute`, of version 1 or 2.
///
/// ```
/// use urrezkalu::{read_attribute, AttributeReading, FileCapabilities};
///
/// // NET_RAW permitted, the bit on.
/// let net_raw = [1, 0, 0, 2, 0, 0x20, 0, 0, 0, 0, 0, 0, 0, 0, 0, 0, 0, 0, 0, 0];
/// let file = FileCapabilities { permitted: 1 << 13, inheritable: 0, effective: true };
/// assert_eq!(read_attribute(&net_raw), AttributeReading::File(file));
///
/// assert_eq!(read_attribute(&[]), AttributeReading::NoneAttached);
/// assert_eq!(read_attribute(&net_raw[..12]), AttributeReading::Unreadable);
/// ```
pub fn read_attribute(attribute: &[u8]) -> AttributeReading {
    let mut values = [0; FILE_VALUES];
    reading(interface::read_attribute(attribute, &mut values), values)
}

fn reading(number: u64, values: [u64; FILE_VALUES]) -> AttributeReading {
    let [attached, permitted, inheritable, effective] = values;
    match apart(number) {
        (DONE, _) if attached == 0 => AttributeReading::NoneAttached,
        (DONE, _) => AttributeReading::File(FileCapabilities { permitted, inheritable, effective: effective != 0 }),
        (UNREADABLE, _) => AttributeReading::Unreadable,
        (code, _) => no_such_code(code),
    }
}

/// What comes of writing an attribute.
#[derive(Clone, Copy, Debug, PartialEq, Eq)]
#[must_use]
pub enum AttributeWriting {
    /// The attribute is the first `length` bytes of the buffer; the bytes past it are as they were.
    Written {
        /// How many bytes the attribute has: [`ATTRIBUTE_LENGTH`].
        length: usize,
    },
    /// A set has a bit above 40. The buffer is as it was.
    OutOfRange,
    /// The buffer has fewer than [`ATTRIBUTE_LENGTH`] bytes, and is as it was.
    NoRoom,
}

impl AttributeWriting {
    /// The code of this answer: 0 for an attribute, 22 for a set with a bit above 40, 28 for a buffer that is too short.
    ///
    /// ```
    /// assert_eq!(urrezkalu::AttributeWriting::OutOfRange.code(), 22);
    /// ```
    #[must_use]
    pub const fn code(self) -> u32 {
        match self {
            AttributeWriting::Written { .. } => DONE,
            AttributeWriting::OutOfRange => OUT_OF_RANGE,
            AttributeWriting::NoRoom => NO_ROOM,
        }
    }
}

/// In words, as after a file's name in a message.
///
/// ```
/// assert_eq!(urrezkalu::AttributeWriting::OutOfRange.to_string(), "a set has a bit above 40");
/// ```
impl fmt::Display for AttributeWriting {
    fn fmt(&self, f: &mut fmt::Formatter<'_>) -> fmt::Result {
        match self {
            AttributeWriting::Written { length } => write!(f, "an attribute of {length} bytes"),
            AttributeWriting::OutOfRange => write!(f, "a set has a bit above 40"),
            AttributeWriting::NoRoom => write!(f, "the attribute does not fit the buffer"),
        }
    }
}

/// Writes the attribute of `file`, which is of version 2, at the front of `attribute`.
///
/// A refusal leaves every byte of `attribute` as it was, and the bytes past an attribute stay. What would be refused for both reasons is refused
/// as out of range. That no attribute is attached has no written form.
///
/// ```
/// use urrezkalu::{write_attribute, AttributeWriting, FileCapabilities, ATTRIBUTE_LENGTH};
///
/// let net_raw = FileCapabilities { permitted: 1 << 13, inheritable: 0, effective: true };
/// let mut attribute = [0; ATTRIBUTE_LENGTH];
/// assert_eq!(write_attribute(net_raw, &mut attribute), AttributeWriting::Written { length: 20 });
/// assert_eq!(attribute, [1, 0, 0, 2, 0, 0x20, 0, 0, 0, 0, 0, 0, 0, 0, 0, 0, 0, 0, 0, 0]);
///
/// let above = FileCapabilities { permitted: 1 << 41, ..net_raw };
/// assert_eq!(write_attribute(above, &mut attribute), AttributeWriting::OutOfRange);
/// assert_eq!(write_attribute(net_raw, &mut attribute[..19]), AttributeWriting::NoRoom);
/// ```
pub fn write_attribute(file: FileCapabilities, attribute: &mut [u8]) -> AttributeWriting {
    let effective = u64::from(file.effective);
    writing(interface::write_attribute(file.permitted, file.inheritable, effective, attribute))
}

fn writing(number: u64) -> AttributeWriting {
    match apart(number) {
        (DONE, length) => AttributeWriting::Written { length: length as usize },
        (OUT_OF_RANGE, _) => AttributeWriting::OutOfRange,
        (NO_ROOM, _) => AttributeWriting::NoRoom,
        (code, _) => no_such_code(code),
    }
}

#[cfg(test)]
mod tests {
    use super::{reading, writing, AttributeReading, AttributeWriting, FileCapabilities, ATTRIBUTE_LENGTH};

    const FILE: FileCapabilities = FileCapabilities { permitted: 5, inheritable: 6, effective: true };

    // The paper's numbers, multiplied out: code times 4294967296 plus the length.
    #[test]
    fn every_code_of_a_reading_is_taken_apart() {
        assert_eq!(reading(4, [0, 0, 0, 0]), AttributeReading::NoneAttached);
        assert_eq!(reading(4, [1, 5, 6, 1]), AttributeReading::File(FILE));
        let off = FileCapabilities { effective: false, ..FILE };
        assert_eq!(reading(4, [1, 5, 6, 0]), AttributeReading::File(off));
        assert_eq!(reading(257_698_037_760, [0; 4]), AttributeReading::Unreadable);
    }

    #[test]
    fn empty_sets_are_attached() {
        let empty = FileCapabilities { permitted: 0, inheritable: 0, effective: false };
        assert_eq!(reading(4, [1, 0, 0, 0]), AttributeReading::File(empty));
    }

    #[test]
    fn every_code_of_a_writing_is_taken_apart() {
        assert_eq!(writing(20), AttributeWriting::Written { length: ATTRIBUTE_LENGTH });
        assert_eq!(writing(94_489_280_512), AttributeWriting::OutOfRange);
        assert_eq!(writing(120_259_084_288), AttributeWriting::NoRoom);
    }

    // Four values are lent, so that there always is room.
    #[test]
    #[should_panic(expected = "no code 28")]
    fn a_reading_has_room() {
        let _ = reading(28 << 32, [0; 4]);
    }

    #[test]
    #[should_panic(expected = "no code 60")]
    fn a_writing_reads_nothing() {
        let _ = writing(60 << 32);
    }

    #[test]
    fn codes_are_the_papers() {
        assert_eq!(AttributeReading::NoneAttached.code(), 0);
        assert_eq!(AttributeReading::File(FILE).code(), 0);
        assert_eq!(AttributeReading::Unreadable.code(), 60);
        assert_eq!(AttributeWriting::Written { length: 20 }.code(), 0);
        assert_eq!(AttributeWriting::OutOfRange.code(), 22);
        assert_eq!(AttributeWriting::NoRoom.code(), 28);
    }
}
