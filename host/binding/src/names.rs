//! Capability sets in names: texts in the form of cap_text_formats(7), read and written.

use core::fmt;

use crate::interface;
use crate::number::{apart, no_such_code, DONE, MALFORMED, NO_ROOM, OUT_OF_RANGE};

/// How many values are read of a text in names: the three sets.
pub const NAMED_VALUES: usize = 3;

/// The most bytes that sets have which are written in names: a buffer of this length is never too short. A text that is read may be longer; it has no
/// greatest length.
pub const LONGEST_NAMES: usize = 748;

/// The sets that a text in names stands for. In a set, bit n is capability n, 0 to 40.
#[derive(Clone, Copy, Debug, PartialEq, Eq)]
pub struct NamedSets {
    /// The permitted set: flag `p`.
    pub permitted: u64,
    /// The inheritable set: flag `i`.
    pub inheritable: u64,
    /// The effective set: flag `e`.
    pub effective: u64,
}

/// What a text comes to that is read as one in names.
#[derive(Clone, Copy, Debug, PartialEq, Eq)]
#[must_use]
pub enum NamesReading {
    /// The text stands for these sets.
    Means(NamedSets),
    /// The text is none in names.
    Malformed {
        /// The length of the text's longest beginning that some bytes complete to a text in names. The byte at this place, counted from 0, cannot
        /// stand there; where the place is the text's length, the text only ends too early. 4294967295 stands for that place or any greater one.
        place: u32,
    },
}

impl NamesReading {
    /// The code of this answer: 0 for sets, 70 for a malformed text.
    ///
    /// ```
    /// assert_eq!(urrezkalu::NamesReading::Malformed { place: 0 }.code(), 70);
    /// ```
    #[must_use]
    pub const fn code(self) -> u32 {
        match self {
            NamesReading::Means(_) => DONE,
            NamesReading::Malformed { .. } => MALFORMED,
        }
    }
}

/// In words, as after a file's name in a message.
///
/// ```
/// use urrezkalu::NamesReading;
///
/// assert_eq!(NamesReading::Malformed { place: 11 }.to_string(), "malformed at place 11");
/// assert_eq!(NamesReading::Malformed { place: u32::MAX }.to_string(), "malformed at place 4294967295 or a greater one");
/// ```
impl fmt::Display for NamesReading {
    fn fmt(&self, f: &mut fmt::Formatter<'_>) -> fmt::Result {
        match self {
            NamesReading::Means(_) => write!(f, "three sets"),
            NamesReading::Malformed { place: u32::MAX } => write!(f, "malformed at place 4294967295 or a greater one"),
            NamesReading::Malformed { place } => write!(f, "malformed at place {place}"),
        }
    }
}

/// Reads `text`, which is clauses with spaces, tabs or newlines between them, any number of these, which can stand at both ends too.
///
/// A clause is names joined by commas, or `all`, or nothing, which both mean all 41 capabilities; and then one operator or more, each with its flags:
///
/// - `=` takes the capabilities out of all three sets and then gives them to the sets of its flags;
/// - `+` gives them to the sets of its flags;
/// - `-` takes them out of the sets of its flags.
///
/// The flags are `e`, `i` and `p`, for effective, inheritable and permitted, in any order, also repeated; only `=` can have none. A clause without
/// names begins with `=`. The sets are empty at first, and everything is done from left to right. The names are those of linux/capability.h. Names and
/// `all` are read in either case, each letter by itself; flags are lower case. Whether the sets are those of valid credentials is not asked.
///
/// ```
/// use urrezkalu::{read_names, NamedSets, NamesReading};
///
/// let net_raw = NamedSets { permitted: 1 << 13, inheritable: 0, effective: 1 << 13 };
/// assert_eq!(read_names(b"cap_net_raw+ep"), NamesReading::Means(net_raw));
///
/// // All 41 are permitted, and CAP_CHOWN and CAP_KILL are inheritable alone.
/// let mixed = NamedSets { permitted: 0x1ff_ffff_ffde, inheritable: 0x21, effective: 0 };
/// assert_eq!(read_names(b"=p\nCAP_CHOWN,Cap_Kill=i\n"), NamesReading::Means(mixed));
///
/// // Text without a clause is three empty sets.
/// let empty = NamedSets { permitted: 0, inheritable: 0, effective: 0 };
/// assert_eq!(read_names(b""), NamesReading::Means(empty));
/// assert_eq!(read_names(b" \t\n"), NamesReading::Means(empty));
///
/// // No name goes on after `cap_net_bind_serv` with `e`, and none can do without an operator.
/// assert_eq!(read_names(b"cap_net_bind_server=e"), NamesReading::Malformed { place: 17 });
/// assert_eq!(read_names(b"cap_net_raw"), NamesReading::Malformed { place: 11 });
/// assert_eq!(read_names(b"+e"), NamesReading::Malformed { place: 0 });
/// ```
pub fn read_names(text: &[u8]) -> NamesReading {
    let mut values = [0; NAMED_VALUES];
    reading(interface::read_names(text, &mut values), values)
}

fn reading(number: u64, values: [u64; NAMED_VALUES]) -> NamesReading {
    let [permitted, inheritable, effective] = values;
    match apart(number) {
        (DONE, _) => NamesReading::Means(NamedSets { permitted, inheritable, effective }),
        (MALFORMED, place) => NamesReading::Malformed { place },
        (code, _) => no_such_code(code),
    }
}

/// What comes of writing sets in names.
#[derive(Clone, Copy, Debug, PartialEq, Eq)]
#[must_use]
pub enum NamesWriting {
    /// The text is the first `length` bytes of the buffer; the bytes past it are as they were.
    Written {
        /// How many bytes the text has: none for three empty sets.
        length: usize,
    },
    /// A set has a bit above 40. The buffer is as it was.
    OutOfRange,
    /// The text is longer than the buffer, which is as it was.
    NoRoom,
}

impl NamesWriting {
    /// The code of this answer: 0 for a text, 22 for a set with a bit above 40, 28 for a buffer that is too short.
    ///
    /// ```
    /// assert_eq!(urrezkalu::NamesWriting::NoRoom.code(), 28);
    /// ```
    #[must_use]
    pub const fn code(self) -> u32 {
        match self {
            NamesWriting::Written { .. } => DONE,
            NamesWriting::OutOfRange => OUT_OF_RANGE,
            NamesWriting::NoRoom => NO_ROOM,
        }
    }
}

/// In words, as after a file's name in a message.
///
/// ```
/// assert_eq!(urrezkalu::NamesWriting::NoRoom.to_string(), "the text does not fit the buffer");
/// ```
impl fmt::Display for NamesWriting {
    fn fmt(&self, f: &mut fmt::Formatter<'_>) -> fmt::Result {
        match self {
            NamesWriting::Written { length } => write!(f, "a text of {length} bytes"),
            NamesWriting::OutOfRange => write!(f, "a set has a bit above 40"),
            NamesWriting::NoRoom => write!(f, "the text does not fit the buffer"),
        }
    }
}

/// Writes `sets` in names at the front of `text`: one clause for each capability that is in any of them, by number, with its name in lower case, `=`,
/// and its flags in the order e, i, p; one space between clauses, and no newline after the last. Three empty sets are the empty text.
///
/// A refusal leaves every byte of `text` as it was, and the bytes past what is written stay. What would be refused for both reasons is refused as out
/// of range. What is written is read as `sets`.
///
/// ```
/// use urrezkalu::{read_names, write_names, NamedSets, NamesReading, NamesWriting, LONGEST_NAMES};
///
/// let sets = NamedSets { permitted: 1 << 13, inheritable: 1 << 5, effective: 1 << 13 | 1 << 5 };
/// let mut text = [0; LONGEST_NAMES];
/// assert_eq!(write_names(sets, &mut text), NamesWriting::Written { length: 26 });
/// assert_eq!(&text[..26], b"cap_kill=ei cap_net_raw=ep");
/// assert_eq!(read_names(&text[..26]), NamesReading::Means(sets));
///
/// let above = NamedSets { inheritable: 1 << 41, ..sets };
/// assert_eq!(write_names(above, &mut text), NamesWriting::OutOfRange);
/// assert_eq!(write_names(sets, &mut text[..25]), NamesWriting::NoRoom);
///
/// // Three empty sets need no room.
/// let empty = NamedSets { permitted: 0, inheritable: 0, effective: 0 };
/// assert_eq!(write_names(empty, &mut []), NamesWriting::Written { length: 0 });
/// ```
pub fn write_names(sets: NamedSets, text: &mut [u8]) -> NamesWriting {
    writing(interface::write_names(sets.permitted, sets.inheritable, sets.effective, text))
}

fn writing(number: u64) -> NamesWriting {
    match apart(number) {
        (DONE, length) => NamesWriting::Written { length: length as usize },
        (OUT_OF_RANGE, _) => NamesWriting::OutOfRange,
        (NO_ROOM, _) => NamesWriting::NoRoom,
        (code, _) => no_such_code(code),
    }
}

#[cfg(test)]
mod tests {
    use super::{reading, writing, NamedSets, NamesReading, NamesWriting, LONGEST_NAMES};

    // All different, so that no two places can be exchanged unseen.
    const SETS: NamedSets = NamedSets { permitted: 5, inheritable: 6, effective: 7 };

    // The paper's numbers, multiplied out: code times 4294967296 plus place or length.
    #[test]
    fn every_code_of_a_reading_is_taken_apart() {
        assert_eq!(reading(3, [5, 6, 7]), NamesReading::Means(SETS));
        assert_eq!(reading(300_647_710_720, [0; 3]), NamesReading::Malformed { place: 0 });
        assert_eq!(reading(300_647_710_731, [0; 3]), NamesReading::Malformed { place: 11 });
        assert_eq!(reading(304_942_678_015, [0; 3]), NamesReading::Malformed { place: 4_294_967_295 });
    }

    #[test]
    fn every_code_of_a_writing_is_taken_apart() {
        assert_eq!(writing(0), NamesWriting::Written { length: 0 });
        assert_eq!(writing(748), NamesWriting::Written { length: LONGEST_NAMES });
        assert_eq!(writing(94_489_280_512), NamesWriting::OutOfRange);
        assert_eq!(writing(120_259_084_288), NamesWriting::NoRoom);
    }

    // Three values are lent, so that there always is room.
    #[test]
    #[should_panic(expected = "no code 28")]
    fn a_reading_has_room() {
        let _ = reading(28 << 32, [0; 3]);
    }

    #[test]
    #[should_panic(expected = "no code 70")]
    fn a_writing_has_no_place() {
        let _ = writing(70 << 32 | 1);
    }

    #[test]
    fn codes_are_the_papers() {
        assert_eq!(NamesReading::Means(SETS).code(), 0);
        assert_eq!(NamesReading::Malformed { place: 0 }.code(), 70);
        assert_eq!(NamesWriting::Written { length: 0 }.code(), 0);
        assert_eq!(NamesWriting::OutOfRange.code(), 22);
        assert_eq!(NamesWriting::NoRoom.code(), 28);
    }
}
