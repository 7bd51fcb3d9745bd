//! A list of what differs, key by key.

use core::fmt;

/// A key that is compared.
#[derive(Clone, Copy, Debug, PartialEq, Eq, PartialOrd, Ord, Hash)]
pub enum Key {
    /// The real user ID.
    Ruid,
    /// The effective user ID.
    Euid,
    /// The saved user ID.
    Suid,
    /// The filesystem user ID.
    Fsuid,
    /// The permitted set.
    Permitted,
    /// The inheritable set.
    Inheritable,
    /// The effective set.
    Effective,
    /// The bounding set.
    Bounding,
    /// The ambient set.
    Ambient,
    /// No-new-privs, 0 or 1.
    Nnp,
}

impl Key {
    /// All of them, in the order of the sheet and of a list.
    pub const ALL: [Key; 10] = [
        Key::Ruid,
        Key::Euid,
        Key::Suid,
        Key::Fsuid,
        Key::Permitted,
        Key::Inheritable,
        Key::Effective,
        Key::Bounding,
        Key::Ambient,
        Key::Nnp,
    ];

    /// The key as the sheet has it.
    ///
    /// ```
    /// assert_eq!(urrezkalu::Key::Fsuid.name(), "fsuid");
    /// ```
    #[must_use]
    pub const fn name(self) -> &'static str {
        match self {
            Key::Ruid => "ruid",
            Key::Euid => "euid",
            Key::Suid => "suid",
            Key::Fsuid => "fsuid",
            Key::Permitted => "permitted",
            Key::Inheritable => "inheritable",
            Key::Effective => "effective",
            Key::Bounding => "bounding",
            Key::Ambient => "ambient",
            Key::Nnp => "nnp",
        }
    }

    /// Whether its values are user IDs.
    ///
    /// ```
    /// assert!(urrezkalu::Key::Fsuid.is_id() && !urrezkalu::Key::Ambient.is_id());
    /// ```
    #[must_use]
    pub const fn is_id(self) -> bool {
        matches!(self, Key::Ruid | Key::Euid | Key::Suid | Key::Fsuid)
    }

    /// Whether its values are capability sets, in which bit n is capability n.
    ///
    /// ```
    /// assert!(urrezkalu::Key::Ambient.is_set() && !urrezkalu::Key::Nnp.is_set());
    /// ```
    #[must_use]
    pub const fn is_set(self) -> bool {
        matches!(self, Key::Permitted | Key::Inheritable | Key::Effective | Key::Bounding | Key::Ambient)
    }

    /// The value that this key has by these digits, if they are such as the sheet has.
    fn value(self, digits: &[u8]) -> Option<u64> {
        let has_form = match digits {
            _ if self.is_set() => {
                digits.len() == 16 && digits.iter().all(|byte| matches!(byte, b'0'..=b'9' | b'a'..=b'f'))
            }
            [b'0'] => true,
            [b'1'..=b'9', rest @ ..] => rest.iter().all(u8::is_ascii_digit),
            _ => false,
        };
        let (radix, last) = match self {
            _ if self.is_set() => (16, u64::MAX),
            Key::Nnp => (10, 1),
            _ => (10, u32::MAX.into()),
        };
        let digits = core::str::from_utf8(digits).ok().filter(|_| has_form)?;
        u64::from_str_radix(digits, radix).ok().filter(|value| *value <= last)
    }
}

/// As the sheet has it.
impl fmt::Display for Key {
    fn fmt(&self, f: &mut fmt::Formatter<'_>) -> fmt::Result {
        f.write_str(self.name())
    }
}

/// A key whose values differ.
#[derive(Clone, Copy, Debug, PartialEq, Eq)]
pub struct Difference {
    /// The key.
    pub key: Key,
    /// What the predicted sheet has.
    pub predicted: u64,
    /// What the status file has. It need not be valid.
    pub found: u64,
}

/// In words, as after a file's name in a message, with sets in hex.
///
/// ```
/// use urrezkalu::{Difference, Key};
///
/// assert_eq!(Difference { key: Key::Euid, predicted: 1002, found: 0 }.to_string(), "euid is 0, predicted 1002");
/// assert_eq!(
///     Difference { key: Key::Ambient, predicted: 0, found: 1 << 13 }.to_string(),
///     "ambient is 0000000000002000, predicted 0000000000000000"
/// );
/// ```
impl fmt::Display for Difference {
    fn fmt(&self, f: &mut fmt::Formatter<'_>) -> fmt::Result {
        let Difference { key, predicted, found } = self;
        if key.is_set() {
            write!(f, "{key} is {found:016x}, predicted {predicted:016x}")
        } else {
            write!(f, "{key} is {found}, predicted {predicted}")
        }
    }
}

/// The differences in a list, in the order of the sheet.
#[derive(Clone, Debug)]
pub struct Differences<'a> {
    rest: &'a [u8],
    /// The keys that can still come.
    due: &'static [Key],
}

/// The differences in `list`, which a comparison has written. Of any other text they are those at its front, as far as they have the form of
/// differences.
///
/// ```
/// use urrezkalu::{differences, Difference, Key};
///
/// let list = b"permitted 0000000000000000 0000000000020000\nnnp 1 0\nnot compared: securebits, group IDs\n";
/// let mut differences = differences(list);
/// assert_eq!(differences.next(), Some(Difference { key: Key::Permitted, predicted: 0, found: 1 << 17 }));
/// assert_eq!(differences.next(), Some(Difference { key: Key::Nnp, predicted: 1, found: 0 }));
/// assert_eq!(differences.next(), None);
/// assert_eq!(differences.rest(), b"not compared: securebits, group IDs\n");
/// ```
#[must_use]
pub const fn differences(list: &[u8]) -> Differences<'_> {
    Differences { rest: list, due: &Key::ALL }
}

impl<'a> Differences<'a> {
    /// What has not been read: after the last difference, the line that says what is not compared.
    #[must_use]
    pub const fn rest(&self) -> &'a [u8] {
        self.rest
    }
}

impl Iterator for Differences<'_> {
    type Item = Difference;

    fn next(&mut self) -> Option<Difference> {
        let end = self.rest.iter().position(|byte| *byte == b'\n')?;
        let mut words = self.rest[..end].split(|byte| *byte == b' ');
        let (name, predicted, found) = (words.next()?, words.next()?, words.next()?);
        let place = self.due.iter().position(|key| key.name().as_bytes() == name)?;
        let key = self.due[place];
        let (predicted, found) = (key.value(predicted)?, key.value(found)?);
        if words.next().is_some() || predicted == found {
            return None;
        }
        self.rest = &self.rest[end + 1..];
        self.due = &self.due[place + 1..];
        Some(Difference { key, predicted, found })
    }
}

#[cfg(test)]
mod tests {
    extern crate std;

    use super::{differences, Difference, Key};
    use crate::LONGEST_LIST;
    use std::format;
    use std::vec::Vec;

    const LAST: &str = "not compared: securebits, group IDs\n";

    /// Every key differs, and every value is its own.
    const LONGEST: &str = "ruid 4294967294 4294967295\neuid 4294967293 4294967292\n\
        suid 4294967291 4294967290\nfsuid 4294967289 4294967288\n\
        permitted 0000000000000001 0000000000000002\ninheritable 0000000000000003 0000000000000004\n\
        effective 0000000000000005 ffffffffffffffff\nbounding 000001ffffffffff fffffe0000000000\n\
        ambient 0000000000000007 abcdef0123456789\nnnp 0 1\nnot compared: securebits, group IDs\n";

    fn longest() -> [Difference; 10] {
        let values = [
            (4_294_967_294, 4_294_967_295),
            (4_294_967_293, 4_294_967_292),
            (4_294_967_291, 4_294_967_290),
            (4_294_967_289, 4_294_967_288),
            (1, 2),
            (3, 4),
            (5, u64::MAX),
            (0x1ff_ffff_ffff, 0xffff_fe00_0000_0000),
            (7, 0xabcd_ef01_2345_6789),
            (0, 1),
        ];
        let mut keys = Key::ALL.into_iter();
        values.map(|(predicted, found)| Difference { key: keys.next().expect("ten keys"), predicted, found })
    }

    #[test]
    fn differences_come_in_their_order() {
        assert_eq!(LONGEST.len(), LONGEST_LIST);
        let mut found = differences(LONGEST.as_bytes());
        assert!(found.by_ref().eq(longest()));
        assert_eq!(found.rest(), LAST.as_bytes());
    }

    #[test]
    fn the_last_line_is_no_difference() {
        let mut found = differences(LAST.as_bytes());
        assert_eq!(found.next(), None);
        assert_eq!(found.rest(), LAST.as_bytes());
    }

    // Whatever keys differ: 1024 lists.
    #[test]
    fn every_choice_of_keys() {
        let lines: Vec<&str> = LONGEST.split_inclusive('\n').collect();
        for choice in 0..1 << 10 {
            let chosen = |place: &usize| choice >> place & 1 == 1;
            let text: Vec<&str> = (0..10).filter(chosen).map(|place| lines[place]).chain([LAST]).collect();
            let text = text.concat();
            let mut found = differences(text.as_bytes());
            assert!(found.by_ref().eq((0..10).filter(chosen).map(|place| longest()[place])), "{text}");
            assert_eq!(found.rest(), LAST.as_bytes());
        }
    }

    #[test]
    fn a_list_cut_short_has_the_differences_before_the_cut() {
        for length in 0..=LONGEST.len() {
            let cut = &LONGEST[..length];
            let whole = cut.bytes().filter(|byte| *byte == b'\n').count().min(10);
            let mut found = differences(cut.as_bytes());
            assert!(found.by_ref().eq(longest().into_iter().take(whole)), "{length}");
            let before: usize = LONGEST.split_inclusive('\n').take(whole).map(str::len).sum();
            assert_eq!(found.rest(), &cut.as_bytes()[before..], "{length}");
        }
    }

    #[test]
    fn other_texts_are_no_differences() {
        for line in [
            "",
            " ",
            "ruid",
            "ruid 1",
            "ruid 1 2 3",
            "ruid 1 2 ",
            "ruid  1 2",
            " ruid 1 2",
            "ruid\t1 2",
            "ruid=1 2",
            "ruid 1 1",
            "ruid 01 2",
            "ruid 1 02",
            "ruid 00 1",
            "ruid 1 +2",
            "ruid -1 2",
            "ruid 1 a",
            "ruid 1 2\r",
            "ruid 4294967296 0",
            "ruid 0 4294967296",
            "ruid 0 18446744073709551616",
            "ruid 1 \u{662}",
            "rgid 1 2",
            "Ruid 1 2",
            "uid 1 2",
            "securebits 00 01",
            "permitted 0 1",
            "permitted 0000000000000000 0000000000000000",
            "permitted 000000000000000 0000000000000001",
            "permitted 00000000000000000 0000000000000001",
            "permitted 0000000000000000 000000000000000A",
            "permitted 0000000000000000 000000000000000g",
            "permitted 0000000000000000 +000000000000001",
            "nnp 0 2",
            "nnp 0 01",
            "nnp 1 1",
            "nnp 0 0000000000000001",
        ] {
            let text = format!("{line}\n{LAST}");
            let mut found = differences(text.as_bytes());
            assert_eq!(found.next(), None, "{line:?}");
            assert_eq!(found.rest(), text.as_bytes(), "{line:?}");
        }
        assert_eq!(differences(b"ruid 1 \xff\n").next(), None);
        assert_eq!(differences(b"nnp 0 1").next(), None);
    }

    #[test]
    fn keys_out_of_order_or_repeated_end_the_differences() {
        for (list, count) in
            [("nnp 0 1\nruid 1 2\n", 1), ("ruid 1 2\nruid 1 3\n", 1), ("suid 1 2\neuid 1 2\nnnp 0 1\n", 1)]
        {
            assert_eq!(differences(list.as_bytes()).count(), count, "{list:?}");
        }
    }
}
