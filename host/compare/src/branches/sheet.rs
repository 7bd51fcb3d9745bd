//! "Sheet, plan and report": a sheet by itself, as the rows of its reader and its writer see it.

use super::validity::LARGEST_ID;
use plans::VALUES;

/// The values of a sheet, in the order of its lines.
pub type Values = [u64; VALUES];

/// The keys of its lines.
pub const KEYS: [&str; VALUES] = [
    "ruid",
    "euid",
    "suid",
    "fsuid",
    "rgid",
    "egid",
    "sgid",
    "fsgid",
    "permitted",
    "inheritable",
    "effective",
    "bounding",
    "ambient",
    "securebits",
    "nnp",
];

// The places of the values.
pub const IDS: [usize; 8] = [0, 1, 2, 3, 4, 5, 6, 7];
pub const PERMITTED: usize = 8;
pub const INHERITABLE: usize = 9;
pub const EFFECTIVE: usize = 10;
pub const BOUNDING: usize = 11;
pub const AMBIENT: usize = 12;
pub const SECUREBITS: usize = 13;
pub const NNP: usize = 14;

/// How many of the IDs are user IDs; the group IDs follow them.
pub const USERS: usize = 4;

/// The line of text past a sheet.
pub const LINE_PAST_THE_SHEET: u32 = 16;

/// The most bytes of a sheet: each of its eight IDs has 10 digits. The rest has always the same length.
pub const LONGEST: usize = 284;

/// What a text comes to.
#[derive(Clone, Copy, Debug, PartialEq, Eq)]
pub enum Reading {
    /// It is no sheet.
    Malformed { line: u32 },
    /// It is a sheet of these values, which need not be valid.
    Sheet(Values),
}

/// Reads a text: the values whose sheet it is, or the first line that is that of no value.
pub fn read(text: &[u8]) -> Reading {
    let mut values = [0; VALUES];
    let mut rest = text;
    for (place, line) in (0..VALUES).zip(1..) {
        let Some((value, after)) = read_line(place, rest) else { return Reading::Malformed { line } };
        values[place] = value;
        rest = after;
    }
    if rest.is_empty() {
        Reading::Sheet(values)
    } else {
        Reading::Malformed { line: LINE_PAST_THE_SHEET }
    }
}

/// The text of a sheet.
pub fn text(values: &Values) -> Vec<u8> {
    (0..VALUES).flat_map(|place| line(place, values[place]).into_bytes()).collect()
}

fn line(place: usize, value: u64) -> String {
    let key = KEYS[place];
    match place {
        0..PERMITTED | NNP => format!("{key}={value}\n"),
        SECUREBITS => format!("{key}={value:02x}\n"),
        _ => format!("{key}={value:016x}\n"),
    }
}

// The largest value that a line can have.
fn largest(place: usize) -> u64 {
    match place {
        0..PERMITTED => 4_294_967_295,
        SECUREBITS => 255,
        NNP => 1,
        _ => u64::MAX,
    }
}

// The value whose line stands at the front of the text, and what follows.
fn read_line(place: usize, text: &[u8]) -> Option<(u64, &[u8])> {
    let end = text.iter().position(|byte| *byte == b'\n')? + 1;
    let (front, after) = text.split_at(end);
    let front = std::str::from_utf8(front).ok()?;
    let (_, digits) = front.trim_end().split_once('=')?;
    let radix = if matches!(place, 0..PERMITTED | NNP) { 10 } else { 16 };
    let value = u64::from_str_radix(digits, radix).ok()?;
    (value <= largest(place) && line(place, value) == front).then_some((value, after))
}

/// A kind of values.
pub struct Kind {
    /// What it is called.
    pub name: String,
    /// Whether the values are of that kind.
    pub holds: Box<dyn Fn(&Values) -> bool + Send + Sync>,
}

impl Kind {
    /// Values of which that is true.
    pub fn new(name: impl Into<String>, holds: impl Fn(&Values) -> bool + Send + Sync + 'static) -> Kind {
        Kind { name: name.into(), holds: Box::new(holds) }
    }
}

/// The kinds of sheets of valid credentials that a reader or a writer could take for others.
pub fn kinds() -> Vec<Kind> {
    let mut kinds = vec![
        Kind::new("nnp 0", |v| v[NNP] == 0),
        Kind::new("nnp 1", |v| v[NNP] == 1),
        Kind::new("securebits 00", |v| v[SECUREBITS] == 0),
        Kind::new("securebits ff", |v| v[SECUREBITS] == 255),
        Kind::new("the shortest sheet", |v| digits(v) == 8),
        Kind::new("the longest sheet", |v| digits(v) == 80),
    ];
    for place in IDS {
        let key = KEYS[place];
        kinds.push(Kind::new(format!("{key} 0"), move |v| v[place] == 0));
        kinds.push(Kind::new(format!("{key} 4294967294"), move |v| v[place] == LARGEST_ID));
    }
    for count in 1..=10 {
        kinds.push(Kind::new(format!("a user ID of {count} digits"), move |v| {
            IDS[..USERS].iter().any(|id| digits_of(v[*id]) == count)
        }));
        kinds.push(Kind::new(format!("a group ID of {count} digits"), move |v| {
            IDS[USERS..].iter().any(|id| digits_of(v[*id]) == count)
        }));
    }
    for place in PERMITTED..=AMBIENT {
        let key = KEYS[place];
        kinds.push(Kind::new(format!("{key} empty"), move |v| v[place] == 0));
        kinds.push(Kind::new(format!("{key} with bit 40"), move |v| v[place] >> 40 == 1));
    }
    kinds
}

// How many digits the eight IDs have.
fn digits(values: &Values) -> usize {
    IDS.iter().map(|id| digits_of(values[*id])).sum()
}

fn digits_of(id: u64) -> usize {
    id.checked_ilog10().unwrap_or(0) as usize + 1
}

#[cfg(test)]
mod tests {
    use super::*;

    const VALUES_OF_CASE_2: Values =
        [1000, 1000, 1000, 1000, 1000, 1000, 1000, 1000, 0x2000, 0x2000, 0x2000, 0x1ff_ffff_ffff, 0x2000, 0, 0];
    // The last lines of the report of case 2 of "On the bench".
    const SHEET_OF_CASE_2: &str = "ruid=1000\neuid=1000\nsuid=1000\nfsuid=1000\n\
        rgid=1000\negid=1000\nsgid=1000\nfsgid=1000\npermitted=0000000000002000\n\
        inheritable=0000000000002000\neffective=0000000000002000\nbounding=000001ffffffffff\nambient=0000000000002000\n\
        securebits=00\nnnp=0\n";

    fn line_of_fault(text: &str) -> u32 {
        match read(text.as_bytes()) {
            Reading::Malformed { line } => line,
            Reading::Sheet(values) => panic!("it is a sheet of {values:?}"),
        }
    }

    #[test]
    fn case_2_is_read_and_written() {
        assert_eq!(read(SHEET_OF_CASE_2.as_bytes()), Reading::Sheet(VALUES_OF_CASE_2));
        assert_eq!(text(&VALUES_OF_CASE_2), SHEET_OF_CASE_2.as_bytes());
    }

    #[test]
    fn faults_are_in_their_lines() {
        assert_eq!(line_of_fault(""), 1);
        assert_eq!(line_of_fault(&SHEET_OF_CASE_2[..SHEET_OF_CASE_2.len() - 1]), 15);
        assert_eq!(line_of_fault(&format!("{SHEET_OF_CASE_2}\n")), 16);
        for (right, wrong, line) in [
            ("ruid=1000", "ruid=+1000", 1),
            ("euid=1000", "euid=01000", 2),
            ("suid=1000", "suid=4294967296", 3),
            ("fsuid=1000", "fsuid=", 4),
            ("rgid=1000", "ruid=1000", 5),
            ("egid=1000", "egid=4294967296", 6),
            ("sgid=1000", "sgid=00", 7),
            ("fsgid=1000\n", "", 8),
            ("bounding=000001f", "bounding=000001F", 12),
            ("ambient=0000", "ambient=000", 13),
            ("securebits=00", "securebits=100", 14),
            ("nnp=0", "nnp=2", 15),
            ("nnp=0\n", "nnp=0\r\n", 15),
            ("nnp=0\n", "nnp=0 \n", 15),
        ] {
            let text = SHEET_OF_CASE_2.replace(&format!("\n{right}"), &format!("\n{wrong}"));
            let text = if line == 1 { SHEET_OF_CASE_2.replacen(right, wrong, 1) } else { text };
            assert_eq!(line_of_fault(&text), line, "{wrong:?}");
        }
    }

    #[test]
    fn lengths_are_by_the_digits_of_the_ids() {
        let mut values = VALUES_OF_CASE_2;
        values[..8].fill(0);
        assert_eq!((text(&values).len(), digits(&values)), (LONGEST - 72, 8));
        values[..8].fill(LARGEST_ID);
        assert_eq!((text(&values).len(), digits(&values)), (LONGEST, 80));
        assert_eq!([9, 10, 999_999_999, 1_000_000_000].map(digits_of), [1, 2, 9, 10]);
    }
}
