//! "Attribute bytes": which attributes are unreadable, and refusal 60.

use super::{Moment, Row};

/// What an attribute says.
#[derive(Clone, Copy, PartialEq, Eq)]
pub struct File {
    pub permitted: u64,
    pub inheritable: u64,
    pub effective: bool,
}

/// What the bytes of an attribute come to.
#[derive(Clone, Copy, PartialEq, Eq)]
pub enum Reading {
    None,
    File(File),
    Unreadable,
}

/// Reads an attribute.
pub fn read(bytes: &[u8]) -> Reading {
    if bytes.is_empty() {
        return Reading::None;
    }
    let is_readable = !has_wrong_length(bytes) && !has_other_bits(bytes) && !has_bits_above_40(bytes);
    match taken_anyway(bytes) {
        Some(file) if is_readable => Reading::File(file),
        _ => Reading::Unreadable,
    }
}

/// What 12 or 20 bytes say, readable or not.
pub fn taken_anyway(bytes: &[u8]) -> Option<File> {
    let high = |at| if bytes.len() == 20 { u64::from(word(bytes, at)) << 32 } else { 0 };
    matches!(bytes.len(), 12 | 20).then(|| File {
        permitted: u64::from(word(bytes, 1)) | high(3),
        inheritable: u64::from(word(bytes, 2)) | high(4),
        effective: bytes[0] & 1 == 1,
    })
}

fn word(bytes: &[u8], at: usize) -> u32 {
    (0..4).map(|byte| u32::from(bytes[at * 4 + byte]) << (8 * byte)).sum()
}

fn revision(bytes: &[u8]) -> Option<u8> {
    bytes.get(3).copied()
}

// Only revision 1 with 12 bytes and revision 2 with 20 are read.
pub(super) fn has_wrong_length(bytes: &[u8]) -> bool {
    !matches!((revision(bytes), bytes.len()), (Some(1), 12) | (Some(2), 20))
}

pub(super) fn has_other_bits(bytes: &[u8]) -> bool {
    bytes.len() >= 4 && word(bytes, 0) & 0x00ff_fffe != 0
}

pub(super) fn has_bits_above_40(bytes: &[u8]) -> bool {
    bytes.len() == 20 && (word(bytes, 3) | word(bytes, 4)) >> 9 != 0
}

// A launch whose attribute is not ignored, and these bytes are its attribute.
fn unreadable(name: impl Into<String>, when: impl Fn(&[u8]) -> bool + Send + Sync + 'static) -> Row<Moment> {
    let applies =
        move |m: &Moment| m.launch.as_ref().is_some_and(|launch| !launch.attribute_is_ignored()) && when(&m.step.attr);
    Row::new(name, applies, |m| m.is_refused(60))
}

/// Tells whether bytes are unreadable in one way.
pub type Way = Box<dyn Fn(&[u8]) -> bool + Send + Sync>;

/// The ways to be unreadable, for attributes of up to so many bytes: the name of each, and whether bytes are so.
pub fn ways_to_be_unreadable(longest: usize) -> Vec<(String, Way)> {
    let way = |name: &str, when: fn(&[u8]) -> bool| -> (String, Way) { (name.to_string(), Box::new(when)) };
    let mut ways = vec![
        way("revision 0", |bytes| matches!(bytes.len(), 12 | 20) && bytes[3] == 0),
        way("revision 3", |bytes| matches!(bytes.len(), 12 | 20) && bytes[3] == 3),
        way("revision above 3", |bytes| matches!(bytes.len(), 12 | 20) && bytes[3] > 3),
        way("revision 1 in 20 bytes", |bytes| bytes.len() == 20 && bytes[3] == 1),
        way("revision 2 in 12 bytes", |bytes| bytes.len() == 12 && bytes[3] == 2),
        way("other bits in the first word, version 1", |bytes| {
            bytes.len() == 12 && bytes[3] == 1 && has_other_bits(bytes)
        }),
        way("other bits in the first word, version 2", |bytes| {
            bytes.len() == 20 && bytes[3] == 2 && has_other_bits(bytes) && !has_bits_above_40(bytes)
        }),
        way("bit above 40 in the permitted set", |bytes| only_above_40(bytes, 3, 4)),
        way("bit above 40 in the inheritable set", |bytes| only_above_40(bytes, 4, 3)),
    ];
    for length in (1..=longest).filter(|length| !matches!(length, 12 | 20)) {
        ways.push((format!("{length} bytes"), Box::new(move |bytes| bytes.len() == length)));
    }
    ways
}

/// The rows of refusal 60, and those of what is readable.
pub fn rows() -> Vec<Row<Moment>> {
    let mut rows = vec![Row::new(
        "60 comes after 22",
        |m: &Moment| !m.given && read(&m.step.attr) == Reading::Unreadable,
        |m| m.is_refused(22),
    )];
    for (name, when) in ways_to_be_unreadable(24) {
        rows.push(unreadable(format!("60: {name}"), when));
    }
    for version in [1, 2] {
        let name = format!("Attribute bytes: version {version} is read");
        let length = 4 + 8 * version;
        let is_read = move |m: &Moment| {
            m.launch.as_ref().is_some_and(|launch| launch.file.is_some()) && m.step.attr.len() == length
        };
        rows.push(Row::new(name, is_read, |m| m.is_done() || m.is_refused_for(11)));
    }
    rows
}

// Version 2, readable but for bits above 40 in that high word.
fn only_above_40(bytes: &[u8], at: usize, other: usize) -> bool {
    !has_wrong_length(bytes)
        && bytes.len() == 20
        && !has_other_bits(bytes)
        && word(bytes, at) >> 9 != 0
        && word(bytes, other) >> 9 == 0
}
