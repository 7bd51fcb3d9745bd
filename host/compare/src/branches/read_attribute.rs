//! The attribute reader: 60, then 28, or what an attribute says.

use super::attribute::{read, ways_to_be_unreadable, File, Reading};
use super::seen::{Seen, NO_ROOM};
use super::Row;

/// How many values an attribute has: whether it is attached, its two sets and its bit.
const FILE_VALUES: usize = 4;
/// No attribute attached.
const NONE: [u64; FILE_VALUES] = [0; FILE_VALUES];

/// The bytes of an attribute, and what came back for them.
pub struct AttributeRead {
    bytes: Vec<u8>,
    reading: Reading,
    /// What came back in each buffer.
    pub seen: Seen<u64>,
    // What was written again from the values of an attached attribute.
    again: Option<Vec<u8>>,
}

impl AttributeRead {
    /// The bytes, what came back for each number of places, and what was written again if an attribute was read.
    pub fn new(bytes: Vec<u8>, seen: Seen<u64>, again: Option<Vec<u8>>) -> AttributeRead {
        AttributeRead { reading: read(&bytes), bytes, seen, again }
    }

    fn is_readable(&self) -> bool {
        self.reading != Reading::Unreadable
    }

    /// What an attached attribute of that version says.
    fn file(&self, version: usize) -> Option<File> {
        match self.reading {
            Reading::File(file) if self.bytes.len() == length(version) => Some(file),
            _ => None,
        }
    }

    /// Whether the values of an attached attribute came back.
    fn is_read(&self) -> bool {
        let Reading::File(File { permitted, inheritable, effective }) = self.reading else { return false };
        self.seen.is_done(&[1, permitted, inheritable, u64::from(effective)])
    }
}

fn length(version: usize) -> usize {
    4 + 8 * version
}

fn row(
    name: impl std::fmt::Display,
    when: impl Fn(&AttributeRead) -> bool + Send + Sync + 'static,
    then: impl Fn(&AttributeRead) -> bool + Send + Sync + 'static,
) -> Row<AttributeRead> {
    Row::new(format!("read_attribute, {name}"), when, then)
}

/// The rows of the attribute reader.
pub fn rows() -> Vec<Row<AttributeRead>> {
    let mut rows = Vec::new();
    rows.extend(rows_of_unreadable());
    rows.extend(rows_of_none());
    rows.extend(rows_of_room());
    for version in [1, 2] {
        rows.extend(rows_of_version(version));
    }
    rows
}

fn rows_of_unreadable() -> Vec<Row<AttributeRead>> {
    let mut ways = ways_to_be_unreadable(32);
    for bits in [8, 16] {
        for version in [1, 2] {
            let name = format!("a length that is version {version}'s in its low {bits} bits");
            ways.push((name, Box::new(move |bytes| bytes.len() == length(version) + (1 << bits))));
        }
    }
    let mut rows = Vec::new();
    for (name, when) in ways {
        rows.push(row(format!("60: {name}"), move |s| when(&s.bytes), |s| s.seen.is_refused(60, 0)));
    }
    rows.push(row("60 comes before 28", |s| !s.is_readable(), |s| s.seen.is_refused(60, 0)));
    rows
}

fn rows_of_none() -> Vec<Row<AttributeRead>> {
    let is_none = |s: &AttributeRead| s.bytes.is_empty();
    vec![
        row("0: no bytes, none attached", is_none, |s| s.seen.is_done(&NONE)),
        row("28: none attached, three places", is_none, |s| s.seen.one_short == NO_ROOM),
    ]
}

fn rows_of_room() -> Vec<Row<AttributeRead>> {
    vec![
        row("28: no place", AttributeRead::is_readable, |s| s.seen.no_room == NO_ROOM),
        row("28: three places", AttributeRead::is_readable, |s| s.seen.one_short == NO_ROOM),
        row("0: four places", AttributeRead::is_readable, |s| s.seen.exact.written() == FILE_VALUES),
        row("0: more places", AttributeRead::is_readable, |s| s.seen.roomy.written() == FILE_VALUES),
    ]
}

fn rows_of_version(version: usize) -> Vec<Row<AttributeRead>> {
    let highest = if version == 1 { 31 } else { 40 };
    let is_read = move |name: &str, holds: Box<dyn Fn(&File) -> bool + Send + Sync>| {
        let applies = move |s: &AttributeRead| s.file(version).as_ref().is_some_and(&holds);
        row(format!("0: version {version}, {name}"), applies, AttributeRead::is_read)
    };
    vec![
        is_read("bit on", Box::new(|file| file.effective)),
        is_read("bit off", Box::new(|file| !file.effective)),
        is_read("attached though its sets are empty", Box::new(|file| file.permitted | file.inheritable == 0)),
        is_read("the highest permitted", Box::new(move |file| file.permitted >> highest == 1)),
        is_read("the highest inheritable", Box::new(move |file| file.inheritable >> highest == 1)),
        is_read("permitted alone", Box::new(|file| file.permitted != 0 && file.inheritable == 0)),
        is_read("inheritable alone", Box::new(|file| file.permitted == 0 && file.inheritable != 0)),
        row(
            format!("0: version {version}, written again, is version 2"),
            move |s| s.file(version).is_some(),
            |s| s.again.as_ref() == Some(&as_version_2(&s.bytes)),
        ),
    ]
}

// The bytes of an attribute of either version, as those of version 2: another revision, and high words that version 1 has not.
fn as_version_2(bytes: &[u8]) -> Vec<u8> {
    let mut bytes = bytes.to_vec();
    bytes[3] = 2;
    bytes.resize(length(2), 0);
    bytes
}

#[cfg(test)]
mod tests {
    use super::*;

    // The example of "Attribute bytes": NET_RAW permitted, bit on.
    #[test]
    fn version_1_written_again_is_version_2() {
        let version_1 = [1, 0, 0, 1, 0, 0x20, 0, 0, 0, 0, 0, 0];
        let version_2 = [1, 0, 0, 2, 0, 0x20, 0, 0, 0, 0, 0, 0, 0, 0, 0, 0, 0, 0, 0, 0];
        assert_eq!(as_version_2(&version_1), version_2);
        assert_eq!(as_version_2(&version_2), version_2);
    }
}
