//! The attribute writer: 22, then 28, or the twenty bytes of version 2.

use super::seen::{Seen, NO_ROOM};
use super::validity::FULL;
use super::Row;
use plans::Operands;

/// How many bytes are written.
const LENGTH: usize = 20;

/// Numbers, and what came back for them.
pub struct AttributeWrite {
    operands: Operands,
    /// What came back in each buffer.
    pub seen: Seen<u8>,
    // What was read again from the attribute that was written.
    again: Option<Vec<u64>>,
}

impl AttributeWrite {
    /// The numbers, what came back in each buffer, and what was read again if an attribute was written.
    pub fn new(operands: Operands, seen: Seen<u8>, again: Option<Vec<u64>>) -> AttributeWrite {
        AttributeWrite { operands, seen, again }
    }

    /// Whether permitted, inheritable and effective are each out of range.
    fn wrong(&self) -> [bool; 3] {
        let Operands { permitted, inheritable, effective } = self.operands;
        [permitted > FULL, inheritable > FULL, effective > 1]
    }

    fn is_in_range(&self) -> bool {
        self.wrong() == [false; 3]
    }

    fn is_refused(&self) -> bool {
        self.seen.is_refused(22, 0)
    }

    fn is_written(&self) -> bool {
        self.seen.is_done(&bytes(&self.operands))
    }
}

// Byte after byte: the bit, two zeros, the revision; then four bytes of each half of each set, the low halves first.
fn bytes(operands: &Operands) -> Vec<u8> {
    let byte = |set: u64, at: u32| (set >> (8 * at)) as u8;
    let mut bytes = vec![operands.effective as u8, 0, 0, 2];
    for places in [0..4, 4..8] {
        for set in [operands.permitted, operands.inheritable] {
            bytes.extend(places.clone().map(|at| byte(set, at)));
        }
    }
    bytes
}

fn row(
    name: impl std::fmt::Display,
    when: impl Fn(&AttributeWrite) -> bool + Send + Sync + 'static,
    then: impl Fn(&AttributeWrite) -> bool + Send + Sync + 'static,
) -> Row<AttributeWrite> {
    Row::new(format!("write_attribute, {name}"), when, then)
}

/// The rows of the attribute writer.
pub fn rows() -> Vec<Row<AttributeWrite>> {
    let mut rows = Vec::new();
    rows.extend(rows_of_refusals());
    rows.extend(rows_of_room());
    rows.extend(rows_of_attributes());
    rows
}

fn rows_of_refusals() -> Vec<Row<AttributeWrite>> {
    let refused = |name: &str, wrong: [bool; 3], holds: fn(&Operands) -> bool| {
        let applies = move |s: &AttributeWrite| s.wrong() == wrong && holds(&s.operands);
        row(format!("22: {name}"), applies, AttributeWrite::is_refused)
    };
    let permitted = [true, false, false];
    let inheritable = [false, true, false];
    let effective = [false, false, true];
    vec![
        refused("permitted with a bit above 40", permitted, |_| true),
        refused("permitted with bit 41", permitted, |file| file.permitted >> 41 == 1),
        refused("permitted with bit 63", permitted, |file| file.permitted >> 63 == 1),
        refused("inheritable with a bit above 40", inheritable, |_| true),
        refused("inheritable with bit 41", inheritable, |file| file.inheritable >> 41 == 1),
        refused("inheritable with bit 63", inheritable, |file| file.inheritable >> 63 == 1),
        refused("both sets with a bit above 40", [true, true, false], |_| true),
        refused("effective 2", effective, |file| file.effective == 2),
        refused("effective above 2", effective, |file| file.effective > 2),
        refused("effective 1 in its low 8 bits", effective, |file| file.effective & 0xff == 1),
        refused("effective 1 in its low 32 bits", effective, |file| file.effective & 0xffff_ffff == 1),
        refused("effective 0 in its low 32 bits", effective, |file| file.effective & 0xffff_ffff == 0),
        refused("permitted and effective", [true, false, true], |_| true),
        refused("inheritable and effective", [false, true, true], |_| true),
        row("22 comes before 28", |s| !s.is_in_range(), AttributeWrite::is_refused),
    ]
}

fn rows_of_room() -> Vec<Row<AttributeWrite>> {
    vec![
        row("28: no room", AttributeWrite::is_in_range, |s| s.seen.no_room == NO_ROOM),
        row("28: 19 bytes", AttributeWrite::is_in_range, |s| s.seen.one_short == NO_ROOM),
        row("0: 20 bytes", AttributeWrite::is_in_range, |s| s.seen.exact.written() == LENGTH),
        row("0: more room", AttributeWrite::is_in_range, |s| s.seen.roomy.written() == LENGTH),
    ]
}

fn rows_of_attributes() -> Vec<Row<AttributeWrite>> {
    let written = |name: &str, holds: fn(&Operands) -> bool| {
        let applies = move |s: &AttributeWrite| s.is_in_range() && holds(&s.operands);
        row(format!("0: {name}"), applies, AttributeWrite::is_written)
    };
    vec![
        written("bit on", |file| file.effective == 1),
        written("bit off", |file| file.effective == 0),
        written("empty sets", |file| file.permitted | file.inheritable == 0),
        written("full sets", |file| [file.permitted, file.inheritable] == [FULL; 2]),
        written("permitted with bit 40", |file| file.permitted >> 40 == 1),
        written("inheritable with bit 40", |file| file.inheritable >> 40 == 1),
        written("permitted alone", |file| file.permitted != 0 && file.inheritable == 0),
        written("inheritable alone", |file| file.permitted == 0 && file.inheritable != 0),
        written("sets that version 1 could hold", |file| {
            file.permitted | file.inheritable != 0 && (file.permitted | file.inheritable) >> 32 == 0
        }),
        row("0: read again, it is the numbers", AttributeWrite::is_in_range, |s| {
            let Operands { permitted, inheritable, effective } = s.operands;
            s.again == Some(vec![1, permitted, inheritable, effective])
        }),
    ]
}

#[cfg(test)]
mod tests {
    use super::*;

    // The example of "Attribute bytes", and one with a bit in every part.
    #[test]
    fn bytes_are_those_of_the_paper() {
        let net_raw = Operands { permitted: 1 << 13, inheritable: 0, effective: 1 };
        assert_eq!(bytes(&net_raw), [1, 0, 0, 2, 0, 0x20, 0, 0, 0, 0, 0, 0, 0, 0, 0, 0, 0, 0, 0, 0]);
        let other = Operands { permitted: 0x102_0304_0506, inheritable: 0x107_0809_0a0b, effective: 0 };
        let expected = [0, 0, 0, 2, 6, 5, 4, 3, 11, 10, 9, 8, 2, 1, 0, 0, 7, 1, 0, 0];
        assert_eq!(bytes(&other), expected);
    }
}
