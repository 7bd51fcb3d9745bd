//! Attributes by themselves: what the reader and the writer answer and every place of what they are lent, typed in from the paper.

mod lent;

use lent::{in_front, pattern, value_pattern};
use urrezkalu::{
    interface, read_attribute, write_attribute, AttributeReading, AttributeWriting, FileCapabilities, ATTRIBUTE_LENGTH,
    FILE_VALUES,
};

const FULL: u64 = 0x1ff_ffff_ffff;

const OUT_OF_RANGE: u64 = 22 << 32;
const NO_ROOM: u64 = 28 << 32;
const UNREADABLE: u64 = 60 << 32;

/// The paper's: NET_RAW permitted, the bit on.
const NET_RAW: [u8; ATTRIBUTE_LENGTH] = [1, 0, 0, 2, 0, 0x20, 0, 0, 0, 0, 0, 0, 0, 0, 0, 0, 0, 0, 0, 0];

/// Attributes of version 2, with what they give their files. Words are little-endian: low permitted, low inheritable, high permitted, high inheritable.
const FILES: [([u8; ATTRIBUTE_LENGTH], FileCapabilities); 5] = [
    (NET_RAW, FileCapabilities { permitted: 1 << 13, inheritable: 0, effective: true }),
    (
        [0, 0, 0, 2, 0, 0, 0, 0, 0, 0, 0, 0, 0, 0, 0, 0, 0, 0, 0, 0],
        FileCapabilities { permitted: 0, inheritable: 0, effective: false },
    ),
    (
        [0, 0, 0, 2, 0x78, 0x56, 0x34, 0x12, 0xf0, 0xde, 0xbc, 0x9a, 0xab, 0, 0, 0, 0xcd, 1, 0, 0],
        FileCapabilities { permitted: 0xab_1234_5678, inheritable: 0x1cd_9abc_def0, effective: false },
    ),
    (
        [1, 0, 0, 2, 0, 0, 0, 0, 0, 0, 0, 0, 0, 1, 0, 0, 1, 0, 0, 0],
        FileCapabilities { permitted: 1 << 40, inheritable: 1 << 32, effective: true },
    ),
    (
        [1, 0, 0, 2, 0xff, 0xff, 0xff, 0xff, 0xff, 0xff, 0xff, 0xff, 0xff, 1, 0, 0, 0xff, 1, 0, 0],
        FileCapabilities { permitted: FULL, inheritable: FULL, effective: true },
    ),
];

/// Checks that the bytes come to this number, and that the first of `count` values are then these and the others as they were.
fn reads(attribute: &[u8], count: usize, number: u64, expected: &[u64]) {
    let mut values = value_pattern(count);
    assert_eq!(interface::read_attribute(attribute, &mut values), number, "{attribute:x?} with {count} values");
    assert_eq!(values, in_front(expected, &value_pattern(count)), "{attribute:x?} with {count} values");
}

/// Checks that the sets and the bit come to this number, and that the first of `room` bytes are then these and the others as they were.
fn writes(file: [u64; 3], room: usize, number: u64, expected: &[u8]) {
    let [permitted, inheritable, effective] = file;
    let mut attribute = pattern(room);
    let found = interface::write_attribute(permitted, inheritable, effective, &mut attribute);
    assert_eq!(found, number, "{file:x?} with room for {room} bytes");
    assert_eq!(attribute, in_front(expected, &pattern(room)), "{file:x?} with room for {room} bytes");
}

/// Checks that the bytes are unreadable, however many values are lent.
fn unreadable(attribute: &[u8]) {
    assert_eq!(read_attribute(attribute), AttributeReading::Unreadable, "{attribute:x?}");
    for count in [0, 3, 4, 13] {
        reads(attribute, count, UNREADABLE, &[]);
    }
}

fn values(file: FileCapabilities) -> [u64; FILE_VALUES] {
    [1, file.permitted, file.inheritable, u64::from(file.effective)]
}

#[test]
fn attributes_are_read_and_written() {
    for (bytes, file) in FILES {
        assert_eq!(read_attribute(&bytes), AttributeReading::File(file));
        let mut attribute = [0xa5; ATTRIBUTE_LENGTH];
        assert_eq!(write_attribute(file, &mut attribute), AttributeWriting::Written { length: 20 });
        assert_eq!(attribute, bytes);
    }
}

#[test]
fn every_count_of_values_to_read_into() {
    for count in 0..13 {
        for (bytes, file) in FILES {
            match count {
                0..FILE_VALUES => reads(&bytes, count, NO_ROOM, &[]),
                _ => reads(&bytes, count, 4, &values(file)),
            }
        }
        // No bytes: none attached.
        match count {
            0..FILE_VALUES => reads(&[], count, NO_ROOM, &[]),
            _ => reads(&[], count, 4, &[0, 0, 0, 0]),
        }
    }
}

#[test]
fn every_room_to_write_into() {
    for (bytes, file) in FILES {
        let [_, permitted, inheritable, effective] = values(file);
        for room in 0..ATTRIBUTE_LENGTH {
            writes([permitted, inheritable, effective], room, NO_ROOM, &[]);
            let mut attribute = pattern(room);
            assert_eq!(write_attribute(file, &mut attribute), AttributeWriting::NoRoom);
            assert_eq!(attribute, pattern(room));
        }
        for room in ATTRIBUTE_LENGTH..3 * ATTRIBUTE_LENGTH {
            writes([permitted, inheritable, effective], room, 20, &bytes);
        }
    }
}

#[test]
fn version_1_has_12_bytes() {
    let bytes = [1, 0, 0, 1, 0x78, 0x56, 0x34, 0x12, 0xff, 0xff, 0xff, 0xff];
    let file = FileCapabilities { permitted: 0x1234_5678, inheritable: 0xffff_ffff, effective: true };
    assert_eq!(read_attribute(&bytes), AttributeReading::File(file));
    reads(&bytes, 5, 4, &[1, 0x1234_5678, 0xffff_ffff, 1]);
    // Written, what was read from version 1 is of version 2.
    let mut attribute = [0; ATTRIBUTE_LENGTH];
    assert_eq!(write_attribute(file, &mut attribute), AttributeWriting::Written { length: 20 });
    assert_eq!(attribute, [1, 0, 0, 2, 0x78, 0x56, 0x34, 0x12, 0xff, 0xff, 0xff, 0xff, 0, 0, 0, 0, 0, 0, 0, 0]);
}

#[test]
fn every_length_and_revision_but_two() {
    for length in 1..=32 {
        for revision in 0..=255 {
            let mut bytes = vec![0; length];
            if length >= 4 {
                bytes[3] = revision;
            }
            match (length, revision) {
                (12, 1) | (20, 2) => reads(&bytes, 4, 4, &[1, 0, 0, 0]),
                _ => unreadable(&bytes),
            }
        }
    }
}

#[test]
fn every_bit_of_the_first_word_but_the_revision() {
    for (length, revision) in [(12, 1), (20, 2)] {
        for bit in 0..24 {
            let mut bytes = vec![0; length];
            bytes[3] = revision;
            bytes[bit / 8] |= 1 << (bit % 8);
            match bit {
                0 => reads(&bytes, 4, 4, &[1, 0, 0, 1]),
                _ => unreadable(&bytes),
            }
        }
    }
}

#[test]
fn capabilities_above_40_are_refused() {
    for bit in 41..64 {
        let set = 1 << bit;
        writes([set, 0, 0], 32, OUT_OF_RANGE, &[]);
        writes([0, set, 1], 32, OUT_OF_RANGE, &[]);
        let both = FileCapabilities { permitted: FULL | set, inheritable: FULL | set, effective: true };
        assert_eq!(write_attribute(both, &mut [0; 20]), AttributeWriting::OutOfRange);
        // The high words start at bytes 12 and 16.
        for high in [12, 16] {
            let mut bytes = NET_RAW;
            bytes[high + (bit - 32) / 8] |= 1 << (bit % 8);
            unreadable(&bytes);
        }
    }
}

#[test]
fn an_effective_bit_that_is_neither_0_nor_1() {
    for effective in [2, 3, 0x100, 1 << 32, (1 << 32) + 1, u64::MAX] {
        writes([1 << 13, 0, effective], 32, OUT_OF_RANGE, &[]);
    }
}

#[test]
fn the_first_reason_counts() {
    writes([1 << 41, 0, 0], 0, OUT_OF_RANGE, &[]);
    writes([0, 1 << 41, 0], 19, OUT_OF_RANGE, &[]);
    writes([0, 0, 2], 0, OUT_OF_RANGE, &[]);
    writes([0, 0, 0], 0, NO_ROOM, &[]);
    reads(&[0], 0, UNREADABLE, &[]);
    reads(&[], 0, NO_ROOM, &[]);
}

#[test]
fn threads_do_not_disturb_each_other() {
    std::thread::scope(|threads| {
        for (bytes, file) in FILES {
            threads.spawn(move || {
                let [_, permitted, inheritable, effective] = values(file);
                for _ in 0..200 {
                    reads(&bytes, 5, 4, &values(file));
                    writes([permitted, inheritable, effective], 21, 20, &bytes);
                }
            });
        }
    });
}
