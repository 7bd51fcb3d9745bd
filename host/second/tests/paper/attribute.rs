//! The attribute by itself: the reader and the writer, their refusals and the order among them.

use crate::helpers::*;
use second::{read_attribute, write_attribute, Written};

/// What a place of a lent list holds before the call.
const UNTOUCHED: u64 = 0xa5a5_a5a5_a5a5_a5a5;

/// `QUOTED` as bytes: NET_RAW permitted, bit on.
const QUOTED_BYTES: [u8; 20] = [1, 0, 0, 2, 0, 0x20, 0, 0, 0, 0, 0, 0, 0, 0, 0, 0, 0, 0, 0, 0];

/// Permitted 0000010203040506, inheritable 000000a1b2c3d4e5, bit off: four different words.
const FOUR_WORDS: [u8; 20] =
    [0, 0, 0, 2, 0x06, 0x05, 0x04, 0x03, 0xe5, 0xd4, 0xc3, 0xb2, 0x02, 0x01, 0, 0, 0xa1, 0, 0, 0];
const FOUR_WORDS_PERMITTED: u64 = 0x0000_0102_0304_0506;
const FOUR_WORDS_INHERITABLE: u64 = 0x0000_00a1_b2c3_d4e5;

/// Version 1, permitted 01020304, inheritable f0e0d0c0, bit on.
const VERSION_1: [u8; 12] = [1, 0, 0, 1, 0x04, 0x03, 0x02, 0x01, 0xc0, 0xd0, 0xe0, 0xf0];

fn assert_reads(attribute: &[u8], expected: [u64; 4]) {
    let mut values = [UNTOUCHED; 5];
    assert_eq!(read_attribute(attribute, &mut values), Written { code: 0, number: 4 }, "{attribute:x?}");
    assert_eq!(values[..4], expected, "{attribute:x?}");
    assert_eq!(values[4], UNTOUCHED);
}

/// Unreadable bytes leave every place alone, and the code is 60 whether there is room or not.
fn assert_unreadable(attribute: &[u8]) {
    for places in [0, 1, 3, 4, 5] {
        let mut values = vec![UNTOUCHED; places];
        let written = read_attribute(attribute, &mut values);
        assert_eq!(written, Written { code: 60, number: 0 }, "{places} places, {attribute:x?}");
        assert!(values.iter().all(|&value| value == UNTOUCHED));
    }
}

fn assert_writes(permitted: u64, inheritable: u64, effective: u64, expected: [u8; 20]) {
    let mut buffer = [0xa5; 24];
    let written = write_attribute(permitted, inheritable, effective, &mut buffer);
    assert_eq!(written, Written { code: 0, number: 20 }, "{permitted:x} {inheritable:x} {effective:x}");
    assert_eq!(buffer[..20], expected, "{permitted:x} {inheritable:x} {effective:x}");
    assert_eq!(buffer[20..], [0xa5; 4]);
}

/// Numbers out of range leave every byte alone, and the code is 22 whether there is room or not.
fn assert_not_written(permitted: u64, inheritable: u64, effective: u64) {
    for length in [0, 1, 19, 20, 21] {
        let mut buffer = vec![0xa5; length];
        let written = write_attribute(permitted, inheritable, effective, &mut buffer);
        assert_eq!(written, Written { code: 22, number: 0 }, "{permitted:x} {inheritable:x} {effective:x}");
        assert!(buffer.iter().all(|&byte| byte == 0xa5));
    }
}

/// The bytes with one of them changed.
fn with_byte(attribute: &[u8], place: usize, byte: u8) -> Vec<u8> {
    let mut bytes = attribute.to_vec();
    bytes[place] = byte;
    bytes
}

#[test]
fn the_quoted_bytes_are_net_raw_permitted_with_the_bit_on() {
    let digits: String = QUOTED_BYTES.iter().map(|byte| format!("{byte:02x}")).collect();
    assert_eq!(digits, QUOTED);
    assert_reads(&QUOTED_BYTES, [1, 0x2000, 0, 1]);
    assert_writes(0x2000, 0, 1, QUOTED_BYTES);
}

#[test]
fn no_bytes_are_none_attached() {
    assert_reads(&[], [0, 0, 0, 0]);
}

#[test]
fn empty_sets_are_attached() {
    assert_reads(&[0, 0, 0, 1, 0, 0, 0, 0, 0, 0, 0, 0], [1, 0, 0, 0]);
    assert_reads(&[1, 0, 0, 1, 0, 0, 0, 0, 0, 0, 0, 0], [1, 0, 0, 1]);
    assert_reads(&[0, 0, 0, 2, 0, 0, 0, 0, 0, 0, 0, 0, 0, 0, 0, 0, 0, 0, 0, 0], [1, 0, 0, 0]);
    assert_reads(&[1, 0, 0, 2, 0, 0, 0, 0, 0, 0, 0, 0, 0, 0, 0, 0, 0, 0, 0, 0], [1, 0, 0, 1]);
    assert_writes(0, 0, 0, [0, 0, 0, 2, 0, 0, 0, 0, 0, 0, 0, 0, 0, 0, 0, 0, 0, 0, 0, 0]);
    assert_writes(0, 0, 1, [1, 0, 0, 2, 0, 0, 0, 0, 0, 0, 0, 0, 0, 0, 0, 0, 0, 0, 0, 0]);
}

#[test]
fn version_1_is_permitted_then_inheritable() {
    assert_reads(&VERSION_1, [1, 0x0102_0304, 0xf0e0_d0c0, 1]);
    assert_reads(&with_byte(&VERSION_1, 0, 0), [1, 0x0102_0304, 0xf0e0_d0c0, 0]);
    let full = [0, 0, 0, 1, 0xff, 0xff, 0xff, 0xff, 0xff, 0xff, 0xff, 0xff];
    assert_reads(&full, [1, 0xffff_ffff, 0xffff_ffff, 0]);
}

#[test]
fn version_2_is_both_low_words_then_both_high_ones() {
    assert_reads(&with_byte(&FOUR_WORDS, 0, 1), [1, FOUR_WORDS_PERMITTED, FOUR_WORDS_INHERITABLE, 1]);
    assert_reads(&FOUR_WORDS, [1, FOUR_WORDS_PERMITTED, FOUR_WORDS_INHERITABLE, 0]);
    assert_writes(FOUR_WORDS_PERMITTED, FOUR_WORDS_INHERITABLE, 0, FOUR_WORDS);
    let full = [1, 0, 0, 2, 0xff, 0xff, 0xff, 0xff, 0xff, 0xff, 0xff, 0xff, 0xff, 0x01, 0, 0, 0xff, 0x01, 0, 0];
    assert_reads(&full, [1, FULL, FULL, 1]);
    assert_writes(FULL, FULL, 1, full);
}

#[test]
fn each_capability_has_its_bit_in_version_2() {
    // Capabilities 0 to 31 fill bytes 4 to 7 (permitted) and 8 to 11 (inheritable); 32 to 40 go on at 12 and at 16.
    for capability in 0..=40 {
        let (permitted_at, inheritable_at) = if capability < 32 {
            (4 + capability / 8, 8 + capability / 8)
        } else {
            (8 + capability / 8, 12 + capability / 8)
        };
        let empty = [0, 0, 0, 2, 0, 0, 0, 0, 0, 0, 0, 0, 0, 0, 0, 0, 0, 0, 0, 0];

        let mut permitted = empty;
        permitted[permitted_at] = 1 << (capability % 8);
        assert_reads(&permitted, [1, 1 << capability, 0, 0]);
        assert_writes(1 << capability, 0, 0, permitted);

        let mut inheritable = empty;
        inheritable[inheritable_at] = 1 << (capability % 8);
        assert_reads(&inheritable, [1, 0, 1 << capability, 0]);
        assert_writes(0, 1 << capability, 0, inheritable);
    }
}

#[test]
fn other_lengths_are_unreadable() {
    for length in 1..=64 {
        for revision in [1, 2, 3] {
            let mut bytes = vec![0; length];
            if length > 3 {
                bytes[3] = revision;
            }
            match (length, revision) {
                (12, 1) | (20, 2) => assert_reads(&bytes, [1, 0, 0, 0]),
                _ => assert_unreadable(&bytes),
            }
        }
    }
    for length in 1..20 {
        assert_unreadable(&QUOTED_BYTES[..length]);
    }
    for length in 1..12 {
        assert_unreadable(&VERSION_1[..length]);
    }
    let mut longer = QUOTED_BYTES.to_vec();
    longer.push(0);
    assert_unreadable(&longer);
    longer.resize(1 << 20, 0);
    assert_unreadable(&longer);
}

#[test]
fn a_length_that_is_not_its_revisions_is_unreadable() {
    assert_unreadable(&[0, 0, 0, 2, 0, 0, 0, 0, 0, 0, 0, 0]);
    assert_unreadable(&[0, 0, 0, 1, 0, 0, 0, 0, 0, 0, 0, 0, 0, 0, 0, 0, 0, 0, 0, 0]);
}

#[test]
fn other_revisions_are_unreadable() {
    for revision in (0..=255).filter(|&revision| revision != 1) {
        assert_unreadable(&with_byte(&VERSION_1, 3, revision));
    }
    for revision in (0..=255).filter(|&revision| revision != 2) {
        assert_unreadable(&with_byte(&QUOTED_BYTES, 3, revision));
    }
    // Version 3: a root user ID at the end.
    let mut version_3 = QUOTED_BYTES.to_vec();
    version_3[3] = 3;
    version_3.extend([0, 0, 0, 0]);
    assert_unreadable(&version_3);
}

#[test]
fn other_bits_in_the_first_word_are_unreadable() {
    for first in 2..=255 {
        assert_unreadable(&with_byte(&QUOTED_BYTES, 0, first));
        assert_unreadable(&with_byte(&VERSION_1, 0, first));
    }
    for place in [1, 2] {
        for byte in 1..=255 {
            assert_unreadable(&with_byte(&QUOTED_BYTES, place, byte));
            assert_unreadable(&with_byte(&VERSION_1, place, byte));
        }
    }
}

#[test]
fn capabilities_above_40_are_unreadable() {
    // Bytes 12 and 13 hold permitted 32 to 47, bytes 16 and 17 the same of inheritable.
    for second_byte in [13, 17] {
        for bit in 1..8 {
            assert_unreadable(&with_byte(&QUOTED_BYTES, second_byte, 1 << bit));
            assert_unreadable(&with_byte(&QUOTED_BYTES, second_byte, 1 << bit | 1));
        }
        for bit in 0..8 {
            assert_unreadable(&with_byte(&QUOTED_BYTES, second_byte + 1, 1 << bit));
            assert_unreadable(&with_byte(&QUOTED_BYTES, second_byte + 2, 1 << bit));
        }
    }
    assert_reads(&with_byte(&QUOTED_BYTES, 13, 1), [1, 0x0000_0100_0000_2000, 0, 1]);
    assert_reads(&with_byte(&QUOTED_BYTES, 17, 1), [1, 0x2000, 0x0000_0100_0000_0000, 1]);
}

#[test]
fn read_into_exactly_four_places() {
    let mut values = [UNTOUCHED; 4];
    assert_eq!(read_attribute(&VERSION_1, &mut values), Written { code: 0, number: 4 });
    assert_eq!(values, [1, 0x0102_0304, 0xf0e0_d0c0, 1]);
    let mut values = [UNTOUCHED; 4];
    assert_eq!(read_attribute(&[], &mut values), Written { code: 0, number: 4 });
    assert_eq!(values, [0, 0, 0, 0]);
}

#[test]
fn read_into_fewer_places_gives_28() {
    for attribute in [&QUOTED_BYTES[..], &VERSION_1, &[]] {
        for places in 0..4 {
            let mut values = vec![UNTOUCHED; places];
            assert_eq!(read_attribute(attribute, &mut values), Written { code: 28, number: 0 });
            assert!(values.iter().all(|&value| value == UNTOUCHED));
        }
    }
}

#[test]
fn read_into_more_places_leaves_them() {
    for more in [1, 2, 100, 10_000] {
        let mut values = vec![UNTOUCHED; 4 + more];
        assert_eq!(read_attribute(&QUOTED_BYTES, &mut values), Written { code: 0, number: 4 });
        assert_eq!(values[..4], [1, 0x2000, 0, 1]);
        assert!(values[4..].iter().all(|&value| value == UNTOUCHED));
    }
}

#[test]
fn unreadable_comes_before_no_room() {
    assert_eq!(read_attribute(&[0], &mut []), Written { code: 60, number: 0 });
    assert_eq!(read_attribute(&[0], &mut [UNTOUCHED; 3]), Written { code: 60, number: 0 });
    assert_eq!(read_attribute(&[], &mut [UNTOUCHED; 3]), Written { code: 28, number: 0 });
}

#[test]
fn written_into_exactly_20_bytes() {
    let mut buffer = [0xa5; 20];
    assert_eq!(write_attribute(0x2000, 0, 1, &mut buffer), Written { code: 0, number: 20 });
    assert_eq!(buffer, QUOTED_BYTES);
}

#[test]
fn written_into_fewer_bytes_gives_28() {
    for length in 0..20 {
        let mut buffer = vec![0xa5; length];
        assert_eq!(write_attribute(0x2000, 0, 1, &mut buffer), Written { code: 28, number: 0 });
        assert!(buffer.iter().all(|&byte| byte == 0xa5));
    }
}

#[test]
fn written_into_more_bytes_leaves_them() {
    for more in [1, 2, 100, 10_000] {
        let mut buffer = vec![0xa5; 20 + more];
        assert_eq!(write_attribute(0x2000, 0, 1, &mut buffer), Written { code: 0, number: 20 });
        assert_eq!(buffer[..20], QUOTED_BYTES);
        assert!(buffer[20..].iter().all(|&byte| byte == 0xa5));
    }
}

#[test]
fn bits_above_40_are_not_written() {
    for bit in 41..64 {
        assert_not_written(1 << bit, 0, 0);
        assert_not_written(0, 1 << bit, 0);
        assert_not_written(FULL | 1 << bit, FULL, 1);
        assert_not_written(FULL, FULL | 1 << bit, 1);
    }
    assert_not_written(u64::MAX, u64::MAX, 1);
}

#[test]
fn an_effective_bit_other_than_0_and_1_is_not_written() {
    for effective in [2, 3, 255, 256, 257, 1 << 32, (1 << 32) + 1, u64::MAX] {
        assert_not_written(0x2000, 0, effective);
        assert_not_written(u64::MAX, 0, effective);
    }
}

#[test]
fn numbers_out_of_range_come_before_no_room() {
    let mut buffer = [0xa5; 19];
    assert_eq!(write_attribute(0, 0, 2, &mut buffer), Written { code: 22, number: 0 });
    assert_eq!(write_attribute(1 << 41, 0, 0, &mut buffer), Written { code: 22, number: 0 });
    assert_eq!(write_attribute(0, 1 << 41, 0, &mut []), Written { code: 22, number: 0 });
    assert_eq!(write_attribute(1 << 40, 1 << 40, 1, &mut buffer), Written { code: 28, number: 0 });
    assert_eq!(buffer, [0xa5; 19]);
}

#[test]
fn written_then_read_gives_back() {
    for (permitted, inheritable) in
        [(0, 0), (0x2000, 0), (0, 0x2000), (FULL, FULL), (FOUR_WORDS_PERMITTED, FOUR_WORDS_INHERITABLE)]
    {
        for effective in [0, 1] {
            let mut bytes = [0xa5; 20];
            write_attribute(permitted, inheritable, effective, &mut bytes);
            assert_reads(&bytes, [1, permitted, inheritable, effective]);
        }
    }
}

#[test]
fn what_was_read_is_written_as_version_2() {
    let mut values = [UNTOUCHED; 4];
    for attribute in [QUOTED_BYTES, FOUR_WORDS] {
        read_attribute(&attribute, &mut values);
        assert_writes(values[1], values[2], values[3], attribute);
    }
    read_attribute(&VERSION_1, &mut values);
    let version_2 = [1, 0, 0, 2, 0x04, 0x03, 0x02, 0x01, 0xc0, 0xd0, 0xe0, 0xf0, 0, 0, 0, 0, 0, 0, 0, 0];
    assert_writes(values[1], values[2], values[3], version_2);
}
