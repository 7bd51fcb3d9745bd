//! The sheet by itself: the reader and the writer, their refusals and the order among them.

use crate::helpers::*;
use second::{read_sheet, write_sheet, Written};

/// What a place of a lent list holds before the call.
const UNTOUCHED: u64 = 0xa5a5_a5a5_a5a5_a5a5;

/// The numbers of case 2's sheet, which is 236 bytes long.
const VALUES: [u64; 15] =
    [1000, 1000, 1000, 1000, 1000, 1000, 1000, 1000, 0x2000, 0x2000, 0x2000, 0x1ff_ffff_ffff, 0x2000, 0, 0];

/// A sheet of fifteen different values: 10 + 7 + 16 + 12 bytes of user IDs, 8 + 16 + 7 + 13 of group IDs,
/// 27 + 29 + 27 + 26 + 25 of sets, then 14 + 6.
const DISTINCT: &str = "\
ruid=1000
euid=0
suid=4294967294
fsuid=65534
rgid=50
egid=4294967293
sgid=7
fsgid=123456
permitted=0000010000003420
inheritable=0000000000022000
effective=0000000000001400
bounding=000001fffffdffff
ambient=0000000000002000
securebits=ef
nnp=1
";
const DISTINCT_LENGTH: u32 = 243;
const DISTINCT_VALUES: [u64; 15] = [
    1000,
    0,
    4_294_967_294,
    65_534,
    50,
    4_294_967_293,
    7,
    123_456,
    0x0000_0100_0000_3420,
    0x0000_0000_0002_2000,
    0x0000_0000_0000_1400,
    0x0000_01ff_fffd_ffff,
    0x0000_0000_0000_2000,
    239,
    1,
];

/// The places of the sets and flags in a list of values.
const PERMITTED: usize = 8;
const INHERITABLE: usize = 9;
const EFFECTIVE: usize = 10;
const BOUNDING: usize = 11;
const AMBIENT: usize = 12;
const SECUREBITS: usize = 13;
const NNP: usize = 14;

/// The keys of the IDs; each one's place is its place in a list of values.
const ID_KEYS: [&str; 8] = ["ruid", "euid", "suid", "fsuid", "rgid", "egid", "sgid", "fsgid"];

/// Reads into sixteen places; the sixteenth must stay.
fn read(text: &[u8]) -> (Written, [u64; 15]) {
    let mut values = [UNTOUCHED; 16];
    let written = read_sheet(text, &mut values);
    assert_eq!(values[15], UNTOUCHED);
    (written, values[..15].try_into().unwrap())
}

fn assert_reads(text: &str, expected: [u64; 15]) {
    assert_eq!(read(text.as_bytes()), (Written { code: 0, number: 15 }, expected), "{text}");
}

/// A refused text leaves every place alone, and the code is the same whether there is room or not.
fn assert_not_read(text: &[u8], code: u32, number: u32) {
    for places in [0, 1, 11, 14, 15, 16] {
        let mut values = vec![UNTOUCHED; places];
        let written = read_sheet(text, &mut values);
        assert_eq!(written, Written { code, number }, "{places} places, {:?}", String::from_utf8_lossy(text));
        assert!(values.iter().all(|&value| value == UNTOUCHED));
    }
}

/// The written sheet; bytes past it must stay.
fn write(values: &[u64]) -> (Written, String) {
    let mut buffer = [0xa5; 300];
    let written = write_sheet(values, &mut buffer);
    let length = if written.code == 0 { written.number as usize } else { 0 };
    assert!(buffer[length..].iter().all(|&byte| byte == 0xa5));
    (written, String::from_utf8(buffer[..length].to_vec()).unwrap())
}

fn assert_writes(values: [u64; 15], expected: &str, length: u32) {
    assert_eq!(write(&values), (Written { code: 0, number: length }, expected.to_string()), "{values:x?}");
}

/// Values that are refused leave every byte alone, and the code is 72 whether there is room or not.
fn assert_not_written(values: &[u64]) {
    for length in [0, 1, 211, 300] {
        let mut buffer = vec![0xa5; length];
        let written = write_sheet(values, &mut buffer);
        assert_eq!(written, Written { code: 72, number: 0 }, "{length} bytes, {values:x?}");
        assert!(buffer.iter().all(|&byte| byte == 0xa5));
    }
}

/// Case 2's values with one other.
fn values_with(place: usize, value: u64) -> [u64; 15] {
    let mut values = VALUES;
    values[place] = value;
    values
}

/// Case 2's sheet with its line `number` put in other words.
fn with_line(number: usize, new: &str) -> String {
    let mut lines: Vec<&str> = SHEET.split_inclusive('\n').collect();
    lines[number - 1] = new;
    lines.concat()
}

/// The bench's sheet with these five sets, and its values.
fn with_sets(sets: [u64; 5]) -> (String, [u64; 15]) {
    let [permitted, inheritable, effective, bounding, ambient] = sets;
    let text = format!(
        "ruid=1000\neuid=1000\nsuid=1000\nfsuid=1000\nrgid=1000\negid=1000\nsgid=1000\nfsgid=1000\n\
         permitted={permitted:016x}\ninheritable={inheritable:016x}\n\
         effective={effective:016x}\nbounding={bounding:016x}\nambient={ambient:016x}\nsecurebits=00\nnnp=0\n"
    );
    let mut values = [1000; 15];
    values[PERMITTED..].copy_from_slice(&[permitted, inheritable, effective, bounding, ambient, 0, 0]);
    (text, values)
}

/// These sets are not valid: 72 from the reader and from the writer.
fn assert_sets_not_valid(sets: [u64; 5]) {
    let (text, values) = with_sets(sets);
    assert_not_read(text.as_bytes(), 72, 0);
    assert_not_written(&values);
}

/// These sets are valid: read and written.
fn assert_sets_valid(sets: [u64; 5]) {
    let (text, values) = with_sets(sets);
    assert_reads(&text, values);
    assert_writes(values, &text, 236);
}

#[test]
fn read_fifteen_values_in_the_order_of_the_lines() {
    assert_reads(DISTINCT, DISTINCT_VALUES);
    assert_reads(SHEET, VALUES);
}

#[test]
fn written_fifteen_values_in_the_order_of_the_lines() {
    assert_writes(DISTINCT_VALUES, DISTINCT, DISTINCT_LENGTH);
    assert_writes(VALUES, SHEET, 236);
}

#[test]
fn read_into_exactly_fifteen_places() {
    let mut values = [UNTOUCHED; 15];
    assert_eq!(read_sheet(DISTINCT.as_bytes(), &mut values), Written { code: 0, number: 15 });
    assert_eq!(values, DISTINCT_VALUES);
}

#[test]
fn read_into_fewer_places_gives_28() {
    for places in 0..15 {
        let mut values = vec![UNTOUCHED; places];
        assert_eq!(read_sheet(DISTINCT.as_bytes(), &mut values), Written { code: 28, number: 0 });
        assert!(values.iter().all(|&value| value == UNTOUCHED));
    }
}

#[test]
fn read_into_more_places_leaves_them() {
    for more in [1, 2, 100, 10_000] {
        let mut values = vec![UNTOUCHED; 15 + more];
        assert_eq!(read_sheet(DISTINCT.as_bytes(), &mut values), Written { code: 0, number: 15 });
        assert_eq!(values[..15], DISTINCT_VALUES);
        assert!(values[15..].iter().all(|&value| value == UNTOUCHED));
    }
}

#[test]
fn written_into_exactly_enough_bytes() {
    let mut buffer = [0xa5; 243];
    assert_eq!(write_sheet(&DISTINCT_VALUES, &mut buffer), Written { code: 0, number: 243 });
    assert_eq!(&buffer, DISTINCT.as_bytes());
}

#[test]
fn written_into_fewer_bytes_gives_28() {
    for length in 0..243 {
        let mut buffer = vec![0xa5; length];
        assert_eq!(write_sheet(&DISTINCT_VALUES, &mut buffer), Written { code: 28, number: 0 });
        assert!(buffer.iter().all(|&byte| byte == 0xa5));
    }
}

#[test]
fn written_into_more_bytes_leaves_them() {
    for more in [1, 2, 100, 10_000] {
        let mut buffer = vec![0xa5; 243 + more];
        assert_eq!(write_sheet(&DISTINCT_VALUES, &mut buffer), Written { code: 0, number: 243 });
        assert_eq!(&buffer[..243], DISTINCT.as_bytes());
        assert!(buffer[243..].iter().all(|&byte| byte == 0xa5));
    }
}

#[test]
fn the_shortest_and_the_longest_sheet() {
    let shortest = "ruid=0\neuid=0\nsuid=0\nfsuid=0\nrgid=0\negid=0\nsgid=0\nfsgid=0\n\
                    permitted=0000000000000000\ninheritable=0000000000000000\n\
                    effective=0000000000000000\nbounding=0000000000000000\nambient=0000000000000000\n\
                    securebits=00\nnnp=0\n";
    assert_reads(shortest, [0; 15]);
    assert_writes([0; 15], shortest, 212);

    let longest = "ruid=4294967294\neuid=4294967294\nsuid=4294967294\nfsuid=4294967294\n\
                   rgid=4294967294\negid=4294967294\nsgid=4294967294\nfsgid=4294967294\n\
                   permitted=000001ffffffffff\ninheritable=000001ffffffffff\neffective=000001ffffffffff\n\
                   bounding=000001ffffffffff\nambient=000001ffffffffff\nsecurebits=ff\nnnp=1\n";
    let id = 4_294_967_294;
    let values = [id, id, id, id, id, id, id, id, FULL, FULL, FULL, FULL, FULL, 255, 1];
    assert_reads(longest, values);
    assert_writes(values, longest, 284);
}

#[test]
fn empty_text_is_a_fault_at_line_1() {
    assert_not_read(b"", 70, 1);
}

#[test]
fn a_missing_line_is_a_fault_where_it_should_stand() {
    for number in 1..=15 {
        assert_not_read(with_line(number, "").as_bytes(), 70, number as u32);
    }
}

#[test]
fn a_doubled_line_is_a_fault_at_the_second() {
    for (index, line) in SHEET.lines().enumerate() {
        let doubled = with_line(index + 1, &format!("{line}\n{line}\n"));
        assert_not_read(doubled.as_bytes(), 70, index as u32 + 2);
    }
}

#[test]
fn two_lines_in_each_others_place_are_a_fault_at_the_first() {
    for first in 0..14 {
        let mut lines: Vec<&str> = SHEET.split_inclusive('\n').collect();
        lines.swap(first, first + 1);
        assert_not_read(lines.concat().as_bytes(), 70, first as u32 + 1);
    }
}

#[test]
fn group_lines_stand_between_fsuid_and_permitted() {
    let lines: Vec<&str> = DISTINCT.split_inclusive('\n').collect();
    let (users, groups, rest) = (lines[..4].concat(), lines[4..8].concat(), lines[8..].concat());
    assert_reads(&[&*users, &groups, &rest].concat(), DISTINCT_VALUES);
    // Without them, after the sets, and first.
    assert_not_read([&*users, &rest].concat().as_bytes(), 70, 5);
    assert_not_read([&*users, &rest, &groups].concat().as_bytes(), 70, 5);
    assert_not_read([&*groups, &users, &rest].concat().as_bytes(), 70, 1);
    // A user ID's key in a group ID's place, and the other way round.
    for (number, key) in [(5, "ruid"), (6, "euid"), (7, "suid"), (8, "fsuid")] {
        assert_not_read(with_line(number, &format!("{key}=1000\n")).as_bytes(), 70, number as u32);
    }
    for (number, key) in [(1, "rgid"), (2, "egid"), (3, "sgid"), (4, "fsgid")] {
        assert_not_read(with_line(number, &format!("{key}=1000\n")).as_bytes(), 70, number as u32);
    }
    for (number, key) in [(5, "gid"), (6, "gid"), (7, "svgid"), (8, "fgid"), (8, "fsguid")] {
        assert_not_read(with_line(number, &format!("{key}=1000\n")).as_bytes(), 70, number as u32);
    }
}

#[test]
fn without_the_final_newline_line_15_is_not_complete() {
    assert_not_read(SHEET.trim_end().as_bytes(), 70, 15);
    assert_not_read(DISTINCT.trim_end().as_bytes(), 70, 15);
}

#[test]
fn cut_off_anywhere() {
    for end in 0..DISTINCT.len() {
        let cut = &DISTINCT[..end];
        assert_not_read(cut.as_bytes(), 70, cut.matches('\n').count() as u32 + 1);
    }
}

#[test]
fn text_past_the_sheet_is_a_fault_at_line_16() {
    for past in ["\n", "\r\n", " ", "\0", "x", "nnp=0\n", "end\n", "ruid=1000\n", LAUNCH, SHEET, "c", "call=1\n"] {
        assert_not_read(format!("{SHEET}{past}").as_bytes(), 70, 16);
        assert_not_read(format!("{DISTINCT}{past}").as_bytes(), 70, 16);
    }
    let mut text = SHEET.as_bytes().to_vec();
    text.resize(1 << 20, b'\n');
    assert_not_read(&text, 70, 16);
}

#[test]
fn every_line_wrong_in_every_plain_way() {
    for (index, line) in SHEET.lines().enumerate() {
        let number = index + 1;
        let (key, value) = line.split_once('=').unwrap();
        let upper = key.to_uppercase();
        for wrong in [
            "\n".to_string(),
            format!("\n{line}\n"),
            format!("{line}\r\n"),
            format!(" {line}\n"),
            format!("{line} \n"),
            format!("{line}\0\n"),
            format!("{key}\n"),
            format!("{key}=\n"),
            format!("{key}:{value}\n"),
            format!("{key}=={value}\n"),
            format!("{key} ={value}\n"),
            format!("{key}= {value}\n"),
            format!("{key}=+{value}\n"),
            format!("{key}=-{value}\n"),
            format!("{key}=0{value}\n"),
            format!("{key}=0x{value}\n"),
            format!("{key}={value}g\n"),
            format!("{upper}={value}\n"),
            format!("x{line}\n"),
            format!("{key}={}\n", "0".repeat(50)),
            "other=0\n".to_string(),
        ] {
            assert_not_read(with_line(number, &wrong).as_bytes(), 70, number as u32);
        }
    }
}

#[test]
fn upper_case_digits_are_a_fault() {
    assert_not_read(with_line(9, "permitted=000000000000A000\n").as_bytes(), 70, 9);
    assert_not_read(with_line(12, "bounding=000001FFFFFFFFFF\n").as_bytes(), 70, 12);
    assert_not_read(with_line(14, "securebits=EF\n").as_bytes(), 70, 14);
}

#[test]
fn carriage_returns_and_broken_encodings() {
    assert_not_read(SHEET.replace('\n', "\r\n").as_bytes(), 70, 1);
    assert_not_read(b"ruid=1000\neuid=\xff\xfe\n", 70, 2);
    assert_not_read(b"\xef\xbb\xbfruid=1000\n", 70, 1);
    assert_not_read(&vec![0; 1 << 20], 70, 1);
}

#[test]
fn ids_read() {
    for (index, key) in ID_KEYS.into_iter().enumerate() {
        let number = index + 1;
        assert_reads(&with_line(number, &format!("{key}=0\n")), values_with(index, 0));
        assert_reads(&with_line(number, &format!("{key}=4294967294\n")), values_with(index, 4_294_967_294));
        assert_not_read(with_line(number, &format!("{key}=4294967295\n")).as_bytes(), 72, 0);
        for wrong in ["4294967296", "4294968296", "10000000000", "18446744073709551615", "18446744073709551616", "a"] {
            assert_not_read(with_line(number, &format!("{key}={wrong}\n")).as_bytes(), 70, number as u32);
        }
    }
}

#[test]
fn ids_written() {
    for (index, key) in ID_KEYS.into_iter().enumerate() {
        assert_writes(values_with(index, 0), &with_line(index + 1, &format!("{key}=0\n")), 233);
        let most = with_line(index + 1, &format!("{key}=4294967294\n"));
        assert_writes(values_with(index, 4_294_967_294), &most, 242);
        for wrong in [4_294_967_295, 4_294_967_296, 4_294_968_296, 1 << 63, u64::MAX] {
            assert_not_written(&values_with(index, wrong));
        }
    }
}

#[test]
fn effective_is_within_permitted() {
    assert_sets_valid([0x2400, 0, 0x2400, 0, 0]);
    assert_sets_valid([0x2400, 0, 0x0400, 0, 0]);
    assert_sets_not_valid([0x2400, 0, 0x2401, 0, 0]);
    assert_sets_not_valid([0, FULL, 0x2000, FULL, 0]);
    for capability in 0..=40 {
        assert_sets_valid([1 << capability, 0, 1 << capability, 0, 0]);
        assert_sets_not_valid([FULL ^ 1 << capability, FULL, 1 << capability, FULL, 0]);
    }
}

#[test]
fn ambient_is_within_permitted() {
    assert_sets_valid([0x2400, FULL, 0, 0, 0x2400]);
    assert_sets_valid([0x2400, FULL, 0, 0, 0x2000]);
    assert_sets_not_valid([0x2400, FULL, 0, FULL, 0x2401]);
    for capability in 0..=40 {
        assert_sets_not_valid([FULL ^ 1 << capability, FULL, 0, FULL, 1 << capability]);
    }
}

#[test]
fn ambient_is_within_inheritable() {
    assert_sets_valid([FULL, 0x2400, 0, 0, 0x2400]);
    assert_sets_valid([FULL, 0x2400, 0, 0, 0x0400]);
    assert_sets_not_valid([FULL, 0x2400, 0, FULL, 0x2401]);
    for capability in 0..=40 {
        assert_sets_not_valid([FULL, FULL ^ 1 << capability, FULL, FULL, 1 << capability]);
    }
}

#[test]
fn inheritable_and_permitted_need_not_be_within_bounding_or_each_other() {
    assert_sets_valid([0x2000, 0, 0, 0, 0]);
    assert_sets_valid([0, 0x2000, 0, 0, 0]);
    assert_sets_valid([0x2000, 0x0400, 0x2000, 0x1000, 0]);
    assert_sets_valid([0x2000, 0x2000, 0, 0, 0x2000]);
}

#[test]
fn bit_40_is_valid_in_every_set_and_41_in_none() {
    let bit = 1 << 40;
    assert_sets_valid([bit, 0, 0, 0, 0]);
    assert_sets_valid([0, bit, 0, 0, 0]);
    assert_sets_valid([bit, 0, bit, 0, 0]);
    assert_sets_valid([0, 0, 0, bit, 0]);
    assert_sets_valid([bit, bit, 0, 0, bit]);
    for place in 41..64 {
        let bit = 1 << place;
        assert_sets_not_valid([bit, 0, 0, 0, 0]);
        assert_sets_not_valid([0, bit, 0, 0, 0]);
        assert_sets_not_valid([bit, 0, bit, 0, 0]);
        assert_sets_not_valid([0, 0, bit, 0, 0]);
        assert_sets_not_valid([0, 0, 0, bit, 0]);
        assert_sets_not_valid([bit, bit, 0, 0, bit]);
        assert_sets_not_valid([0, 0, 0, 0, bit]);
    }
    for place in [PERMITTED, INHERITABLE, EFFECTIVE, BOUNDING, AMBIENT] {
        assert_not_written(&values_with(place, u64::MAX));
    }
}

#[test]
fn securebits_go_to_255() {
    for (value, digits) in [(0, "00"), (1, "01"), (16, "10"), (170, "aa"), (255, "ff")] {
        let text = with_line(14, &format!("securebits={digits}\n"));
        assert_reads(&text, values_with(SECUREBITS, value));
        assert_writes(values_with(SECUREBITS, value), &text, 236);
    }
    for wrong in ["", "0", "000", "100", "0F", "+0", "0x"] {
        assert_not_read(with_line(14, &format!("securebits={wrong}\n")).as_bytes(), 70, 14);
    }
    for wrong in [256, 272, 511, 1 << 32, u64::MAX] {
        assert_not_written(&values_with(SECUREBITS, wrong));
    }
}

#[test]
fn no_new_privs_is_0_or_1() {
    assert_reads(&with_line(15, "nnp=1\n"), values_with(NNP, 1));
    assert_writes(values_with(NNP, 1), &with_line(15, "nnp=1\n"), 236);
    for wrong in ["", "2", "00", "01", "10", "true", "-"] {
        assert_not_read(with_line(15, &format!("nnp={wrong}\n")).as_bytes(), 70, 15);
    }
    for wrong in [2, 3, 256, 257, 1 << 32, (1 << 32) + 1, u64::MAX] {
        assert_not_written(&values_with(NNP, wrong));
    }
}

#[test]
fn only_fifteen_values_are_written() {
    for count in (0..=40).filter(|&count| count != 15) {
        assert_not_written(&vec![0; count]);
    }
    assert_not_written(&VALUES[..14]);
    let mut sixteen = VALUES.to_vec();
    sixteen.push(0);
    assert_not_written(&sixteen);
    let without_groups = [&VALUES[..4], &VALUES[PERMITTED..]].concat();
    assert_not_written(&without_groups);
}

#[test]
fn malformed_comes_before_not_valid() {
    // Line 1 is right and not valid; what is wrong stands further down.
    let not_valid = with_line(1, "ruid=4294967295\n");
    assert_not_read(not_valid.as_bytes(), 72, 0);
    assert_not_read(not_valid.replace("nnp=0\n", "").as_bytes(), 70, 15);
    assert_not_read(not_valid.replace("nnp=0\n", "nnp=2\n").as_bytes(), 70, 15);
    assert_not_read(not_valid.replace("securebits=00", "securebits=0").as_bytes(), 70, 14);
    assert_not_read(not_valid.trim_end().as_bytes(), 70, 15);
    assert_not_read(format!("{not_valid}\n").as_bytes(), 70, 16);
    assert_not_read(format!("{not_valid}{LAUNCH}").as_bytes(), 70, 16);
}

#[test]
fn not_valid_comes_before_no_room() {
    let mut values = [UNTOUCHED; 14];
    let not_valid = with_line(11, "effective=0000000000000001\n");
    assert_eq!(read_sheet(not_valid.as_bytes(), &mut values), Written { code: 72, number: 0 });
    assert_eq!(read_sheet(not_valid.as_bytes(), &mut []), Written { code: 72, number: 0 });
    assert_eq!(read_sheet(SHEET.as_bytes(), &mut values), Written { code: 28, number: 0 });
    assert_eq!(values, [UNTOUCHED; 14]);

    let mut buffer = [0xa5; 235];
    assert_eq!(write_sheet(&values_with(EFFECTIVE, 1), &mut buffer), Written { code: 72, number: 0 });
    assert_eq!(write_sheet(&values_with(NNP, 2), &mut buffer), Written { code: 72, number: 0 });
    assert_eq!(write_sheet(&VALUES[..14], &mut []), Written { code: 72, number: 0 });
    assert_eq!(write_sheet(&VALUES, &mut buffer), Written { code: 28, number: 0 });
    assert_eq!(write_sheet(&VALUES, &mut []), Written { code: 28, number: 0 });
    assert_eq!(buffer, [0xa5; 235]);
}

#[test]
fn malformed_comes_before_no_room() {
    assert_eq!(read_sheet(b"", &mut []), Written { code: 70, number: 1 });
    assert_eq!(read_sheet(format!("{SHEET}x").as_bytes(), &mut [UNTOUCHED; 14]), Written { code: 70, number: 16 });
}

#[test]
fn written_then_read_gives_back_and_read_then_written_too() {
    for (text, values) in [(SHEET, VALUES), (DISTINCT, DISTINCT_VALUES)] {
        let (_, written) = write(&values);
        assert_eq!(read(written.as_bytes()).1, values);
        let (_, numbers) = read(text.as_bytes());
        assert_eq!(write(&numbers).1, text);
    }
}
