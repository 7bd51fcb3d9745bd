//! Sheets by themselves: what the reader and the writer answer and every place of what they are lent, typed in from the paper.

mod lent;

use lent::{in_front, pattern, value_pattern};
use urrezkalu::{
    interface, read_sheet, write_sheet, Credentials, SheetReading, SheetWriting, LONGEST_SHEET, SHEET_VALUES,
};

const FULL: u64 = 0x1ff_ffff_ffff;

/// The greatest ID, of a user or of a group.
const LAST: u64 = 4_294_967_294;

/// The sheet of the paper's report of case 2.
const CASE_2: &str = "ruid=1000\neuid=1000\nsuid=1000\nfsuid=1000\nrgid=1000\negid=1000\nsgid=1000\nfsgid=1000\n\
    permitted=0000000000002000\ninheritable=0000000000002000\neffective=0000000000002000\n\
    bounding=000001ffffffffff\nambient=0000000000002000\nsecurebits=00\nnnp=0\n";
const CASE_2_VALUES: [u64; SHEET_VALUES] =
    [1000, 1000, 1000, 1000, 1000, 1000, 1000, 1000, 0x2000, 0x2000, 0x2000, FULL, 0x2000, 0, 0];

/// All different, so that no two lines can be exchanged unseen.
const MIXED: &str = "ruid=2\neuid=20\nsuid=30000\nfsuid=4294967294\nrgid=3\negid=40\nsgid=50000\nfsgid=4294967293\n\
    permitted=000001f0000000ff\ninheritable=0000010f0000003e\neffective=00000090000000c3\n\
    bounding=0000012345678900\nambient=000001000000003c\nsecurebits=ac\nnnp=1\n";
const MIXED_VALUES: [u64; SHEET_VALUES] = [
    2,
    20,
    30_000,
    4_294_967_294,
    3,
    40,
    50_000,
    4_294_967_293,
    0x1f0_0000_00ff,
    0x10f_0000_003e,
    0x090_0000_00c3,
    0x123_4567_8900,
    0x100_0000_003c,
    0xac,
    1,
];

/// No sheet is shorter.
const SHORTEST: &str = "ruid=0\neuid=0\nsuid=0\nfsuid=0\nrgid=0\negid=0\nsgid=0\nfsgid=0\n\
    permitted=0000000000000000\ninheritable=0000000000000000\neffective=0000000000000000\n\
    bounding=0000000000000000\nambient=0000000000000000\nsecurebits=00\nnnp=0\n";

/// No sheet is longer.
const LONGEST: &str = "ruid=4294967294\neuid=4294967294\nsuid=4294967294\nfsuid=4294967294\n\
    rgid=4294967294\negid=4294967294\nsgid=4294967294\nfsgid=4294967294\n\
    permitted=000001ffffffffff\ninheritable=000001ffffffffff\neffective=000001ffffffffff\n\
    bounding=000001ffffffffff\nambient=000001ffffffffff\nsecurebits=ff\nnnp=1\n";
const LONGEST_VALUES: [u64; SHEET_VALUES] =
    [LAST, LAST, LAST, LAST, LAST, LAST, LAST, LAST, FULL, FULL, FULL, FULL, FULL, 0xff, 1];

/// Sheets, with their values and lengths.
const SHEETS: [(&str, [u64; SHEET_VALUES], usize); 4] = [
    (CASE_2, CASE_2_VALUES, 236),
    (MIXED, MIXED_VALUES, 240),
    (SHORTEST, [0; SHEET_VALUES], 212),
    (LONGEST, LONGEST_VALUES, 284),
];

const NO_ROOM: u64 = 28 << 32;
const MALFORMED: u64 = 70 << 32;
const INVALID: u64 = 72 << 32;

fn credentials(values: [u64; SHEET_VALUES]) -> Credentials {
    Credentials {
        ruid: values[0],
        euid: values[1],
        suid: values[2],
        fsuid: values[3],
        rgid: values[4],
        egid: values[5],
        sgid: values[6],
        fsgid: values[7],
        permitted: values[8],
        inheritable: values[9],
        effective: values[10],
        bounding: values[11],
        ambient: values[12],
        securebits: values[13],
        nnp: values[14] == 1,
    }
}

/// Checks that the text comes to this number, and that the first of `count` values are then these and the others as they were.
fn reads(text: &[u8], count: usize, number: u64, expected: &[u64]) {
    let mut values = value_pattern(count);
    assert_eq!(interface::read_sheet(text, &mut values), number, "with {count} values");
    assert_eq!(values, in_front(expected, &value_pattern(count)), "with {count} values");
}

/// Checks that the values come to this number, and that the first of `room` bytes are then these and the others as they were.
fn writes(values: &[u64], room: usize, number: u64, expected: &[u8]) {
    let mut sheet = pattern(room);
    assert_eq!(interface::write_sheet(values, &mut sheet), number, "{values:x?} with room for {room} bytes");
    assert_eq!(sheet, in_front(expected, &pattern(room)), "{values:x?} with room for {room} bytes");
}

/// Checks that the values are not valid, by their number and whatever room there is.
fn invalid(values: &[u64]) {
    for room in [0, 211, LONGEST_SHEET, LONGEST_SHEET + 1] {
        writes(values, room, INVALID, &[]);
    }
}

#[test]
fn sheets_are_read_and_written() {
    for (text, values, length) in SHEETS {
        assert_eq!(text.len(), length);
        assert_eq!(read_sheet(text.as_bytes()), SheetReading::Sheet(credentials(values)));
        let mut sheet = pattern(LONGEST_SHEET);
        assert_eq!(write_sheet(&credentials(values), &mut sheet), SheetWriting::Written { length });
        assert_eq!(sheet, in_front(text.as_bytes(), &pattern(LONGEST_SHEET)));
    }
}

#[test]
fn every_count_of_values_to_read_into() {
    for (text, values, _) in SHEETS {
        for count in 0..SHEET_VALUES {
            reads(text.as_bytes(), count, NO_ROOM, &[]);
        }
        for count in SHEET_VALUES..SHEET_VALUES + 8 {
            reads(text.as_bytes(), count, 15, &values);
        }
    }
}

#[test]
fn every_room_to_write_into() {
    for (text, values, length) in SHEETS {
        for room in 0..length {
            writes(&values, room, NO_ROOM, &[]);
            let mut sheet = pattern(room);
            assert_eq!(write_sheet(&credentials(values), &mut sheet), SheetWriting::NoRoom);
            assert_eq!(sheet, pattern(room));
        }
        for room in length..length + 64 {
            writes(&values, room, length as u64, text.as_bytes());
        }
    }
}

#[test]
fn fifteen_values_and_no_other_count() {
    let values = [CASE_2_VALUES, CASE_2_VALUES].concat();
    for count in (0..SHEET_VALUES).chain(SHEET_VALUES + 1..values.len()) {
        invalid(&values[..count]);
    }
}

#[test]
fn a_sheet_cut_anywhere_is_malformed_at_the_line_of_the_cut() {
    for (text, ..) in SHEETS {
        for cut in 0..text.len() {
            let line = text[..cut].matches('\n').count() as u32 + 1;
            assert_eq!(read_sheet(&text.as_bytes()[..cut]), SheetReading::Malformed { line });
            reads(&text.as_bytes()[..cut], 17, MALFORMED + u64::from(line), &[]);
            reads(&text.as_bytes()[..cut], 0, MALFORMED + u64::from(line), &[]);
        }
    }
}

#[test]
fn text_past_the_sheet_is_a_fault_at_line_16() {
    let step = "call=8\na=0000000000000000\nb=0000000000000000\nc=0000000000000000\nattr=\n";
    for (text, ..) in SHEETS {
        for past in ["\n", "\0", " ", "x", "nnp=0\n", text, step] {
            let longer = [text, past].concat();
            assert_eq!(read_sheet(longer.as_bytes()), SheetReading::Malformed { line: 16 }, "{past:?}");
            reads(longer.as_bytes(), 17, MALFORMED + 16, &[]);
        }
    }
}

#[test]
fn what_stands_after_one_byte_too_many_decides_nothing() {
    let noise = "\n".repeat(1_000_000);
    let longest = [LONGEST, &noise].concat();
    let broken = [&LONGEST.replace("nnp=1", "nnp=2"), noise.as_str()].concat();
    for (text, line) in [(&longest, 16), (&broken, 15), (&noise, 1)] {
        assert_eq!(read_sheet(text.as_bytes()), SheetReading::Malformed { line });
        assert_eq!(read_sheet(&text.as_bytes()[..LONGEST_SHEET + 1]), SheetReading::Malformed { line });
    }
}

// One fault to a line, and the lines before it as they have to be.
#[test]
fn the_line_of_a_fault() {
    let faults = [
        ("ruid=1000", "ruid=01000", 1),
        ("ruid=1000", "ruid=4294967296", 1),
        ("euid=1000", "euid=", 2),
        ("suid=1000", "suid=1000 ", 3),
        ("fsuid=1000", "fsuid=-1000", 4),
        // A sheet without group IDs.
        ("rgid=1000\negid=1000\nsgid=1000\nfsgid=1000\n", "", 5),
        ("rgid=1000", "gid=1000", 5),
        ("rgid=1000\negid=1000", "egid=1000\nrgid=1000", 5),
        ("egid=1000", "egid=00", 6),
        ("sgid=1000", "sgid=4294967296", 7),
        ("sgid=1000\n", "", 7),
        ("fsgid=1000", "fsgid=0x3e8", 8),
        ("fsgid=1000", "fsuid=1000", 8),
        ("permitted=0000000000002000", "permitted=2000", 9),
        ("inheritable=0000000000002000", "inheritable=00000000000020000", 10),
        ("effective=0000000000002000", "Effective=0000000000002000", 11),
        ("bounding=000001ffffffffff", "bounding=000001FFFFFFFFFF", 12),
        ("ambient=0000000000002000", "ambient=000000000000200g", 13),
        ("securebits=00", "securebits=100", 14),
        ("securebits=00\n", "securebits=00\r\n", 14),
        ("nnp=0", "nnp=2", 15),
        ("nnp=0\n", "nnp=0\n\n", 16),
    ];
    for (good, broken, line) in faults {
        let text = CASE_2.replacen(good, broken, 1);
        assert_ne!(text, CASE_2);
        assert_eq!(read_sheet(text.as_bytes()), SheetReading::Malformed { line }, "{broken:?}");
    }
}

#[test]
fn credentials_that_are_not_valid() {
    let flaws = [
        ("ruid=1000", "ruid=4294967295", 0, 4_294_967_295),
        ("euid=1000", "euid=4294967295", 1, 4_294_967_295),
        ("suid=1000", "suid=4294967295", 2, 4_294_967_295),
        ("fsuid=1000", "fsuid=4294967295", 3, 4_294_967_295),
        ("rgid=1000", "rgid=4294967295", 4, 4_294_967_295),
        ("egid=1000", "egid=4294967295", 5, 4_294_967_295),
        ("sgid=1000", "sgid=4294967295", 6, 4_294_967_295),
        ("fsgid=1000", "fsgid=4294967295", 7, 4_294_967_295),
        ("permitted=0000000000002000", "permitted=0000020000002000", 8, 0x200_0000_2000),
        // Effective and ambient are no longer permitted.
        ("permitted=0000000000002000", "permitted=0000000000000000", 8, 0),
        ("inheritable=0000000000002000", "inheritable=8000000000002000", 9, 0x8000_0000_0000_2000),
        // Ambient is no longer inheritable.
        ("inheritable=0000000000002000", "inheritable=0000000000000000", 9, 0),
        ("effective=0000000000002000", "effective=0000000000002001", 10, 0x2001),
        ("bounding=000001ffffffffff", "bounding=000003ffffffffff", 11, 0x3ff_ffff_ffff),
        ("ambient=0000000000002000", "ambient=0000000000002001", 12, 0x2001),
    ];
    for (valid, flawed, place, value) in flaws {
        let text = CASE_2.replacen(valid, flawed, 1);
        assert_ne!(text, CASE_2);
        assert_eq!(read_sheet(text.as_bytes()), SheetReading::Invalid, "{flawed}");
        for count in [0, 14, 15, 17] {
            reads(text.as_bytes(), count, INVALID, &[]);
        }
        let mut values = CASE_2_VALUES;
        values[place] = value;
        invalid(&values);
        assert_eq!(write_sheet(&credentials(values), &mut []), SheetWriting::Invalid, "{flawed}");
    }
}

// Numbers that no line can have: they do not wrap.
#[test]
fn values_that_no_sheet_has() {
    let wrapping = [
        (0, 1 << 32),
        (3, (1 << 32) + 1000),
        (4, 1 << 32),
        (7, (1 << 32) + 1000),
        (13, 0x100),
        (13, 1 << 32),
        (14, 2),
        (14, 1 << 32),
    ];
    for (place, value) in wrapping {
        let mut values = CASE_2_VALUES;
        values[place] = value;
        invalid(&values);
    }
    for place in 0..SHEET_VALUES {
        let mut values = CASE_2_VALUES;
        values[place] = u64::MAX;
        invalid(&values);
    }
}

// Malformed, then invalid, then no room.
#[test]
fn the_first_reason_counts() {
    let invalid = CASE_2.replacen("ruid=1000", "ruid=4294967295", 1);
    let both = [&invalid, "\n"].concat();
    reads(both.as_bytes(), 0, MALFORMED + 16, &[]);
    reads(invalid.as_bytes(), 0, INVALID, &[]);
    reads(CASE_2.as_bytes(), 0, NO_ROOM, &[]);
    writes(&[], 0, INVALID, &[]);
    writes(&CASE_2_VALUES, 0, NO_ROOM, &[]);
}

#[test]
fn threads_do_not_disturb_each_other() {
    std::thread::scope(|threads| {
        for (text, values, length) in SHEETS {
            threads.spawn(move || {
                for _ in 0..200 {
                    reads(text.as_bytes(), 16, 15, &values);
                    writes(&values, length + 1, length as u64, text.as_bytes());
                }
            });
        }
    });
}
