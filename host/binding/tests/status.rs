//! Status files beside predicted sheets: the number that comes back and every byte of the list's buffer, typed in from the paper.

mod lent;

use lent::{in_front, pattern};
use urrezkalu::{compare_status, differences, interface, StatusComparison, LONGEST_LIST};

const NO_ROOM: u64 = 28 << 32;
const MALFORMED: u64 = 70 << 32;
const INVALID: u64 = 72 << 32;

/// The line that every list ends with.
const LAST: &str = "not compared: securebits, group IDs\n";

/// The seven lines, all values different, so that no two can be exchanged unseen; and the sheet of the same credentials.
const LINES: [&str; 7] = [
    "Uid:\t2\t20\t30000\t4294967294\n",
    "CapInh:\t0000010f0000003e\n",
    "CapPrm:\t000001f0000000ff\n",
    "CapEff:\t00000090000000c3\n",
    "CapBnd:\t0000012345678900\n",
    "CapAmb:\t000001000000003c\n",
    "NoNewPrivs:\t1\n",
];
const SHEET: &str = "ruid=2\neuid=20\nsuid=30000\nfsuid=4294967294\nrgid=3\negid=40\nsgid=50000\nfsgid=4294967293\n\
    permitted=000001f0000000ff\ninheritable=0000010f0000003e\neffective=00000090000000c3\n\
    bounding=0000012345678900\nambient=000001000000003c\nsecurebits=ac\nnnp=1\n";

/// One value of the status file is another: the place of its line, what stands for the value, what is found instead, and the list's line.
const DIFFERING: [(usize, &str, &str, &str); 10] = [
    (0, "\t2\t", "\t4294967295\t", "ruid 2 4294967295\n"),
    (0, "\t20\t", "\t0\t", "euid 20 0\n"),
    (0, "\t30000\t", "\t2\t", "suid 30000 2\n"),
    (0, "\t4294967294\n", "\t1\n", "fsuid 4294967294 1\n"),
    (2, "000001f0000000ff", "0000000000000000", "permitted 000001f0000000ff 0000000000000000\n"),
    (1, "0000010f0000003e", "ffffffffffffffff", "inheritable 0000010f0000003e ffffffffffffffff\n"),
    (3, "00000090000000c3", "00000090000000c2", "effective 00000090000000c3 00000090000000c2\n"),
    (4, "0000012345678900", "0000032345678900", "bounding 0000012345678900 0000032345678900\n"),
    (5, "000001000000003c", "000001000000003d", "ambient 000001000000003c 000001000000003d\n"),
    (6, "\t1\n", "\t0\n", "nnp 1 0\n"),
];

/// The seven lines with those values changed whose bit is set in `choice`.
fn changed(choice: u32) -> [String; 7] {
    let mut lines = LINES.map(str::to_owned);
    for (at, (line, value, found, _)) in DIFFERING.into_iter().enumerate() {
        if choice >> at & 1 == 1 {
            lines[line] = lines[line].replacen(value, found, 1);
        }
    }
    lines
}

/// The list for these changes.
fn list(choice: u32) -> String {
    let differing = DIFFERING.into_iter().enumerate().filter(|(at, _)| choice >> at & 1 == 1);
    differing.map(|(_, (.., line))| line).chain([LAST]).collect()
}

/// Checks that the texts come to this number, and that the first of `room` bytes are then these and the others as they were.
fn comes_to(status: &[u8], sheet: &[u8], room: usize, number: u64, expected: &[u8]) {
    let mut list = pattern(room);
    let shown = status[..status.len().min(400)].escape_ascii();
    assert_eq!(interface::compare_status(status, sheet, &mut list), number, "{shown} with room for {room} bytes");
    assert_eq!(list, in_front(expected, &pattern(room)), "{shown} with room for {room} bytes");
}

/// Checks that the status file gives this list beside `SHEET`.
fn lists(status: &[u8], expected: &str) {
    comes_to(status, SHEET.as_bytes(), LONGEST_LIST + 3, expected.len() as u64, expected.as_bytes());
}

/// Checks that the status file is malformed at this line, whatever the sheet and the room.
fn malformed(status: &[u8], line: u32) {
    for sheet in [SHEET, "", INVALID_SHEET] {
        for room in [0, 35, 36, LONGEST_LIST] {
            comes_to(status, sheet.as_bytes(), room, MALFORMED + u64::from(line), &[]);
        }
        let mut list = pattern(LONGEST_LIST);
        let answer = compare_status(status, sheet.as_bytes(), &mut list);
        assert_eq!(answer, StatusComparison::MalformedStatus { line });
    }
}

/// A well-formed sheet whose effective set is not within the permitted one.
const INVALID_SHEET: &str =
    "ruid=2\neuid=20\nsuid=30000\nfsuid=4294967294\nrgid=3\negid=40\nsgid=50000\nfsgid=4294967293\n\
    permitted=0000000000000000\ninheritable=0000010f0000003e\neffective=00000090000000c3\n\
    bounding=0000012345678900\nambient=0000000000000000\nsecurebits=ac\nnnp=1\n";

#[test]
fn every_choice_of_differing_keys() {
    for choice in 0..1 << DIFFERING.len() {
        let (status, expected) = (changed(choice).concat(), list(choice));
        lists(status.as_bytes(), &expected);
        let mut found = [0; LONGEST_LIST];
        let answer = compare_status(status.as_bytes(), SHEET.as_bytes(), &mut found);
        assert_eq!(answer, StatusComparison::Listed { length: expected.len() });
        let mut taken_apart = differences(&found[..expected.len()]);
        assert_eq!(taken_apart.by_ref().count(), choice.count_ones() as usize);
        assert_eq!(taken_apart.rest(), LAST.as_bytes());
    }
}

#[test]
fn the_longest_list() {
    let status = "Uid:\t4294967295\t4294967295\t4294967295\t4294967295\n\
        CapInh:\tffffffffffffffff\nCapPrm:\tffffffffffffffff\nCapEff:\tffffffffffffffff\n\
        CapBnd:\tffffffffffffffff\nCapAmb:\tffffffffffffffff\nNoNewPrivs:\t1";
    let sheet =
        "ruid=4294967294\neuid=4294967293\nsuid=4294967292\nfsuid=4294967291\nrgid=0\negid=0\nsgid=0\nfsgid=0\n\
        permitted=000001ffffffffff\ninheritable=00000000000000ff\neffective=000000000000ffff\n\
        bounding=0000000000ffffff\nambient=000000000000000f\nsecurebits=00\nnnp=0\n";
    let list = "ruid 4294967294 4294967295\neuid 4294967293 4294967295\nsuid 4294967292 4294967295\n\
        fsuid 4294967291 4294967295\npermitted 000001ffffffffff ffffffffffffffff\n\
        inheritable 00000000000000ff ffffffffffffffff\neffective 000000000000ffff ffffffffffffffff\n\
        bounding 0000000000ffffff ffffffffffffffff\nambient 000000000000000f ffffffffffffffff\nnnp 0 1\n\
        not compared: securebits, group IDs\n";
    assert_eq!(list.len(), LONGEST_LIST);
    for room in 0..LONGEST_LIST {
        comes_to(status.as_bytes(), sheet.as_bytes(), room, NO_ROOM, &[]);
    }
    for room in LONGEST_LIST..LONGEST_LIST + 64 {
        comes_to(status.as_bytes(), sheet.as_bytes(), room, 372, list.as_bytes());
    }
}

#[test]
fn every_room_for_the_last_line_alone() {
    let status = LINES.concat();
    for room in 0..36 {
        comes_to(status.as_bytes(), SHEET.as_bytes(), room, NO_ROOM, &[]);
        let mut list = pattern(room);
        let answer = compare_status(status.as_bytes(), SHEET.as_bytes(), &mut list);
        assert_eq!((answer, list), (StatusComparison::NoRoom, pattern(room)));
    }
    for room in 36..100 {
        comes_to(status.as_bytes(), SHEET.as_bytes(), room, 36, LAST.as_bytes());
    }
}

/// Lines that are passed over, whatever stands before and after them.
const PASSED_OVER: [&[u8]; 22] = [
    b"",
    b"x",
    b"Uid",
    b" Uid:\t0\t0\t0\t0",
    b"\tUid:\t0\t0\t0\t0",
    b"uid:\t0\t0\t0\t0",
    b"UID:\t0\t0\t0\t0",
    b"Uid :\t0\t0\t0\t0",
    b"Uid\t0\t0\t0\t0",
    b"Gid:\t7\t7\t7\t7",
    b"CapInhX:\t0000000000000000",
    b"CapInh",
    b"XCapInh:\t0000000000000000",
    b"CapPr:\t0000000000000000",
    b"capeff:\t0000000000000000",
    b"NoNewPriv:\t0",
    b"NoNewPrivs;\t0",
    b"Name:\tUid:",
    b"Groups:\t ",
    b"\r",
    b"\0Uid:\t0\t0\t0\t0",
    b"\xff\xfe\x80\x00\x01",
];

#[test]
fn other_lines_are_passed_over() {
    let other = [PASSED_OVER.join(&b'\n'), b"\n".to_vec()].concat();
    for choice in [0, 1, 0x3ff, 0x155] {
        let lines = changed(choice);
        // Before the first, between any two, after the last; and everywhere.
        for place in 0..=LINES.len() {
            let (before, after) = (lines[..place].concat(), lines[place..].concat());
            lists(&[before.as_bytes(), &other, after.as_bytes()].concat(), &list(choice));
        }
        let mut everywhere = other.clone();
        for line in &lines {
            everywhere.extend([line.as_bytes(), &other].concat());
        }
        lists(&everywhere, &list(choice));
    }
}

#[test]
fn the_last_newline_may_be_missing() {
    let status = LINES.concat();
    lists(&status.as_bytes()[..status.len() - 1], LAST);
    lists([&status, "Seccomp:\t0"].concat().as_bytes(), LAST);
}

/// What cannot stand for a line's value or values, behind its colon.
const NO_IDS: [&str; 22] = [
    "",
    "\t2\t20\t30000",
    "\t2\t20\t30000\t",
    "\t2\t20\t30000\t4294967294\t",
    "\t2\t20\t30000\t4294967294\t1",
    "\t2\t20\t30000\t4294967294 ",
    "\t2\t20\t30000\t4294967294\r",
    "\t2\t20\t30000\t4294967296",
    "\t4294967296\t20\t30000\t4",
    "\t18446744073709551618\t20\t30000\t4",
    "\t02\t20\t30000\t4",
    "\t2\t00\t30000\t4",
    "\t2\t20\t30000\t+4",
    "\t2\t-20\t30000\t4",
    "\t2\t0x20\t30000\t4",
    "\t2\t2a\t30000\t4",
    " 2\t20\t30000\t4",
    "2\t20\t30000\t4",
    "\t 2\t20\t30000\t4",
    "\t\t2\t20\t30000\t4",
    "\t2\t20\t\t30000\t4",
    "\t2 20 30000 4",
];
const NO_SET: [&str; 14] = [
    "",
    "\t",
    "\t0",
    "\t000000000000000",
    "\t00000000000000000",
    "\t0000000000000000\t",
    "\t0000000000000000\t0000000000000000",
    "\t0000000000000000 ",
    "\t0000000000000000\r",
    " 0000000000000000",
    "0000000000000000",
    "\t\t0000000000000000",
    "\t000000000000000A",
    "\t0x00000000000000",
];
const NO_FLAG: [&str; 10] = ["", "\t", "\t2", "\t00", "\t01", "\t1\t", "\t1\t0", "\t1\r", " 1", "\t\u{661}"];

#[test]
fn a_wanted_line_has_its_form() {
    for (place, line) in LINES.into_iter().enumerate() {
        let (name, _) = line.split_once(':').expect("a wanted line has a colon");
        let broken: &[&str] = match place {
            0 => &NO_IDS,
            6 => &NO_FLAG,
            _ => &NO_SET,
        };
        for values in broken {
            let mut lines = LINES.map(str::to_owned);
            lines[place] = format!("{name}:{values}\n");
            malformed(lines.concat().as_bytes(), place as u32 + 1);
            // Three lines more before it count, though they are passed over.
            malformed(["x\n\nGid:\n", &lines.concat()].concat().as_bytes(), place as u32 + 4);
        }
    }
}

#[test]
fn a_line_that_is_missing_comes_again_or_comes_too_early() {
    for place in 0..LINES.len() {
        // The next is not the one due; where the last is missing, one is still due at the end.
        let without = [&LINES[..place], &LINES[place + 1..]].concat().concat();
        malformed(without.as_bytes(), place as u32 + 1);
        for after in place..LINES.len() {
            let mut again = LINES.to_vec();
            again.insert(after + 1, LINES[place]);
            malformed(again.concat().as_bytes(), after as u32 + 2);
        }
        for early in 0..place {
            let mut exchanged = LINES;
            exchanged.swap(early, place);
            malformed(exchanged.concat().as_bytes(), early as u32 + 1);
        }
        // Also past all seven, and after lines that are passed over.
        malformed([&LINES.concat(), "x\n\n", LINES[place]].concat().as_bytes(), 10);
        let name = &LINES[place][..=LINES[place].find(':').expect("a wanted line has a colon")];
        malformed([&LINES.concat(), name].concat().as_bytes(), 8);
    }
}

#[test]
fn the_line_after_the_last() {
    for (status, line) in
        [("", 1), ("\n", 2), ("x", 2), ("x\n", 2), ("x\n\n", 3), ("x\ny", 3), ("Uid", 2), (LINES[0], 2), ("Uid:", 1)]
    {
        malformed(status.as_bytes(), line);
    }
    malformed(LINES[..6].concat().as_bytes(), 7);
    malformed([&LINES[..6].concat(), "x"].concat().as_bytes(), 8);
}

#[test]
fn the_first_fault_counts() {
    // CapPrm is broken, and before it CapInh comes twice; a line that is broken and too early is one fault, as is one that is broken and missing.
    let [uid, inheritable, ..] = LINES;
    malformed([uid, inheritable, inheritable, "CapPrm:\n"].concat().as_bytes(), 3);
    malformed([uid, "CapPrm:\n", inheritable].concat().as_bytes(), 2);
    malformed([uid, "CapInh:\n", uid, uid].concat().as_bytes(), 2);
}

// What is left of a line is a whole one, where only the newline or digits of the last ID are missing; part of one, from the colon on; or, before that, a
// line that is passed over.
#[test]
fn a_status_file_cut_anywhere() {
    let status = ["Name:\tx\n", &LINES.concat()].concat();
    for cut in 0..status.len() {
        let text = &status[..cut];
        let whole_lines = text.matches('\n').count();
        let tail = text.rsplit('\n').next().unwrap_or("");
        if tail == "NoNewPrivs:\t1" {
            lists(text.as_bytes(), LAST);
            continue;
        }
        let begun = status.split('\n').nth(whole_lines).expect("the line that is cut");
        let is_whole = tail == begun || tail.matches('\t').count() == 4 && !tail.ends_with('\t');
        let is_fault = tail.contains(':') && !tail.starts_with("Name") && !is_whole;
        let line = whole_lines + if tail.is_empty() || is_fault { 1 } else { 2 };
        malformed(text.as_bytes(), line as u32);
    }
}

#[test]
fn a_sheet_that_is_none_or_not_valid() {
    let status = LINES.concat();
    for room in [0, 35, 36, LONGEST_LIST] {
        comes_to(status.as_bytes(), INVALID_SHEET.as_bytes(), room, INVALID, &[]);
        for cut in 0..SHEET.len() {
            comes_to(status.as_bytes(), &SHEET.as_bytes()[..cut], room, MALFORMED, &[]);
        }
        comes_to(status.as_bytes(), [SHEET, "\n"].concat().as_bytes(), room, MALFORMED, &[]);
        // Malformed and not valid is malformed.
        comes_to(status.as_bytes(), [INVALID_SHEET, "\n"].concat().as_bytes(), room, MALFORMED, &[]);
        // The group IDs and securebits are not compared, and have to be there and valid.
        let no_group = SHEET.replace("sgid=50000", "sgid=4294967295");
        comes_to(status.as_bytes(), no_group.as_bytes(), room, INVALID, &[]);
        let no_securebits = SHEET.replace("securebits=ac\n", "");
        comes_to(status.as_bytes(), no_securebits.as_bytes(), room, MALFORMED, &[]);
    }
    let mut list = pattern(LONGEST_LIST);
    assert_eq!(compare_status(status.as_bytes(), b"", &mut list), StatusComparison::MalformedSheet);
    assert_eq!(compare_status(status.as_bytes(), INVALID_SHEET.as_bytes(), &mut list), StatusComparison::Invalid);
    assert_eq!(list, pattern(LONGEST_LIST));
}

#[test]
fn group_ids_and_securebits_do_not_count() {
    let other = SHEET.replace("rgid=3\negid=40\nsgid=50000\nfsgid=4294967293", "rgid=0\negid=1\nsgid=2\nfsgid=4");
    let other = other.replace("securebits=ac", "securebits=00");
    assert_ne!(other, SHEET);
    let status = ["Gid:\t9\t9\t9\t9\n", &LINES.concat()].concat();
    for sheet in [SHEET, &other] {
        comes_to(status.as_bytes(), sheet.as_bytes(), 36, 36, LAST.as_bytes());
    }
}

#[test]
fn empty_slices() {
    assert_eq!(compare_status(&[], &[], &mut []), StatusComparison::MalformedStatus { line: 1 });
    assert_eq!(compare_status(LINES.concat().as_bytes(), &[], &mut []), StatusComparison::MalformedSheet);
    assert_eq!(compare_status(LINES.concat().as_bytes(), SHEET.as_bytes(), &mut []), StatusComparison::NoRoom);
}

// A million lines before the first wanted one, and a line of a million bytes after it.
#[test]
fn a_status_file_has_no_greatest_length() {
    let lines = "\n".repeat(1_000_000);
    let line = "Uid ".repeat(250_000);
    let status = [&lines, LINES[0], &line, "\n", &LINES[1..].concat(), &line].concat();
    lists(status.as_bytes(), LAST);
    malformed([&status, "\nUid:"].concat().as_bytes(), 1_000_010);
    malformed([lines, line].concat().as_bytes(), 1_000_002);
}

#[test]
fn threads_do_not_disturb_each_other() {
    std::thread::scope(|threads| {
        for choice in [0, 1, 0x200, 0x3ff, 0x155, 0x2aa] {
            threads.spawn(move || {
                let (status, expected) = (changed(choice).concat(), list(choice));
                for _ in 0..200 {
                    lists(status.as_bytes(), &expected);
                }
            });
        }
    });
}
