//! A captured status beside a sheet: the refusals, the order among them, and the lent buffer.

use crate::helpers::*;
use second::{compare_status, Written};

/// A status at fault in its line 3.
const FAULTY: &str = "Name:\tx\n\nUid:\t1000\n";

/// The answers that are about the sheet and about the buffer.
const MALFORMED: Written = Written { code: 70, number: 0 };
const NOT_VALID: Written = Written { code: 72, number: 0 };
const NO_ROOM: Written = Written { code: 28, number: 0 };

/// Lists of different lengths: the last line alone, one line more, and all ten keys, which makes 372 bytes.
fn lists() -> [(String, String); 3] {
    let longest_sheet = SHEET.replace("uid=1000", "uid=4294967294");
    let longest_status = "\
Uid:\t4294967295\t4294967295\t4294967295\t4294967295
CapInh:\t0000000000000000
CapPrm:\t0000000000000000
CapEff:\t0000000000000000
CapBnd:\t0000000000000000
CapAmb:\t0000000000000000
NoNewPrivs:\t1
";
    let longest = "\
ruid 4294967294 4294967295
euid 4294967294 4294967295
suid 4294967294 4294967295
fsuid 4294967294 4294967295
permitted 0000000000002000 0000000000000000
inheritable 0000000000002000 0000000000000000
effective 0000000000002000 0000000000000000
bounding 000001ffffffffff 0000000000000000
ambient 0000000000002000 0000000000000000
nnp 0 1
not compared: securebits, group IDs
";
    assert_lists(longest_status, &longest_sheet, longest);
    assert_eq!(longest.len(), 372);
    let one_more = STATUS.replace("NoNewPrivs:\t0", "NoNewPrivs:\t1");
    assert_lists(&one_more, SHEET, "nnp 0 1\nnot compared: securebits, group IDs\n");
    assert_agrees(STATUS);
    [
        (STATUS.to_string(), SHEET.to_string()),
        (one_more, SHEET.to_string()),
        (longest_status.to_string(), longest_sheet),
    ]
}

/// Case 2's sheet with its line `number` put in other words.
fn sheet_with_line(number: usize, new: &str) -> String {
    let mut lines: Vec<&str> = SHEET.split_inclusive('\n').collect();
    lines[number - 1] = new;
    lines.concat()
}

/// The comparison is refused so, whatever the length of the buffer, which stays as it was.
fn assert_refused_at_any_length(status: &str, sheet: &str, expected: Written) {
    for length in [0, 1, 35, 36, 37, 371, 372, 373] {
        let mut buffer = vec![0xa5; length];
        let written = compare_status(status.as_bytes(), sheet.as_bytes(), &mut buffer);
        assert_eq!(written, expected, "{length} bytes, {status:?} beside {sheet:?}");
        assert!(buffer.iter().all(|&byte| byte == 0xa5));
    }
}

#[test]
fn buffers_of_every_length() {
    for ((status, sheet), needed) in lists().into_iter().zip([36, 44, 372]) {
        let (_, list) = compare(status.as_bytes(), sheet.as_bytes());
        for length in 0..=needed + 1 {
            let mut buffer = vec![0xa5; length];
            let written = compare_status(status.as_bytes(), sheet.as_bytes(), &mut buffer);
            if length < needed {
                assert_eq!(written, NO_ROOM, "{length} bytes");
                assert!(buffer.iter().all(|&byte| byte == 0xa5));
            } else {
                assert_eq!(written, Written { code: 0, number: needed as u32 }, "{length} bytes");
                assert_eq!(&buffer[..needed], list.as_bytes());
                assert!(buffer[needed..].iter().all(|&byte| byte == 0xa5));
            }
        }
    }
}

#[test]
fn a_longer_buffer_keeps_what_it_holds_past_the_list() {
    for ((status, sheet), needed) in lists().into_iter().zip([36, 44, 372]) {
        for more in [2, 100, 10_000] {
            let before: Vec<u8> = (0..needed + more).map(|place| (place % 251) as u8).collect();
            let mut buffer = before.clone();
            let written = compare_status(status.as_bytes(), sheet.as_bytes(), &mut buffer);
            assert_eq!(written, Written { code: 0, number: needed as u32 });
            assert_eq!(buffer[needed..], before[needed..]);
        }
    }
}

#[test]
fn a_malformed_sheet_gives_70_and_0() {
    for number in 1..=15 {
        assert_refused_at_any_length(STATUS, &sheet_with_line(number, ""), MALFORMED);
        assert_refused_at_any_length(STATUS, &sheet_with_line(number, "x\n"), MALFORMED);
        assert_refused_at_any_length(STATUS, &sheet_with_line(number, "\n"), MALFORMED);
    }
    for end in 0..SHEET.len() {
        let written = compare(STATUS.as_bytes(), &SHEET.as_bytes()[..end]).0;
        assert_eq!(written, MALFORMED, "{end}");
    }
    for past in ["\n", " ", "\0", "x", "nnp=0\n", LAUNCH, SHEET] {
        assert_refused_at_any_length(STATUS, &format!("{SHEET}{past}"), MALFORMED);
    }
    // A sheet's last newline may not be missing, nor does a status pass for one, nor the sheet without group IDs.
    assert_refused_at_any_length(STATUS, SHEET.trim_end(), MALFORMED);
    assert_refused_at_any_length(STATUS, STATUS, MALFORMED);
    let without_groups: String = SHEET.split_inclusive('\n').filter(|line| !line.contains("gid")).collect();
    assert_refused_at_any_length(STATUS, &without_groups, MALFORMED);
}

#[test]
fn predicted_credentials_that_are_not_valid_give_72() {
    let ids = ["ruid", "euid", "suid", "fsuid", "rgid", "egid", "sgid", "fsgid"];
    for (index, key) in ids.into_iter().enumerate() {
        let sheet = sheet_with_line(index + 1, &format!("{key}=4294967295\n"));
        assert_refused_at_any_length(STATUS, &sheet, NOT_VALID);
    }
    for (number, line) in [
        // A bit above 40, in each set.
        (9, "permitted=0000020000002000\n"),
        (10, "inheritable=0000020000002000\n"),
        (11, "effective=0000020000002000\n"),
        (12, "bounding=000003ffffffffff\n"),
        (13, "ambient=8000000000002000\n"),
        // Effective or ambient outside permitted, ambient outside inheritable.
        (9, "permitted=0000000000000000\n"),
        (10, "inheritable=0000000000000000\n"),
        (11, "effective=0000000000000001\n"),
        (13, "ambient=0000000000000001\n"),
    ] {
        assert_refused_at_any_length(STATUS, &sheet_with_line(number, line), NOT_VALID);
    }
}

#[test]
fn what_agrees_is_refused_too_where_the_prediction_is_not_valid() {
    let status = status_with_line(1, "Uid:\t4294967295\t1000\t1000\t1000\n");
    let sheet = sheet_with_line(1, "ruid=4294967295\n");
    assert_refused_at_any_length(&status, &sheet, NOT_VALID);
    let status = status_with_line(5, "CapBnd:\tffffffffffffffff\n");
    let sheet = sheet_with_line(12, "bounding=ffffffffffffffff\n");
    assert_refused_at_any_length(&status, &sheet, NOT_VALID);
}

#[test]
fn the_order_of_refusals_in_every_pair() {
    let not_valid = sheet_with_line(1, "ruid=4294967295\n");
    let both = not_valid.replace("nnp=0", "nnp=2");
    let fault = Written { code: 70, number: 3 };
    for (status, sheet, length, expected) in [
        // Each alone.
        (FAULTY, SHEET, 400, fault),
        (STATUS, "", 400, MALFORMED),
        (STATUS, &not_valid, 400, NOT_VALID),
        (STATUS, SHEET, 35, NO_ROOM),
        // The status first, then the sheet's text.
        (FAULTY, "", 400, fault),
        (FAULTY, &not_valid, 400, fault),
        (FAULTY, SHEET, 35, fault),
        (STATUS, &both, 400, MALFORMED),
        (STATUS, "", 35, MALFORMED),
        (STATUS, &not_valid, 35, NOT_VALID),
        // Three and four.
        (FAULTY, &both, 400, fault),
        (FAULTY, "", 35, fault),
        (FAULTY, &not_valid, 35, fault),
        (STATUS, &both, 35, MALFORMED),
        (FAULTY, &both, 35, fault),
        (FAULTY, &both, 0, fault),
    ] {
        let mut buffer = vec![0xa5; length];
        let written = compare_status(status.as_bytes(), sheet.as_bytes(), &mut buffer);
        assert_eq!(written, expected, "{length} bytes, {status:?} beside {sheet:?}");
        assert!(buffer.iter().all(|&byte| byte == 0xa5));
    }
}

#[test]
fn a_fault_after_the_seven_lines_comes_before_the_sheet_too() {
    let status = format!("{STATUS}x\nUid:\n");
    for sheet in ["", SHEET, &sheet_with_line(1, "ruid=4294967295\n")] {
        assert_refused_at_any_length(&status, sheet, Written { code: 70, number: 9 });
    }
}

#[test]
fn nothing_at_all() {
    assert_eq!(compare_status(b"", b"", &mut []), Written { code: 70, number: 1 });
    assert_eq!(compare_status(b"\n", b"", &mut []), Written { code: 70, number: 2 });
    assert_eq!(compare_status(STATUS.as_bytes(), b"", &mut []), MALFORMED);
    assert_eq!(compare_status(STATUS.as_bytes(), SHEET.as_bytes(), &mut []), NO_ROOM);
}
