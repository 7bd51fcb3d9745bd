//! Refusal 70: the line of each kind of broken text.

use crate::helpers::*;
use second::{run_plan, Outcome};

/// Case 2's sheet with two steps, the second with the quoted attribute: 25 lines.
fn plan() -> String {
    format!("{SHEET}{LAUNCH}{}", LAUNCH.replace("attr=", &format!("attr={QUOTED}")))
}

/// The plan with its line `number` put in other words.
fn with_line(number: usize, new: &str) -> String {
    let text = plan();
    let mut lines: Vec<&str> = text.split_inclusive('\n').collect();
    lines[number - 1] = new;
    lines.concat()
}

#[test]
fn empty_text_is_a_fault_at_line_1() {
    assert_malformed(b"", 1);
}

#[test]
fn the_whole_plan_is_right() {
    assert!(matches!(run(plan().as_bytes()).0, Outcome::Report { .. }));
}

#[test]
fn cut_off_anywhere() {
    let text = plan();
    for end in 0..text.len() {
        let cut = &text[..end];
        let complete = cut.matches('\n').count();
        if cut.ends_with('\n') && [15, 20].contains(&complete) {
            assert!(matches!(run(cut.as_bytes()).0, Outcome::Report { .. }));
        } else {
            assert_malformed(cut.as_bytes(), complete as u32 + 1);
        }
    }
}

#[test]
fn every_line_wrong_in_every_plain_way() {
    let text = plan();
    for (index, line) in text.lines().enumerate() {
        let number = index + 1;
        let (key, value) = line.split_once('=').unwrap();
        let upper = key.to_uppercase();
        for wrong in [
            "\n".to_string(),
            "\r\n".to_string(),
            format!("\n{line}\n"),
            format!("{line}\r\n"),
            format!(" {line}\n"),
            format!("{line} \n"),
            format!("{line}\0\n"),
            format!("\u{feff}{line}\n"),
            format!("{key}\n"),
            format!("{key}:{value}\n"),
            format!("{key}=={value}\n"),
            format!("{key} ={value}\n"),
            format!("{key}= {value}\n"),
            format!("{key}=+{value}\n"),
            format!("{key}=-{value}\n"),
            format!("{key}=0x{value}\n"),
            format!("{key}={value}g\n"),
            format!("{key}={value}\u{663}\n"),
            format!("{upper}={value}\n"),
            format!("x{line}\n"),
            format!("#\n{line}\n"),
            format!("{key}={}\n", "0".repeat(50)),
            format!("{key}={}\n", "0".repeat(100_000)),
            "other=0\n".to_string(),
        ] {
            assert_malformed(with_line(number, &wrong).as_bytes(), number as u32);
        }
    }
}

#[test]
fn a_doubled_line_is_a_fault_at_the_second() {
    let text = plan();
    for (index, line) in text.lines().enumerate() {
        assert_malformed(with_line(index + 1, &format!("{line}\n{line}\n")).as_bytes(), index as u32 + 2);
    }
}

#[test]
fn a_missing_line_is_a_fault_where_it_should_stand() {
    // Without the last line the text ends there, and that is a fault there as well.
    for number in 1..=25 {
        assert_malformed(with_line(number, "").as_bytes(), number as u32);
    }
}

#[test]
fn ids() {
    let user_ids = [(1, "ruid"), (2, "euid"), (3, "suid"), (4, "fsuid")];
    let group_ids = [(5, "rgid"), (6, "egid"), (7, "sgid"), (8, "fsgid")];
    for (number, key) in user_ids.into_iter().chain(group_ids) {
        for wrong in ["", "00", "01000", "4294967296", "10000000000", "18446744073709551616", "1e3", "3E8", "a"] {
            assert_malformed(with_line(number, &format!("{key}={wrong}\n")).as_bytes(), number as u32);
        }
        for right in ["0", "9", "4294967294"] {
            let outcome = run(with_line(number, &format!("{key}={right}\n")).as_bytes()).0;
            assert!(matches!(outcome, Outcome::Report { .. }));
        }
        let outcome = run(with_line(number, &format!("{key}=4294967295\n")).as_bytes()).0;
        assert_eq!(outcome, Outcome::Invalid);
    }
}

#[test]
fn sets_and_operands() {
    let keys = [(9, "permitted"), (10, "inheritable"), (11, "effective"), (12, "bounding"), (13, "ambient")];
    for (number, key) in keys.into_iter().chain([(17, "a"), (18, "b"), (19, "c"), (22, "a"), (23, "b"), (24, "c")]) {
        for wrong in ["", "0", "000000000000000", "00000000000000000", "000000000000000A", "000000000000000g"] {
            assert_malformed(with_line(number, &format!("{key}={wrong}\n")).as_bytes(), number as u32);
        }
    }
}

#[test]
fn securebits_and_no_new_privs() {
    for wrong in ["", "0", "000", "0F", "+0", "0x"] {
        assert_malformed(with_line(14, &format!("securebits={wrong}\n")).as_bytes(), 14);
    }
    for wrong in ["", "2", "00", "01", "true", "-"] {
        assert_malformed(with_line(15, &format!("nnp={wrong}\n")).as_bytes(), 15);
    }
    assert!(run(with_line(14, "securebits=ef\n").as_bytes()).1.contains("\nsecurebits=ef\n"));
    assert!(run(with_line(15, "nnp=1\n").as_bytes()).1.ends_with("\nnnp=1\n"));
}

#[test]
fn calls() {
    for wrong in ["", "00", "01", "100", "257", "4294967297", "a", "1.", "-1"] {
        assert_malformed(with_line(16, &format!("call={wrong}\n")).as_bytes(), 16);
        assert_malformed(with_line(21, &format!("call={wrong}\n")).as_bytes(), 21);
    }
    for unknown in ["0", "23", "99"] {
        let (_, report) = run(with_line(16, &format!("call={unknown}\n")).as_bytes());
        assert!(report.starts_with("code=22\nvalue=0000000000000000\ncause=0\ncode=0\n"));
    }
}

#[test]
fn attributes() {
    for wrong in ["0", "000", "0g", "0A", "0 ", QUOTED.trim_end_matches('0')] {
        assert_malformed(with_line(20, &format!("attr={wrong}\n")).as_bytes(), 20);
    }
    for digits in 0..60 {
        let text = with_line(20, &format!("attr={}\n", "0".repeat(digits)));
        if digits <= 48 && digits % 2 == 0 {
            let code = if digits == 0 { 0 } else { 60 };
            let expected = format!("code={code}\nvalue=0000000000000000\ncause=0\n");
            assert!(run(text.as_bytes()).1.starts_with(&expected));
        } else {
            assert_malformed(text.as_bytes(), 20);
        }
    }
}

#[test]
fn text_past_the_last_step() {
    for noise in ["\n", "\r\n", " ", "\0", "x", "end\n", "ruid=1000\n", "code=0\n"] {
        assert_malformed(format!("{}{noise}", plan()).as_bytes(), 26);
        assert_malformed(format!("{SHEET}{noise}").as_bytes(), 16);
    }
}

#[test]
fn a_257th_step_is_a_fault_at_line_1296() {
    let most = format!("{SHEET}{}", LAUNCH.repeat(256));
    let (outcome, report) = run(most.as_bytes());
    assert_eq!(outcome, Outcome::Report { length: 256 * 38 + SHEET.len() });
    assert_eq!(report, format!("{}{SHEET}", "code=0\nvalue=0000000000000000\ncause=0\n".repeat(256)));
    for more in [LAUNCH, "call=1\n", "c", "\n", "\0", "noise", &LAUNCH.repeat(3)] {
        assert_malformed(format!("{most}{more}").as_bytes(), 1296);
    }
    assert_malformed(&most.as_bytes()[..most.len() - 1], 1295);
    let faulty = most.replacen("call=1\n", "call=x\n", 1);
    assert_malformed(format!("{faulty}{LAUNCH}").as_bytes(), 16);
}

#[test]
fn carriage_returns_and_broken_encodings() {
    assert_malformed(plan().replace('\n', "\r\n").as_bytes(), 1);
    assert_malformed(plan().replace('\n', "\r").as_bytes(), 1);
    assert_malformed(b"ruid=1000\neuid=\xff\xfe\n", 2);
    assert_malformed(b"\xef\xbb\xbfruid=1000\n", 1);
    assert_malformed(b"\0", 1);
    assert_malformed(b"\n", 1);
}

#[test]
fn megabytes_of_noise() {
    for byte in [0, b'\n', b'0', b'r', b'=', 0xff] {
        assert_malformed(&vec![byte; 4 << 20], 1);
        let mut text = b"ruid=".to_vec();
        text.resize(4 << 20, byte);
        assert_malformed(&text, 1);
    }
    let mut text = SHEET.as_bytes().to_vec();
    text.resize(4 << 20, b'\n');
    assert_malformed(&text, 16);
}

#[test]
fn one_byte_changed_anywhere() {
    let text = plan().into_bytes();
    let mut buffer = [0; 1024];
    let mut line = 1;
    for place in 0..text.len() {
        let mut broken = text.clone();
        for byte in 0..=255 {
            broken[place] = byte;
            match run_plan(&broken, &mut buffer) {
                Outcome::Malformed { line: fault } if byte == b'\n' => assert!(fault == line || fault == line + 1),
                Outcome::Malformed { line: fault } => assert_eq!(fault, line),
                Outcome::Report { .. } | Outcome::Invalid => assert!(byte.is_ascii_hexdigit() || byte == text[place]),
                Outcome::NoRoom => panic!("there is room"),
            }
        }
        if text[place] == b'\n' {
            line += 1;
        }
    }
}

#[test]
fn a_newline_inside_a_value_can_end_it_early() {
    assert_malformed(with_line(1, "ruid=1\n00\n").as_bytes(), 2);
    assert_malformed(with_line(1, "ruid=\n1000\n").as_bytes(), 1);
    assert_malformed(with_line(25, "attr=01\n00\n").as_bytes(), 26);
    assert_malformed(with_line(25, "attr=0\n10\n").as_bytes(), 25);
}
