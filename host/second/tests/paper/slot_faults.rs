//! The whole machine, not one thread: the line of each kind of broken slot plan.

use crate::helpers::*;
use crate::slot_helpers::*;
use second::{run_slot_plan, Outcome};

/// Case 2's sheet, a fork, and a launch by the child with the quoted attribute: 27 lines.
fn plan() -> String {
    let launch = LAUNCH.replace("attr=", &format!("attr={QUOTED}"));
    format!("{SHEET}{}{}", fork_text(0), in_slot(1, &launch))
}

/// As many steps as there can be: 1551 lines.
fn most() -> String {
    format!("{SHEET}{}", in_slot(0, LAUNCH).repeat(256))
}

/// The text with its line `number` put in other words.
fn with_line(text: &str, number: usize, new: &str) -> String {
    let mut lines: Vec<&str> = text.split_inclusive('\n').collect();
    lines[number - 1] = new;
    lines.concat()
}

/// Ways in which a line can be wrong whatever its key is.
fn plain_ways(line: &str) -> Vec<String> {
    let (key, value) = line.split_once('=').unwrap();
    let upper = key.to_uppercase();
    vec![
        "\n".to_string(),
        "\r\n".to_string(),
        format!("\n{line}\n"),
        format!("{line}\r\n"),
        format!(" {line}\n"),
        format!("{line} \n"),
        format!("{line}\0\n"),
        format!("\u{feff}{line}\n"),
        format!("{key}\n"),
        format!("{key}:{value}\n"),
        format!("{key}=={value}\n"),
        format!("{key} ={value}\n"),
        format!("{key}= {value}\n"),
        format!("{key}=+{value}\n"),
        format!("{key}=-{value}\n"),
        format!("{key}=0x{value}\n"),
        format!("{key}={value}g\n"),
        format!("{key}={value}\u{663}\n"),
        format!("{upper}={value}\n"),
        format!("x{line}\n"),
        format!("#\n{line}\n"),
        format!("{key}={}\n", "0".repeat(50)),
        format!("{key}={}\n", "0".repeat(100_000)),
        "other=0\n".to_string(),
    ]
}

#[test]
fn empty_text_is_a_fault_at_line_1() {
    assert_malformed_slots("", 1);
}

#[test]
fn the_whole_slot_plan_is_right() {
    assert_eq!(plan().lines().count(), 27);
    assert!(matches!(run_slots(plan().as_bytes()).0, Outcome::Report { .. }));
    assert_eq!(most().lines().count(), 1551);
    assert!(matches!(run_slots(most().as_bytes()).0, Outcome::Report { .. }));
}

#[test]
fn cut_off_anywhere() {
    let text = plan();
    for end in 0..text.len() {
        let cut = &text[..end];
        let complete = cut.matches('\n').count();
        if cut.ends_with('\n') && [15, 21].contains(&complete) {
            assert!(matches!(run_slots(cut.as_bytes()).0, Outcome::Report { .. }));
        } else {
            assert_malformed_slots(cut, complete as u32 + 1);
        }
    }
}

#[test]
fn cut_off_in_the_last_step_there_can_be() {
    let text = most();
    let last = text.len() - in_slot(0, LAUNCH).len();
    assert!(matches!(run_slots(&text.as_bytes()[..last]).0, Outcome::Report { .. }));
    for end in last + 1..text.len() {
        let complete = text[..end].matches('\n').count();
        assert_malformed_slots(&text[..end], complete as u32 + 1);
    }
}

#[test]
fn every_line_wrong_in_every_plain_way() {
    let text = plan();
    for (number, line) in (1..).zip(text.lines()) {
        for wrong in plain_ways(line) {
            assert_malformed_slots(with_line(&text, number, &wrong), number as u32);
        }
    }
}

#[test]
fn every_line_of_the_first_the_second_and_the_256th_step() {
    let text = most();
    for first in [16, 22, 1546] {
        for (number, line) in (first..).zip(in_slot(0, LAUNCH).lines()) {
            for wrong in plain_ways(line) {
                assert_malformed_slots(with_line(&text, number, &wrong), number as u32);
            }
            assert_malformed_slots(with_line(&text, number, ""), number as u32);
            assert_malformed_slots(with_line(&text, number, &format!("{line}\n{line}\n")), number as u32 + 1);
        }
    }
}

#[test]
fn the_first_fault_counts() {
    let text = with_line(&plan(), 27, "attr=0\n");
    assert_malformed_slots(&text, 27);
    for number in (1..=26).rev() {
        assert_malformed_slots(with_line(&text, number, "\n"), number as u32);
    }
}

#[test]
fn a_doubled_line_is_a_fault_at_the_second() {
    let text = plan();
    for (number, line) in (1..).zip(text.lines()) {
        assert_malformed_slots(with_line(&text, number, &format!("{line}\n{line}\n")), number as u32 + 1);
    }
}

#[test]
fn a_missing_line_is_a_fault_where_it_should_stand() {
    for number in 1..=27 {
        assert_malformed_slots(with_line(&plan(), number, ""), number as u32);
    }
}

#[test]
fn the_slot_comes_first_in_its_step() {
    let lines: Vec<&str> = LAUNCH.split_inclusive('\n').collect();
    for place in 1..=5 {
        let step = [lines[..place].concat(), "slot=0\n".to_string(), lines[place..].concat()].concat();
        assert_malformed_slots(format!("{SHEET}{step}"), 16);
        assert_malformed_slots(format!("{SHEET}{}{step}", in_slot(0, LAUNCH)), 22);
    }
    assert_malformed_slots(format!("slot=0\n{SHEET}{LAUNCH}"), 1);
}

#[test]
fn slots() {
    let wrongs =
        ["", "00", "01", "007", "095", "100", "101", "255", "256", "999", "4294967296", "18446744073709551616"];
    for wrong in wrongs.into_iter().chain(["a", "5f", "0x1", "1.", "-1", "+1", " 1", "1 ", "1\0", "init"]) {
        for number in [16, 22] {
            assert_malformed_slots(with_line(&plan(), number, &format!("slot={wrong}\n")), number as u32);
        }
        assert_malformed_slots(with_line(&most(), 1546, &format!("slot={wrong}\n")), 1546);
    }
    for right in 0..=99 {
        let text = with_line(&plan(), 22, &format!("slot={right}\n"));
        let code = match right {
            0 | 1 => 0,
            2..=95 => 3,
            _ => 22,
        };
        let answers = format!("{}{}slot=0\n", result(0, 1, 0), result(code, 0, 0));
        assert!(run_slots(text.as_bytes()).1.starts_with(&answers), "{right}");
    }
}

#[test]
fn calls() {
    for wrong in ["", "00", "01", "030", "100", "257", "286", "4294967297", "a", "1.", "-1", "fork"] {
        for number in [17, 23] {
            assert_malformed_slots(with_line(&plan(), number, &format!("call={wrong}\n")), number as u32);
        }
    }
    for unknown in ["0", "23", "29", "32", "99"] {
        let (_, report) = run_slots(with_line(&plan(), 17, &format!("call={unknown}\n")).as_bytes());
        assert_eq!(report, format!("{}{}slot=0\n{SHEET}", result(22, 0, 0), result(3, 0, 0)));
    }
}

#[test]
fn operands_and_attributes() {
    for (number, key) in [(18, "a"), (19, "b"), (20, "c"), (24, "a"), (25, "b"), (26, "c")] {
        for wrong in ["", "0", "000000000000000", "00000000000000000", "000000000000000A", "000000000000000g"] {
            assert_malformed_slots(with_line(&plan(), number, &format!("{key}={wrong}\n")), number as u32);
        }
    }
    for digits in 0..60 {
        let text = with_line(&plan(), 27, &format!("attr={}\n", "0".repeat(digits)));
        if digits <= 48 && digits % 2 == 0 {
            let code = if digits == 0 { 0 } else { 60 };
            let answers = format!("{}{}slot=0\n", result(0, 1, 0), result(code, 0, 0));
            assert!(run_slots(text.as_bytes()).1.starts_with(&answers));
        } else {
            assert_malformed_slots(text, 27);
        }
    }
}

#[test]
fn text_past_the_last_step() {
    for noise in
        ["\n", "\r\n", " ", "\0", "x", "end\n", "ruid=1000\n", "code=0\n", "call=1\n", "slot", "slot=", "slot=0"]
    {
        assert_malformed_slots(format!("{}{noise}", plan()), 28);
        assert_malformed_slots(format!("{SHEET}{noise}"), 16);
    }
}

#[test]
fn a_257th_step_is_a_fault_at_line_1552() {
    let most = most();
    let good = in_slot(0, LAUNCH);
    for more in [&good, "slot=0\n", "slot=100\n", LAUNCH, "noise", SHEET, &good.repeat(3)] {
        assert_malformed_slots(format!("{most}{more}"), 1552);
    }
    for byte in 0..=255 {
        assert_malformed_slots([most.as_bytes(), &[byte]].concat(), 1552);
    }
    for end in 1..good.len() {
        assert_malformed_slots(format!("{most}{}", &good[..end]), 1552);
    }
    assert_malformed_slots(&most[..most.len() - 1], 1551);
    let faulty = most.replacen("call=1\n", "call=x\n", 1);
    assert_malformed_slots(format!("{faulty}{good}"), 17);
}

#[test]
fn carriage_returns_and_noise() {
    assert_malformed_slots(plan().replace('\n', "\r\n"), 1);
    assert_malformed_slots(b"ruid=1000\neuid=\xff\xfe\n", 2);
    assert_malformed_slots(b"\0", 1);
    assert_malformed_slots(b"\n", 1);
    for byte in [0, b'\n', b'0', b's', b'=', 0xff] {
        assert_malformed_slots(vec![byte; 4 << 20], 1);
        for (front, line) in [(SHEET.to_string(), 16), (format!("{SHEET}slot="), 16), (plan(), 28)] {
            let mut text = front.into_bytes();
            text.resize(4 << 20, byte);
            assert_malformed_slots(text, line);
        }
    }
}

#[test]
fn one_byte_changed_anywhere() {
    let text = plan().into_bytes();
    let mut buffer = [0; 1024];
    let mut line = 1;
    for place in 0..text.len() {
        let mut broken = text.clone();
        for byte in 0..=255 {
            broken[place] = byte;
            match run_slot_plan(&broken, &mut buffer) {
                Outcome::Malformed { line: fault } if byte == b'\n' => assert!(fault == line || fault == line + 1),
                Outcome::Malformed { line: fault } => assert_eq!(fault, line),
                Outcome::Report { .. } | Outcome::Invalid => assert!(byte.is_ascii_hexdigit() || byte == text[place]),
                Outcome::NoRoom => panic!("there is room"),
            }
        }
        if text[place] == b'\n' {
            line += 1;
        }
    }
}
