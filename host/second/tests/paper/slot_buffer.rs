//! The whole machine, not one thread: the lent buffer, the longest slot plan and the longest report.

use crate::helpers::*;
use crate::slot_helpers::*;
use second::{run_slot_plan, Outcome};

const NO_ROOM: Outcome = Outcome::NoRoom;

/// A launch, a fork and a step in a slot that is free.
fn plan() -> String {
    format!("{SHEET}{}{}{}", in_slot(0, LAUNCH), fork_text(0), exit_text(2))
}

fn report() -> String {
    format!("{}{}{}{}", result(0, 0, 0), result(0, 1, 0), result(3, 0, 0), sheets(0, 1, SHEET))
}

#[test]
fn every_length_around_the_reports_own() {
    let (plan, report) = (plan(), report());
    for length in 0..report.len() + 70 {
        let mut buffer = vec![0xa5; length];
        let outcome = run_slot_plan(plan.as_bytes(), &mut buffer);
        if length < report.len() {
            assert_eq!(outcome, NO_ROOM);
            assert!(buffer.iter().all(|&byte| byte == 0xa5));
        } else {
            assert_eq!(outcome, Outcome::Report { length: report.len() });
            assert_eq!(&buffer[..report.len()], report.as_bytes());
            assert!(buffer[report.len()..].iter().all(|&byte| byte == 0xa5));
        }
    }
}

#[test]
fn an_empty_report_does_not_exist() {
    // Without a step slot 0 is in use, and without a slot in use there was a step.
    assert_eq!(run_slot_plan(SHEET.as_bytes(), &mut []), NO_ROOM);
    let plan = format!("{SHEET}{}", exit_text(0));
    for length in 0..38 {
        let mut buffer = vec![0xa5; length];
        assert_eq!(run_slot_plan(plan.as_bytes(), &mut buffer), NO_ROOM);
        assert!(buffer.iter().all(|&byte| byte == 0xa5));
    }
    let mut buffer = [0xa5; 38];
    assert_eq!(run_slot_plan(plan.as_bytes(), &mut buffer), Outcome::Report { length: 38 });
    assert_eq!(buffer, result(0, 0, 0).as_bytes());
}

#[test]
fn refused_slot_plans_leave_it() {
    for text in [
        "",
        "noise",
        &SHEET.replace("ruid=1000", "ruid=4294967295"),
        &plan().replace("fsgid=1000", "fsgid=4294967295"),
        &plan().replace("slot=2", "slot=100"),
        &plan().replace("slot=2\n", ""),
        &plan().replace("attr=", "attr=0"),
        &format!("{}\n", plan()),
    ] {
        for length in [0, 1, 284, report().len(), 37_911, 40_000] {
            let mut buffer = vec![0xa5; length];
            let outcome = run_slot_plan(text.as_bytes(), &mut buffer);
            assert!(matches!(outcome, Outcome::Malformed { .. } | Outcome::Invalid));
            assert!(buffer.iter().all(|&byte| byte == 0xa5));
        }
    }
}

#[test]
fn order_70_before_72_before_28() {
    let invalid = SHEET.replace("ruid=1000", "ruid=4294967295");
    let mut buffer = [0xa5; 4];
    let plan = format!("{invalid}{}x", fork_text(0));
    assert_eq!(run_slot_plan(plan.as_bytes(), &mut buffer), Outcome::Malformed { line: 22 });
    let plan = format!("{invalid}{}", fork_text(0));
    assert_eq!(run_slot_plan(plan.as_bytes(), &mut buffer), Outcome::Invalid);
    let plan = format!("{SHEET}{}", fork_text(0));
    assert_eq!(run_slot_plan(plan.as_bytes(), &mut buffer), NO_ROOM);
    assert_eq!(buffer, [0xa5; 4]);
}

/// A sheet with IDs as long as they can be: 284 bytes.
fn longest_sheet() -> String {
    let sheet = SHEET.replace("=1000\n", "=4294967294\n");
    assert_eq!(sheet.len(), 284);
    sheet
}

#[test]
fn the_longest_slot_plan_has_32796_bytes() {
    let attr = "f".repeat(48);
    let step = in_slot(99, &LAUNCH.replace("call=1\n", "call=99\n").replace("attr=", &format!("attr={attr}")));
    assert_eq!(step.len(), 127);
    let sheet = longest_sheet();
    let plan = format!("{sheet}{}", step.repeat(256));
    assert_eq!(plan.len(), 32_796);
    assert_reports(&plan, &format!("{}{}", result(22, 0, 0).repeat(256), sheets(0, 0, &sheet)));
    // The next byte is the first of a 257th step, whatever it is and whatever follows.
    for byte in 0..=255 {
        let mut text = plan.clone().into_bytes();
        text.push(byte);
        assert_eq!(text.len(), 32_797);
        assert_malformed_slots(&text, 1552);
        text.extend([b's', 0, b'\n'].repeat(1000));
        assert_malformed_slots(&text, 1552);
    }
}

/// The report has 37,911 bytes, fits a buffer of just that length and no shorter one.
fn assert_fills_the_longest(plan: &str, report: &str) {
    assert_eq!(report.len(), 37_911);
    let mut buffer = vec![0xa5; 37_911];
    assert_eq!(run_slot_plan(plan.as_bytes(), &mut buffer), Outcome::Report { length: 37_911 });
    assert_eq!(buffer, report.as_bytes());
    let mut buffer = vec![0xa5; 37_910];
    assert_eq!(run_slot_plan(plan.as_bytes(), &mut buffer), NO_ROOM);
    assert!(buffer.iter().all(|&byte| byte == 0xa5));
}

#[test]
fn the_longest_report_has_37911_bytes() {
    // 95 forks of 38 bytes, 161 results of 39, ten slot lines of 7 bytes, 86 of 8, and 96 sheets of 284.
    let sheet = longest_sheet();
    let forks: String = (1..=95).map(|slot| result(0, slot, 0)).collect();
    assert_eq!(forks.len(), 95 * 38);
    let sheets = sheets(0, 95, &sheet);
    assert_eq!(sheets.len(), 10 * 7 + 86 * 8 + 96 * 284);

    let plan = format!("{sheet}{}", fork_text(0).repeat(256));
    assert_fills_the_longest(&plan, &format!("{forks}{}{sheets}", result(11, 0, 0).repeat(161)));

    let others = [
        // A slot that there is not, and no such call.
        (in_slot(96, LAUNCH), result(22, 0, 0)),
        (slot_steps(&[(50, 99, [0; 3])]), result(22, 0, 0)),
        // An attribute of one byte.
        (in_slot(95, &LAUNCH.replace("attr=", "attr=00")), result(60, 0, 0)),
        // Setuid to 0, without the capability.
        (slot_steps(&[(0, 15, [0; 3])]), result(1, 0, 10)),
    ];
    for (step, answer) in others {
        let plan = format!("{sheet}{}{}", fork_text(0).repeat(95), step.repeat(161));
        assert_fills_the_longest(&plan, &format!("{forks}{}{sheets}", answer.repeat(161)));
    }
}

#[test]
fn the_longest_report_with_the_forks_last() {
    let sheet = longest_sheet();
    let plan = format!("{sheet}{}{}", slot_steps(&[(0, 15, [0; 3])]).repeat(161), fork_text(0).repeat(95));
    let forks: String = (1..=95).map(|slot| result(0, slot, 0)).collect();
    let report = format!("{}{forks}{}", result(1, 0, 10).repeat(161), sheets(0, 95, &sheet));
    assert_fills_the_longest(&plan, &report);
}
