//! The number that comes back and every byte of the buffer, for buffers of every length about the report's.

mod lent;
mod plans;

use lent::{in_front, pattern};
use plans::{longest_plan, read, INVALID_START};
use urrezkalu::{run_plan, Outcome, LONGEST_PLAN, LONGEST_REPORT};

/// Runs the plan with a buffer of `room` bytes: what it comes to, and the buffer afterwards.
fn run(plan: &[u8], room: usize) -> (Outcome, Vec<u8>) {
    let mut buffer = pattern(room);
    let outcome = run_plan(plan, &mut buffer);
    (outcome, buffer)
}

/// Checks that the plan is refused thus and changes nothing.
fn refused(plan: &[u8], room: usize, expected: Outcome) {
    assert_eq!(run(plan, room), (expected, pattern(room)), "with room for {room} bytes");
}

#[test]
fn room_exactly_right_one_short_and_every_other() {
    let plan = read("case-2.plan");
    let report = read("case-2.report");
    for room in 0..report.len() {
        refused(&plan, room, Outcome::NoRoom);
    }
    for room in report.len()..report.len() + 64 {
        let outcome = Outcome::Report { length: report.len() };
        assert_eq!(run(&plan, room), (outcome, in_front(&report, &pattern(room))), "with room for {room} bytes");
    }
}

#[test]
fn a_refused_plan_changes_no_byte() {
    let broken = read("broken.plan");
    for room in [0, 1, 273, 274, LONGEST_REPORT, LONGEST_REPORT + 1] {
        refused(&broken, room, Outcome::Malformed { line: 24 });
        refused(INVALID_START.as_bytes(), room, Outcome::Invalid);
    }
}

#[test]
fn a_plan_cut_anywhere_is_refused_at_the_line_of_the_cut() {
    let plan = read("case-2.plan");
    // The line of the fault is one more than the whole lines that are left; the sheet alone, lines 1 to 15, is a plan.
    for cut in 0..plan.len() {
        let whole_lines = plan[..cut].iter().filter(|&&byte| byte == b'\n').count();
        if plan[..cut].ends_with(b"\n") && whole_lines == 15 {
            refused(&plan[..cut], 0, Outcome::NoRoom);
        } else {
            refused(&plan[..cut], 300, Outcome::Malformed { line: whole_lines as u32 + 1 });
        }
    }
}

#[test]
fn empty_slices() {
    assert_eq!(run_plan(&[], &mut []), Outcome::Malformed { line: 1 });
    refused(&[], 64, Outcome::Malformed { line: 1 });
    assert_eq!(run_plan(&read("case-2.plan"), &mut []), Outcome::NoRoom);
    assert_eq!(run_plan(INVALID_START.as_bytes(), &mut []), Outcome::Invalid);
}

#[test]
fn the_longest_plan_has_the_longest_report() {
    let plan = longest_plan();
    assert_eq!(plan.len(), LONGEST_PLAN);
    let (outcome, buffer) = run(&plan, LONGEST_REPORT);
    assert_eq!(outcome, Outcome::Report { length: LONGEST_REPORT });
    let steps = "code=22\nvalue=0000000000000000\ncause=0\n".repeat(256);
    let sheet_length = LONGEST_REPORT - steps.len();
    assert_eq!(buffer, [steps.as_bytes(), &plan[..sheet_length]].concat());
    refused(&plan, LONGEST_REPORT - 1, Outcome::NoRoom);
}

#[test]
fn what_stands_after_one_byte_too_many_decides_nothing() {
    let mut text = longest_plan();
    for more in [1, 1_000_000] {
        text.resize(LONGEST_PLAN + more, b'\n');
        refused(&text, LONGEST_REPORT, Outcome::Malformed { line: 1_296 });
    }
}

#[test]
fn threads_do_not_disturb_each_other() {
    let accepted = (read("case-2.plan"), Outcome::Report { length: 274 });
    let refused = (read("broken.plan"), Outcome::Malformed { line: 24 });
    let longest = (longest_plan(), Outcome::Report { length: LONGEST_REPORT });
    std::thread::scope(|threads| {
        for (plan, expected) in [&accepted, &refused, &longest, &accepted, &refused, &longest] {
            threads.spawn(move || {
                let alone = run(plan, LONGEST_REPORT);
                assert_eq!(alone.0, *expected);
                for _ in 0..200 {
                    assert_eq!(run(plan, LONGEST_REPORT), alone);
                }
            });
        }
    });
}
