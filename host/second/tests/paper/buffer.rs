//! The lent buffer: exactly right, one short, longer, and left alone when the plan is refused.

use crate::helpers::*;
use second::{run_plan, Outcome};

fn plan() -> String {
    format!("{SHEET}{LAUNCH}")
}

#[test]
fn exactly_right() {
    let mut buffer = vec![0xa5; REPORT.len()];
    assert_eq!(run_plan(plan().as_bytes(), &mut buffer), Outcome::Report { length: REPORT.len() });
    assert_eq!(buffer, REPORT.as_bytes());
}

#[test]
fn one_short_and_less() {
    for length in 0..REPORT.len() {
        let mut buffer = vec![0xa5; length];
        assert_eq!(run_plan(plan().as_bytes(), &mut buffer), Outcome::NoRoom);
        assert!(buffer.iter().all(|&byte| byte == 0xa5));
    }
}

#[test]
fn longer() {
    for more in [1, 2, 100, 10_000] {
        let mut buffer = vec![0xa5; REPORT.len() + more];
        assert_eq!(run_plan(plan().as_bytes(), &mut buffer), Outcome::Report { length: REPORT.len() });
        assert_eq!(&buffer[..REPORT.len()], REPORT.as_bytes());
        assert!(buffer[REPORT.len()..].iter().all(|&byte| byte == 0xa5));
    }
}

#[test]
fn refused_plans_leave_it() {
    for text in [
        "",
        "noise",
        &SHEET.replace("ruid=1000", "ruid=4294967295"),
        &SHEET.replace("rgid=1000", "rgid=4294967295"),
        &plan().replace("attr=", "attr=0"),
    ] {
        let mut buffer = vec![0xa5; 1000];
        assert!(!matches!(run_plan(text.as_bytes(), &mut buffer), Outcome::Report { .. }));
        assert!(buffer.iter().all(|&byte| byte == 0xa5));
    }
}

/// IDs and attribute as long as they can be, and a call of two digits that is refused with a code of two digits.
fn longest_plan() -> (String, String) {
    let sheet = SHEET.replace("=1000\n", "=4294967294\n");
    let attr = "f".repeat(48);
    let step = LAUNCH.replace("call=1\n", "call=99\n").replace("attr=", &format!("attr={attr}"));
    let result = "code=22\nvalue=0000000000000000\ncause=0\n";
    (format!("{sheet}{}", step.repeat(256)), format!("{}{sheet}", result.repeat(256)))
}

#[test]
fn the_longest_plan_has_the_longest_report() {
    let (plan, report) = longest_plan();
    assert_eq!(plan.len(), 30_748);
    assert_fills_the_longest(&plan, &report);
}

/// The report has 256 results of 39 bytes and a sheet of 284, fits a buffer of just that length and no shorter one.
fn assert_fills_the_longest(plan: &str, report: &str) {
    let mut buffer = [0xa5; 10_268];
    assert_eq!(run_plan(plan.as_bytes(), &mut buffer), Outcome::Report { length: 10_268 });
    assert_eq!(buffer, report.as_bytes());
    let mut buffer = [0xa5; 10_267];
    assert_eq!(run_plan(plan.as_bytes(), &mut buffer), Outcome::NoRoom);
    assert_eq!(buffer, [0xa5; 10_267]);
}

#[test]
fn causes_of_two_digits_make_no_longer_report() {
    // A code of two digits has cause 0, and a cause of two digits has code 1: each of these results has 39 bytes.
    let sheet =
        SHEET.replace("=1000\n", "=4294967294\n").replace("bounding=000001ffffffffff", "bounding=0000000000000000");
    let results = [
        // No call.
        (LAUNCH.replace("call=1\n", "call=99\n"), "code=22\nvalue=0000000000000000\ncause=0\n"),
        // An attribute of one byte.
        (LAUNCH.replace("attr=", "attr=00"), "code=60\nvalue=0000000000000000\ncause=0\n"),
        // Setuid to 0, without the capability.
        (LAUNCH.replace("call=1\n", "call=15\n"), "code=1\nvalue=0000000000000000\ncause=10\n"),
        // NET_RAW comes neither by the bounding set nor by the file's inheritable set.
        (LAUNCH.replace("attr=", &format!("attr={QUOTED}")), "code=1\nvalue=0000000000000000\ncause=11\n"),
    ];
    for (step, result) in &results {
        let plan = format!("{sheet}{}", step.repeat(256));
        assert_fills_the_longest(&plan, &format!("{}{sheet}", result.repeat(256)));
    }
    let steps: String = results.iter().map(|(step, _)| step.as_str()).collect();
    let lines: String = results.iter().map(|&(_, result)| result).collect();
    let plan = format!("{sheet}{}", steps.repeat(64));
    assert_fills_the_longest(&plan, &format!("{}{sheet}", lines.repeat(64)));
}

#[test]
fn no_buffer_at_all() {
    assert_eq!(run_plan(b"", &mut []), Outcome::Malformed { line: 1 });
    assert_eq!(run_plan(plan().as_bytes(), &mut []), Outcome::NoRoom);
}
