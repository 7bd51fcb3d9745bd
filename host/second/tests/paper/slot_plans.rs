//! The whole machine, not one thread: slot plans and their reports.

use crate::helpers::*;
use crate::slot_helpers::*;
use second::Outcome;

/// The sheet of an init: user IDs 0, group IDs 1000, permitted, effective and bounding set full.
const INIT: &str = "\
ruid=0
euid=0
suid=0
fsuid=0
rgid=1000
egid=1000
sgid=1000
fsgid=1000
permitted=000001ffffffffff
inheritable=0000000000000000
effective=000001ffffffffff
bounding=000001ffffffffff
ambient=0000000000000000
securebits=00
nnp=0
";

#[test]
fn without_steps_the_report_is_slot_0_and_its_sheet() {
    assert_reports(SHEET, &format!("slot=0\n{SHEET}"));
    assert_reports(INIT, &format!("slot=0\n{INIT}"));
}

#[test]
fn a_launch_in_slot_0() {
    assert_reports(&format!("{SHEET}slot=0\n{LAUNCH}"), &REPORT.replace("ruid=", "slot=0\nruid="));
}

#[test]
fn a_fork() {
    let plan = format!(
        "{SHEET}\
slot=0
call=30
a=0000000000000000
b=0000000000000000
c=0000000000000000
attr=
"
    );
    let report = format!(
        "\
code=0
value=0000000000000001
cause=0
slot=0
{SHEET}slot=1
{SHEET}"
    );
    assert_reports(&plan, &report);
}

#[test]
fn an_init_starts_a_burner_a_panel_and_a_log_script() {
    // The burner is user 1001 and keeps SYS_RAWIO; the panel is user 1002 and has nothing; the log script is a launch
    // of 1003 under no-new-privs. Each is forked by slot 0.
    let plan = slot_steps(&[
        (0, 30, [0, 0, 0]),
        (0, 30, [0, 0, 0]),
        (0, 30, [0, 0, 0]),
        (1, 11, [1, 0, 0]),
        (1, 17, [1001, 1001, 1001]),
        (1, 2, [SYS_RAWIO, 0, SYS_RAWIO]),
        (2, 15, [1002, 0, 0]),
        (3, 13, [1, 0, 0]),
        (3, 15, [1003, 0, 0]),
        (3, 1, [0, SET_USER_ID, 0]),
        (2, 5, [17, 0, 0]),
        (0, 4, [17, 0, 0]),
    ]);
    let values = [1, 2, 3, 0, 0, 0, 0, 0, 0, 0];
    let answers: String = values.iter().map(|&value| result(0, value, 0)).collect();
    let burner = "\
ruid=1001
euid=1001
suid=1001
fsuid=1001
rgid=1000
egid=1000
sgid=1000
fsgid=1000
permitted=0000000000020000
inheritable=0000000000000000
effective=0000000000020000
bounding=000001ffffffffff
ambient=0000000000000000
securebits=10
nnp=0
";
    let panel = burner
        .replace("=1001\n", "=1002\n")
        .replace("=0000000000020000\n", "=0000000000000000\n")
        .replace("securebits=10", "securebits=00");
    let log_script = panel.replace("=1002\n", "=1003\n").replace("nnp=0", "nnp=1");
    let report = format!(
        "{answers}{}{}slot=0\n{INIT}slot=1\n{burner}slot=2\n{panel}slot=3\n{log_script}",
        result(1, 0, 6),
        result(0, 1, 0)
    );
    assert_reports(&format!("{INIT}{plan}"), &report);
}

#[test]
fn a_helper_exits_and_its_slot_is_taken_again() {
    let plan = slot_steps(&[
        (0, 30, [0; 3]),
        (1, 30, [0; 3]),
        (1, 13, [1, 0, 0]),
        (1, 31, [0; 3]),
        (1, 14, [0; 3]),
        (2, 3, [17, 0, 0]),
        (2, 30, [0; 3]),
        (1, 14, [0; 3]),
        (0, 30, [0; 3]),
    ]);
    let answers = [(0, 1), (0, 2), (0, 0), (0, 0), (3, 0), (0, 0), (0, 1), (0, 0), (0, 3)];
    let answers: String = answers.iter().map(|&(code, value)| result(code, value, 0)).collect();
    let dropped = INIT.replace("bounding=000001ffffffffff", "bounding=000001fffffdffff");
    let report = format!("{answers}slot=0\n{INIT}slot=1\n{dropped}slot=2\n{dropped}slot=3\n{INIT}");
    assert_reports(&format!("{INIT}{plan}"), &report);
}

#[test]
fn what_a_freed_slot_held_shows_nowhere() {
    let changes = slot_steps(&[(1, 17, [1, 2, 3]), (1, 31, [0; 3])]);
    let plan = format!("{INIT}{}{changes}", fork_text(0));
    let answers = format!("{}{}", result(0, 1, 0), result(0, 0, 0).repeat(2));
    assert_reports(&plan, &format!("{answers}slot=0\n{INIT}"));
    let again = format!("{plan}{}", fork_text(0));
    assert_reports(&again, &format!("{answers}{}slot=0\n{INIT}slot=1\n{INIT}", result(0, 1, 0)));
}

#[test]
fn slot_0_exits() {
    let plan = format!("{SHEET}{}{}", fork_text(0), exit_text(0));
    let answers = format!("{}{}", result(0, 1, 0), result(0, 0, 0));
    assert_reports(&plan, &format!("{answers}slot=1\n{SHEET}"));
    // A fork by the only one left takes slot 0 again, and the report has it first.
    let plan = format!("{plan}{}{}", slot_steps(&[(1, 13, [1, 0, 0])]), fork_text(1));
    let changed = SHEET.replace("nnp=0", "nnp=1");
    let answers = format!("{answers}{}", result(0, 0, 0).repeat(2));
    assert_reports(&plan, &format!("{answers}{}", sheets(0, 1, &changed)));
}

#[test]
fn the_last_one_exits_and_the_report_ends_after_the_results() {
    let plan = format!("{SHEET}{}", exit_text(0));
    assert_reports(&plan, &result(0, 0, 0));
    let later: String = (0..=95).map(fork_text).collect();
    let unknown = slot_steps(&[(0, 99, [1, 2, 3]), (95, 0, [0; 3]), (0, 31, [0; 3])]);
    let above: String = (96..=99).map(exit_text).collect();
    let answers = format!("{}{}{}", result(0, 0, 0), result(3, 0, 0).repeat(99), result(22, 0, 0).repeat(4));
    assert_reports(&format!("{plan}{later}{unknown}{above}"), &answers);
}

#[test]
fn a_family_exits_one_by_one() {
    let exits: String = [1, 0, 2].into_iter().map(exit_text).collect();
    let plan = format!("{SHEET}{}{exits}", fork_text(0).repeat(2));
    let answers = format!("{}{}{}", result(0, 1, 0), result(0, 2, 0), result(0, 0, 0).repeat(3));
    assert_reports(&plan, &answers);
}

#[test]
fn all_96_in_use_and_one_more() {
    let plan = format!("{SHEET}{}", fork_text(0).repeat(96));
    let forks: String = (1..=95).map(|slot| result(0, slot, 0)).collect();
    assert_reports(&plan, &format!("{forks}{}{}", result(11, 0, 0), sheets(0, 95, SHEET)));
    // One exits, and there is room for one.
    let plan = format!("{plan}{}{}", exit_text(40), fork_text(95).repeat(2));
    let more = format!("{}{}{}", result(0, 0, 0), result(0, 40, 0), result(11, 0, 0));
    assert_reports(&plan, &format!("{forks}{}{more}{}", result(11, 0, 0), sheets(0, 95, SHEET)));
}

#[test]
fn forks_value_is_hex_and_the_slots_line_decimal() {
    let plan = format!("{SHEET}{}", fork_text(0).repeat(16));
    let (_, report) = run_slots(plan.as_bytes());
    assert!(report.contains("value=0000000000000009\ncause=0\ncode=0\nvalue=000000000000000a\n"));
    assert!(report.contains("value=000000000000000f\ncause=0\ncode=0\nvalue=0000000000000010\ncause=0\nslot=0\n"));
    assert!(report.ends_with(&sheets(8, 16, SHEET)));
    assert!(report.contains("nnp=0\nslot=9\nruid=1000\n"));
    assert!(report.contains("nnp=0\nslot=10\nruid=1000\n"));
    assert!(!report.contains("slot=17"));
}

#[test]
fn slots_at_their_edge() {
    for (slot, code) in [(0, 0), (1, 3), (94, 3), (95, 3), (96, 22), (97, 22), (98, 22), (99, 22)] {
        let plan = format!("{SHEET}{}", in_slot(slot, LAUNCH));
        assert_reports(&plan, &format!("{}slot=0\n{SHEET}", result(code, 0, 0)));
    }
    assert_malformed_slots(format!("{SHEET}{}", in_slot(100, LAUNCH)), 16);
}

#[test]
fn a_step_that_is_refused_does_not_stop_the_plan() {
    let plan = slot_steps(&[
        (96, 30, [0; 3]),
        (95, 30, [0; 3]),
        (0, 30, [1, 0, 0]),
        (0, 31, [0, 0, 1]),
        (0, 29, [0; 3]),
        (0, 32, [0; 3]),
        (0, 15, [0; 3]),
        (0, 30, [0; 3]),
    ]);
    let codes = [(22, 0, 0), (3, 0, 0), (22, 0, 0), (22, 0, 0), (22, 0, 0), (22, 0, 0), (1, 0, 10), (0, 1, 0)];
    let answers: String = codes.iter().map(|&(code, value, cause)| result(code, value, cause)).collect();
    assert_reports(&format!("{SHEET}{plan}"), &format!("{answers}{}", sheets(0, 1, SHEET)));
}

#[test]
fn an_attribute_in_a_slot() {
    // Case 2's thread forks; the child launches a file with the quoted attribute, and cannot fork or exit with one.
    let quoted = LAUNCH.replace("attr=", &format!("attr={QUOTED}"));
    let launched = in_slot(1, &quoted);
    let fork = in_slot(1, &quoted.replace("call=1\n", "call=30\n"));
    let exit = in_slot(1, &quoted.replace("call=1\n", "call=31\n"));
    let plan = format!("{SHEET}{}{launched}{fork}{exit}", fork_text(0));
    let answers = format!("{}{}{}", result(0, 1, 0), result(0, 0, 0), result(22, 0, 0).repeat(2));
    let child = SHEET.replace("ambient=0000000000002000", "ambient=0000000000000000");
    assert_reports(&plan, &format!("{answers}slot=0\n{SHEET}slot=1\n{child}"));
}

#[test]
fn every_sheet_72_refuses_the_slot_plan() {
    for (right, wrong) in [
        ("ruid=1000", "ruid=4294967295"),
        ("fsgid=1000", "fsgid=4294967295"),
        ("permitted=0000000000002000", "permitted=0000000000000000"),
        ("inheritable=0000000000002000", "inheritable=0000000000000000"),
        ("effective=0000000000002000", "effective=0000000000002001"),
        ("bounding=000001ffffffffff", "bounding=000003ffffffffff"),
    ] {
        let sheet = SHEET.replacen(right, wrong, 1);
        // Neither a step that names another slot nor an exit changes that.
        for steps in [String::new(), fork_text(0), exit_text(0), fork_text(1), fork_text(96)] {
            assert_eq!(run_slots(format!("{sheet}{steps}").as_bytes()).0, Outcome::Invalid, "{wrong}");
        }
    }
}

#[test]
fn in_a_plan_without_slots_30_and_31_are_unknown() {
    let plan = format!("{SHEET}{}", steps(&[(30, [0; 3]), (31, [0; 3]), (30, [1, 0, 0])]));
    let (outcome, report) = run(plan.as_bytes());
    assert_eq!(outcome, Outcome::Report { length: report.len() });
    assert_eq!(report, format!("{}{SHEET}", result(22, 0, 0).repeat(3)));
}

#[test]
fn the_two_forms_are_apart() {
    assert_malformed_slots(format!("{SHEET}{LAUNCH}"), 16);
    assert_malformed_slots(format!("{SHEET}{}{LAUNCH}", in_slot(0, LAUNCH)), 22);
    assert_malformed(format!("{SHEET}{}", in_slot(0, LAUNCH)).as_bytes(), 16);
    assert_malformed(format!("{SHEET}{LAUNCH}{}", in_slot(0, LAUNCH)).as_bytes(), 21);
    // A slot plan's report is no slot plan, nor is a plan's.
    assert_malformed_slots(format!("slot=0\n{SHEET}"), 1);
    assert_malformed_slots(REPORT, 1);
}

#[test]
fn slot_plans_have_up_to_256_steps() {
    for count in [1, 2, 95, 255, 256] {
        let plan = format!("{SHEET}{}", in_slot(0, LAUNCH).repeat(count));
        assert_reports(&plan, &format!("{}slot=0\n{SHEET}", result(0, 0, 0).repeat(count)));
    }
    let plan = format!("{SHEET}{}", in_slot(0, LAUNCH).repeat(257));
    assert_malformed_slots(plan, 1552);
}
