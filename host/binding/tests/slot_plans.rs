//! Slot plans: what comes back and every byte of the buffer, typed in from the paper; and plans that are run in one slot of several.

mod lent;
mod plans;

use lent::{in_front, pattern};
use plans::{longest_sheet, longest_step, read, INVALID_START};
use urrezkalu::{
    interface, results, run_plan, run_slot_plan, slots, Outcome, StepResult, LONGEST_REPORT, LONGEST_SLOT_PLAN,
    LONGEST_SLOT_REPORT, SLOTS,
};

/// Credentials in which no two values are alike, so that no two can be exchanged unseen.
const SHEET: &str = "ruid=2\neuid=20\nsuid=30000\nfsuid=4294967294\nrgid=3\negid=40\nsgid=50000\nfsgid=4294967293\n\
    permitted=000001f00000003f\ninheritable=0000010f0000003e\neffective=0000009000000003\n\
    bounding=0000012345678900\nambient=000001000000003c\nsecurebits=a4\nnnp=1\n";

const DONE: &str = "code=0\nvalue=0000000000000000\ncause=0\n";
const NO_THREAD: &str = "code=3\nvalue=0000000000000000\ncause=0\n";
const NO_SLOT: &str = "code=11\nvalue=0000000000000000\ncause=0\n";
const NO_CALL: &str = "code=22\nvalue=0000000000000000\ncause=0\n";

/// A step without operands and attribute.
fn step(slot: u8, call: u8) -> String {
    let zero = "0000000000000000";
    format!("slot={slot}\ncall={call}\na={zero}\nb={zero}\nc={zero}\nattr=\n")
}

fn fork(slot: u8) -> String {
    step(slot, 30)
}

fn exit(slot: u8) -> String {
    step(slot, 31)
}

/// What a fork into that slot answers.
fn took(slot: u8) -> String {
    format!("code=0\nvalue={slot:016x}\ncause=0\n")
}

/// The end of a report in which these slots have this sheet.
fn end(in_use: &[u8], sheet: &str) -> String {
    in_use.iter().map(|slot| format!("slot={slot}\n{sheet}")).collect()
}

/// Runs the slot plan with a buffer of `room` bytes: what it comes to, and the buffer afterwards.
fn run(plan: &[u8], room: usize) -> (Outcome, Vec<u8>) {
    let mut buffer = pattern(room);
    let outcome = run_slot_plan(plan, &mut buffer);
    (outcome, buffer)
}

/// Checks that the slot plan is refused thus and changes nothing.
fn refused(plan: &[u8], room: usize, expected: Outcome) {
    assert_eq!(run(plan, room), (expected, pattern(room)), "with room for {room} bytes");
}

/// Checks that the slot plan has this report.
fn reports(plan: &str, report: &str) {
    let mut buffer = pattern(LONGEST_SLOT_REPORT);
    let number = interface::run_slot_plan(plan.as_bytes(), &mut buffer);
    let written = buffer[..report.len()].escape_ascii();
    assert_eq!((number, written.to_string()), (report.len() as u64, report.replace('\n', "\\n")), "{plan}");
    assert_eq!(buffer, in_front(report.as_bytes(), &pattern(LONGEST_SLOT_REPORT)));
}

/// Slot plans from `SHEET` and their reports.
fn rows() -> Vec<(String, String)> {
    let with = |a: &str, attribute: &str| fork(0).replacen("a=0000000000000000", a, 1).replace("attr=", attribute);
    [
        (String::new(), end(&[0], SHEET)),
        (fork(0), [took(1), end(&[0, 1], SHEET)].concat()),
        (exit(0), DONE.to_owned()),
        ([fork(0), exit(0)].concat(), [&took(1), DONE, &end(&[1], SHEET)].concat()),
        // The lowest free slot, whoever forks; 0 too.
        (
            [fork(0), fork(1), fork(2), exit(1), fork(3), exit(0), exit(2), fork(3), fork(3), fork(3)].concat(),
            [&took(1), &took(2), &took(3), DONE, &took(1), DONE, DONE, &took(0), &took(2), &took(4)].concat()
                + &end(&[0, 1, 2, 3, 4], SHEET),
        ),
        // The order of a step's refusals: a slot above 95, a slot that is free, and then what fork and exit do not use.
        (
            [step(95, 10), step(96, 10), step(99, 99), step(1, 99), fork(1), exit(1), exit(96)].concat(),
            [NO_THREAD, NO_CALL, NO_CALL, NO_THREAD, NO_THREAD, NO_THREAD, NO_CALL].concat() + &end(&[0], SHEET),
        ),
        (
            [with("a=0000000000000001", "attr="), with("a=0000000000000000", "attr=00"), step(0, 29), step(0, 32)]
                .concat(),
            NO_CALL.repeat(4) + &end(&[0], SHEET),
        ),
        // Nobody is left.
        (
            [exit(0), exit(0), fork(0), step(0, 99), step(95, 14), step(96, 14)].concat(),
            [DONE, NO_THREAD, NO_THREAD, NO_THREAD, NO_THREAD, NO_CALL].concat(),
        ),
    ]
    .map(|(steps, report)| ([SHEET, &steps].concat(), report))
    .into()
}

#[test]
fn every_row_has_its_report() {
    for (plan, report) in rows() {
        reports(&plan, &report);
    }
}

#[test]
fn room_exactly_right_one_short_and_every_other() {
    for (plan, report) in rows() {
        for room in 0..report.len() {
            refused(plan.as_bytes(), room, Outcome::NoRoom);
        }
        for room in report.len()..report.len() + 64 {
            let outcome = Outcome::Report { length: report.len() };
            let buffer = in_front(report.as_bytes(), &pattern(room));
            assert_eq!(run(plan.as_bytes(), room), (outcome, buffer), "with room for {room} bytes");
        }
    }
}

// The line of the fault is one more than the whole lines that are left. Cut after the sheet or after a step it is a slot plan of fewer steps.
#[test]
fn a_slot_plan_cut_anywhere_is_refused_at_the_line_of_the_cut() {
    for (plan, _) in rows() {
        for cut in 0..plan.len() {
            let text = &plan.as_bytes()[..cut];
            let whole_lines = text.iter().filter(|&&byte| byte == b'\n').count();
            let is_whole = text.ends_with(b"\n") && whole_lines >= 15 && (whole_lines - 15) % 6 == 0;
            let expected = if is_whole { Outcome::NoRoom } else { Outcome::Malformed { line: whole_lines as u32 + 1 } };
            refused(text, 0, expected);
        }
    }
}

// Malformed before invalid before no room; and each of the eight IDs by itself.
#[test]
fn a_refused_slot_plan_changes_no_byte() {
    let steps = [fork(0), exit(0)].concat();
    let invalid = [INVALID_START, &steps].concat();
    let malformed = [INVALID_START, &steps, "slot=100\n"].concat();
    for room in [0, 1, 37, 38, 311, 312, LONGEST_SLOT_REPORT, LONGEST_SLOT_REPORT + 1] {
        refused(invalid.as_bytes(), room, Outcome::Invalid);
        refused(malformed.as_bytes(), room, Outcome::Malformed { line: 28 });
        for line in SHEET.lines().take(8) {
            let (key, _) = line.split_once('=').expect("a line of a sheet");
            let sheet = SHEET.replacen(&format!("{line}\n"), &format!("{key}=4294967295\n"), 1);
            refused([&sheet, &steps[..]].concat().as_bytes(), room, Outcome::Invalid);
        }
    }
}

#[test]
fn a_slot_is_written_as_a_call_is() {
    let broken =
        ["100", "00", "07", "095", "", " 1", "1 ", "+1", "-1", "0x1", "a", "256", "4294967296", "18446744073709551616"];
    for slot in broken {
        let text = [SHEET, &fork(0), &fork(0).replace("slot=0", &format!("slot={slot}"))].concat();
        refused(text.as_bytes(), 64, Outcome::Malformed { line: 22 });
    }
    for line in ["Slot=0", "slot 0", " slot=0", "slots=0", "slot=0\r", "call=30"] {
        let text = [SHEET, &fork(0).replace("slot=0", line)].concat();
        refused(text.as_bytes(), 64, Outcome::Malformed { line: 16 });
    }
}

/// Every child forks the next, until all slots are in use: the steps, and what they answer.
fn family() -> (String, String) {
    let parents = 0..SLOTS as u8 - 1;
    (parents.clone().map(fork).collect(), parents.map(|parent| took(parent + 1)).collect())
}

#[test]
fn all_96_in_use_and_one_more() {
    let (forks, taken) = family();
    let with_operand = fork(95).replace("b=0000000000000000", "b=0000000000000001");
    let more = [fork(0), fork(95), with_operand, step(96, 30), exit(40), fork(40), fork(95), fork(0)].concat();
    let answers = [NO_SLOT, NO_SLOT, NO_CALL, NO_CALL, DONE, NO_THREAD, &took(40), NO_SLOT].concat();
    let all: Vec<u8> = (0..96).collect();
    reports(&[SHEET, &forks, &more].concat(), &[taken, answers, end(&all, SHEET)].concat());
}

#[test]
fn the_longest_report() {
    let (forks, taken) = family();
    let sheet = longest_sheet();
    let all: Vec<u8> = (0..96).collect();
    let plan = [&sheet, &forks, &step(95, 99).repeat(161)].map(String::as_str).concat();
    let report = [taken, NO_CALL.repeat(161), end(&all, &sheet)].concat();
    assert_eq!(report.len(), LONGEST_SLOT_REPORT);
    reports(&plan, &report);
    refused(plan.as_bytes(), LONGEST_SLOT_REPORT - 1, Outcome::NoRoom);
}

#[test]
fn the_longest_slot_plan_and_what_stands_after_it() {
    let step = ["slot=99\n", &longest_step()].concat();
    let mut text = [longest_sheet(), step.repeat(256)].concat();
    assert_eq!(text.len(), LONGEST_SLOT_PLAN);
    reports(&text, &[NO_CALL.repeat(256), end(&[0], &longest_sheet())].concat());
    for more in ["\n", "s", &step, "\0", &"\n".repeat(1_000_000)] {
        text.truncate(LONGEST_SLOT_PLAN);
        text.push_str(more);
        refused(text.as_bytes(), LONGEST_SLOT_REPORT, Outcome::Malformed { line: 1_552 });
    }
}

#[test]
fn empty_slices() {
    assert_eq!(run_slot_plan(&[], &mut []), Outcome::Malformed { line: 1 });
    assert_eq!(run_slot_plan(SHEET.as_bytes(), &mut []), Outcome::NoRoom);
    assert_eq!(run_slot_plan(INVALID_START.as_bytes(), &mut []), Outcome::Invalid);
}

/// The example plans that are run below, by themselves and in slots.
const EXAMPLES: [&str; 6] =
    ["burner-start", "cafe-panel", "drop-root-keep-caps", "label-printer", "sealed-helper", "rules/why-refused"];

/// A plan's sheet and its steps, and what they answer and leave.
struct Example {
    sheet: String,
    steps: Vec<String>,
    answers: Vec<StepResult>,
    after: String,
}

fn example(name: &str) -> Example {
    let plan = String::from_utf8(read(&format!("{name}.plan"))).expect("a plan is ASCII");
    let lines: Vec<&str> = plan.split_inclusive('\n').collect();
    let mut report = [0; LONGEST_REPORT];
    let Outcome::Report { length } = run_plan(plan.as_bytes(), &mut report) else { panic!("{name}") };
    let mut told = results(&report[..length]);
    let answers = told.by_ref().collect();
    Example {
        sheet: lines[..15].concat(),
        steps: lines[15..].chunks(5).map(<[&str]>::concat).collect(),
        answers,
        after: String::from_utf8(told.rest().to_vec()).expect("a sheet is ASCII"),
    }
}

/// Runs the slot plan: what its steps answer, and the end of its report.
fn told(plan: &str) -> (Vec<StepResult>, String) {
    let mut report = [0; LONGEST_SLOT_REPORT];
    let Outcome::Report { length } = run_slot_plan(plan.as_bytes(), &mut report) else { panic!("{plan}") };
    let mut told = results(&report[..length]);
    let answers = told.by_ref().collect();
    let mut left = slots(&report[..length]);
    assert!(left.by_ref().count() > 0 && left.rest().is_empty());
    (answers, String::from_utf8(told.rest().to_vec()).expect("a report is ASCII"))
}

// In slot 0 a plan comes to what it comes to without slots.
#[test]
fn a_plan_in_slot_0() {
    for name in EXAMPLES {
        let Example { sheet, steps, answers, after } = example(name);
        let steps: String = steps.iter().map(|step| format!("slot=0\n{step}")).collect();
        assert_eq!(told(&[sheet, steps].concat()), (answers, end(&[0], &after)), "{name}");
    }
}

// And so it does in every other slot, step by step in turns with another that has the same start.
#[test]
fn a_plan_in_two_slots_in_turns() {
    for name in EXAMPLES {
        let Example { sheet, steps, answers, after } = example(name);
        let turns = |step: &String| format!("slot=1\n{step}slot=2\n{step}");
        let steps: String = steps.iter().map(turns).collect();
        let forks = [1, 2].map(|value| StepResult::Done { value });
        let expected = forks.into_iter().chain(answers.into_iter().flat_map(|answer| [answer; 2])).collect();
        let left = [end(&[0], &sheet), end(&[1, 2], &after)].concat();
        assert_eq!(told(&[sheet, fork(0), fork(1), steps].concat()), (expected, left), "{name}");
    }
}

#[test]
fn threads_do_not_disturb_each_other() {
    std::thread::scope(|threads| {
        for (plan, report) in rows() {
            threads.spawn(move || (0..50).for_each(|_| reports(&plan, &report)));
        }
    });
}
