//! Tables, steps and texts that the tests of slots and slot plans share.

use crate::helpers::*;
use second::{run_slot_plan, Credentials, Outcome, SlotAnswer, Step, Threads};

pub fn fork() -> Step {
    step(30, 0, 0, 0)
}

pub fn exit() -> Step {
    step(31, 0, 0, 0)
}

/// Valid credentials of which no two IDs and no two sets are alike, and no field is 0 or as in `user`.
pub fn motley() -> Credentials {
    Credentials {
        ruid: 1,
        euid: 2,
        suid: 3,
        fsuid: 4,
        rgid: 5,
        egid: 6,
        sgid: 7,
        fsgid: 8,
        permitted: SETUID | NET_BIND_SERVICE | NET_ADMIN | NET_RAW,
        inheritable: NET_RAW | SYS_RAWIO,
        effective: NET_BIND_SERVICE | NET_ADMIN,
        bounding: FULL & !SYS_RAWIO,
        ambient: NET_RAW,
        securebits: 0xa5,
        nnp: true,
    }
}

/// Takes a step that is done, and gives its value.
pub fn done_in(threads: &mut Threads, slot: u8, step: &Step) -> u64 {
    let SlotAnswer { code, value, cause } = threads.step(slot, step);
    assert_eq!((code, cause), (0, 0), "{step:?} in slot {slot}");
    value
}

/// A table with slots 0 to `count - 1` in use, each with these credentials.
pub fn family(start: Credentials, count: u8) -> Threads {
    let mut threads = Threads::new(start);
    for slot in 1..count {
        assert_eq!(done_in(&mut threads, 0, &fork()), u64::from(slot));
    }
    threads
}

/// The slots in use.
pub fn in_use(threads: &Threads) -> Vec<u8> {
    (0..=255).filter(|&slot| threads.held(slot).is_some()).collect()
}

/// A step in this slot has just this answer, and leaves the table as it was.
fn assert_answers_and_leaves(threads: &Threads, slot: u8, step: &Step, answer: SlotAnswer) {
    let mut after = threads.clone();
    assert_eq!(after.step(slot, step), answer, "{step:?} in slot {slot}");
    assert!(after == *threads, "{step:?} in slot {slot} changes the table");
}

/// A step that is refused with anything but 1 answers its code, value 0 and cause 0.
pub fn assert_refused_in(threads: &Threads, slot: u8, step: &Step, code: u32) {
    assert!([3, 11, 22, 60, 72].contains(&code), "refusal 1 has a cause");
    assert_answers_and_leaves(threads, slot, step, SlotAnswer { code, value: 0, cause: 0 });
}

/// A call that the rules do not allow answers 1, value 0 and its cause.
pub fn assert_not_permitted_in(threads: &Threads, slot: u8, step: &Step, cause: u32) {
    assert!((1..=11).contains(&cause), "there are eleven causes");
    assert_answers_and_leaves(threads, slot, step, SlotAnswer { code: 1, value: 0, cause });
}

/// The text of a step, its slot's line in front.
pub fn in_slot(slot: u8, step: &str) -> String {
    format!("slot={slot}\n{step}")
}

/// The text of slot steps without an attribute: slot, call and operands.
pub fn slot_steps(slot_steps: &[(u8, u8, [u64; 3])]) -> String {
    slot_steps.iter().map(|&(slot, call, operands)| in_slot(slot, &steps(&[(call, operands)]))).collect()
}

/// The text of a fork in this slot.
pub fn fork_text(slot: u8) -> String {
    slot_steps(&[(slot, 30, [0; 3])])
}

/// The text of an exit in this slot.
pub fn exit_text(slot: u8) -> String {
    slot_steps(&[(slot, 31, [0; 3])])
}

/// A step's three lines in a report.
pub fn result(code: u32, value: u64, cause: u32) -> String {
    format!("code={code}\nvalue={value:016x}\ncause={cause}\n")
}

/// A report's lines for the slots from `first` to `last`, each with this sheet.
pub fn sheets(first: u8, last: u8, sheet: &str) -> String {
    (first..=last).map(|slot| in_slot(slot, sheet)).collect()
}

/// The outcome of a slot plan, and its report; a refused slot plan must leave the buffer alone.
pub fn run_slots(plan: &[u8]) -> (Outcome, String) {
    let mut buffer = vec![0xa5; 40_000];
    let outcome = run_slot_plan(plan, &mut buffer);
    let length = if let Outcome::Report { length } = outcome { length } else { 0 };
    assert!(buffer[length..].iter().all(|&byte| byte == 0xa5));
    (outcome, String::from_utf8(buffer[..length].to_vec()).unwrap())
}

/// The slot plan has just this report.
pub fn assert_reports(plan: &str, report: &str) {
    let outcome = Outcome::Report { length: report.len() };
    assert_eq!(run_slots(plan.as_bytes()), (outcome, report.to_string()), "{plan}");
}

/// The slot plan is malformed at this line.
pub fn assert_malformed_slots(plan: impl AsRef<[u8]>, line: u32) {
    let plan = plan.as_ref();
    let outcome = run_slots(plan).0;
    assert_eq!(outcome, Outcome::Malformed { line }, "{:?}", String::from_utf8_lossy(plan));
}
