//! What comes back: the table of refusals row by row, and their order.

use crate::helpers::*;
use second::{Credentials, Outcome, Step};

/// Operands with which each call is done by `full_root`, and how many of them the call uses.
const DONE: [(u8, [u64; 3], usize); 22] = [
    (1, [0, 0, 0], 3),
    (2, [0, 0, 0], 3),
    (3, [0, 0, 0], 1),
    (4, [0, 0, 0], 1),
    (5, [0, 0, 0], 1),
    (6, [0, 0, 0], 1),
    (7, [0, 0, 0], 1),
    (8, [0, 0, 0], 0),
    (9, [0, 0, 0], 1),
    (10, [0, 0, 0], 0),
    (11, [0, 0, 0], 1),
    (12, [0, 0, 0], 0),
    (13, [1, 0, 0], 1),
    (14, [0, 0, 0], 0),
    (15, [0, 0, 0], 1),
    (16, [0, 0, 0], 2),
    (17, [0, 0, 0], 3),
    (18, [0, 0, 0], 1),
    (19, [0, 0, 0], 1),
    (20, [0, 0, 0], 2),
    (21, [0, 0, 0], 3),
    (22, [0, 0, 0], 1),
];

/// A thread that every call of `DONE` is allowed to.
fn able() -> Credentials {
    Credentials { inheritable: 1, ..full_root() }
}

fn call(number: u8, [a, b, c]: [u64; 3]) -> Step {
    step(number, a, b, c)
}

#[test]
fn code_0_every_call_can_be_done() {
    for (number, operands, _) in DONE {
        done(&able(), &call(number, operands));
    }
}

#[test]
fn code_22_unknown_calls() {
    for number in (0..=255).filter(|number| !(1..=22).contains(number)) {
        assert_refused(&able(), &step(number, 0, 0, 0), 22);
        assert_refused(&able(), &step(number, 1, 0, 0), 22);
    }
}

#[test]
fn code_22_unused_operands() {
    for (number, operands, used) in DONE {
        for place in used..3 {
            for value in [1, 1 << 32, u64::MAX] {
                let mut wrong = operands;
                wrong[place] = value;
                assert_refused(&able(), &call(number, wrong), 22);
            }
        }
    }
}

#[test]
fn code_22_attribute_outside_execve() {
    for (number, operands, _) in DONE.iter().copied().filter(|&(number, _, _)| number != 1) {
        for attr in [vec![0], attribute(0, 0, false)] {
            assert_refused(&able(), &Step { attr, ..call(number, operands) }, 22);
        }
    }
}

#[test]
fn code_22_capability_numbers_above_40() {
    for number in 3..=7 {
        for capability in [41, 63, 64, 256, 1 << 32, u64::MAX] {
            assert_refused(&able(), &step(number, capability, 0, 0), 22);
        }
    }
}

#[test]
fn code_22_set_bits_above_40() {
    for bit in 41..64 {
        for place in 0..3 {
            let mut operands = [0; 3];
            operands[place] = 1 << bit;
            assert_refused(&able(), &call(2, operands), 22);
        }
    }
    let full = Credentials { inheritable: FULL, ..full_root() };
    assert_eq!(after(&full, &step(2, FULL, FULL, FULL)), full);
}

#[test]
fn code_22_numbers_past_their_ranges() {
    for securebits in [256, 257, 1 << 32, u64::MAX] {
        assert_refused(&able(), &step(9, securebits, 0, 0), 22);
    }
    for flags in [32, 33, 64, 1 << 32, u64::MAX] {
        assert_refused(&able(), &execve(0, flags, vec![]), 22);
    }
    for keep in [2, 3, 256, 1 << 32, u64::MAX] {
        assert_refused(&able(), &step(11, keep, 0, 0), 22);
    }
    for value in [0, 2, 257, 1 << 32, (1 << 32) + 1, u64::MAX] {
        assert_refused(&able(), &step(13, value, 0, 0), 22);
    }
}

#[test]
fn code_22_ids() {
    for owner in [LEAVE, LEAVE + 1, u64::MAX] {
        assert_refused(&able(), &execve(owner, 0, vec![]), 22);
        assert_refused(&able(), &execve(owner, SET_USER_ID, vec![]), 22);
        assert_refused(&able(), &execve(owner, SET_USER_ID | NOSUID, vec![]), 22);
        assert_refused(&able(), &step(15, owner, 0, 0), 22);
    }
    for id in [LEAVE + 1, LEAVE + 2, u64::MAX] {
        assert_refused(&able(), &step(16, id, 0, 0), 22);
        assert_refused(&able(), &step(16, 0, id, 0), 22);
        assert_refused(&able(), &step(17, id, 0, 0), 22);
        assert_refused(&able(), &step(17, 0, id, 0), 22);
        assert_refused(&able(), &step(17, 0, 0, id), 22);
        assert_refused(&able(), &step(18, id, 0, 0), 22);
    }
    done(&able(), &step(16, LEAVE, LEAVE, 0));
    done(&able(), &step(17, LEAVE, LEAVE, LEAVE));
    done(&able(), &step(18, LEAVE, 0, 0));
}

#[test]
fn code_22_group_ids() {
    for group in [LEAVE, LEAVE + 1, (1 << 32) + 1000, u64::MAX] {
        assert_refused(&able(), &step(19, group, 0, 0), 22);
        assert_refused(&user(), &step(19, group, 0, 0), 22);
    }
    for group in [LEAVE + 1, LEAVE + 2, (1 << 32) + 1000, u64::MAX] {
        for before in [able(), user()] {
            assert_refused(&before, &step(20, group, LEAVE, 0), 22);
            assert_refused(&before, &step(20, LEAVE, group, 0), 22);
            assert_refused(&before, &step(21, group, LEAVE, LEAVE), 22);
            assert_refused(&before, &step(21, LEAVE, group, LEAVE), 22);
            assert_refused(&before, &step(21, LEAVE, LEAVE, group), 22);
            assert_refused(&before, &step(22, group, 0, 0), 22);
        }
    }
    for before in [able(), user()] {
        done(&before, &step(20, LEAVE, LEAVE, 0));
        done(&before, &step(21, LEAVE, LEAVE, LEAVE));
        done(&before, &step(22, LEAVE, 0, 0));
    }
}

#[test]
fn code_22_the_files_group() {
    let nnp = Credentials { nnp: true, ..able() };
    for flags in 0..=31 {
        for group in [LEAVE, LEAVE + 1, (1 << 32) + 1000, u64::MAX] {
            assert_refused(&able(), &of_group(group, execve(0, flags, vec![])), 22);
            assert_refused(&nnp, &of_group(group, execve(0, flags, vec![])), 22);
        }
        for group in [0, 1, 1000, LEAVE - 1] {
            done(&able(), &of_group(group, execve(0, flags, vec![])));
            done(&nnp, &of_group(group, execve(0, flags, vec![])));
        }
    }
}

#[test]
fn code_60_attributes() {
    let revision_3 = [vec![0, 0, 0, 3], vec![0; 20]].concat();
    let above_40 = attribute(1 << 41, 0, false);
    let other_bit = [vec![2, 0, 0, 2], vec![0; 16]].concat();
    let version_1_long = [vec![0, 0, 0, 1], vec![0; 16]].concat();
    let version_2_short = [vec![0, 0, 0, 2], vec![0; 8]].concat();
    for attr in [vec![0], revision_3, above_40, other_bit, version_1_long, version_2_short, vec![0; 1000]] {
        assert_refused(&able(), &execve(0, 0, attr.clone()), 60);
        assert_refused(&user(), &execve(0, SET_USER_ID | SET_GROUP_ID, attr.clone()), 60);
        for flags in [NOSUID, TRACED, NO_FILE_CAPS] {
            done(&able(), &execve(0, flags, attr.clone()));
        }
        done(&Credentials { nnp: true, ..able() }, &execve(0, 0, attr));
    }
}

/// One fault in each way that credentials can have one.
pub fn not_valid() -> Vec<Credentials> {
    let mut all = vec![
        Credentials { effective: NET_RAW, ..user() },
        Credentials { inheritable: NET_RAW, ambient: NET_RAW, ..user() },
        Credentials { permitted: NET_RAW, ambient: NET_RAW, ..user() },
        Credentials { ruid: u32::MAX, ..user() },
        Credentials { euid: u32::MAX, ..user() },
        Credentials { suid: u32::MAX, ..user() },
        Credentials { fsuid: u32::MAX, ..user() },
        Credentials { rgid: u32::MAX, ..user() },
        Credentials { egid: u32::MAX, ..user() },
        Credentials { sgid: u32::MAX, ..user() },
        Credentials { fsgid: u32::MAX, ..user() },
    ];
    for bit in 41..64 {
        let high = 1 << bit;
        all.push(Credentials { permitted: high, ..user() });
        all.push(Credentials { inheritable: high, ..user() });
        all.push(Credentials { permitted: high, effective: high, ..user() });
        all.push(Credentials { bounding: high, ..user() });
        all.push(Credentials { permitted: high, inheritable: high, ambient: high, ..user() });
    }
    all
}

#[test]
fn code_72_whatever_the_step() {
    for credentials in not_valid() {
        assert!(!credentials.is_valid());
        for (number, operands, _) in DONE {
            assert_refused(&credentials, &call(number, operands), 72);
        }
        assert_refused(&credentials, &step(0, 1, 2, 3), 72);
        assert_refused(&credentials, &execve(0, 0, vec![0xff]), 72);
        assert_refused(&credentials, &of_group(LEAVE, execve(0, 0, vec![])), 72);
        assert_refused(&credentials, &step(19, LEAVE, 0, 0), 72);
    }
}

#[test]
fn credentials_at_the_edge_are_valid() {
    assert!(user().is_valid());
    let highest = with_ids(full_root(), u32::MAX - 1, u32::MAX - 1, u32::MAX - 1, u32::MAX - 1);
    let highest = with_groups(highest, u32::MAX - 1, u32::MAX - 1, u32::MAX - 1, u32::MAX - 1);
    let edge = Credentials { inheritable: FULL, ambient: FULL, securebits: 255, nnp: true, ..highest };
    assert!(edge.is_valid());
    assert!(Credentials { bounding: 0, ..edge.clone() }.is_valid());
    assert!(with_groups(edge, 0, 0, 0, 0).is_valid());
}

#[test]
fn order_22_before_60_before_1() {
    let before = Credentials { bounding: 0, ..user() };
    let refused_by_f = attribute(NET_RAW, 0, true);
    let unreadable = attribute(NET_RAW | 1 << 41, 0, true);
    assert_refused(&before, &execve(LEAVE, 0, unreadable.clone()), 22);
    assert_refused(&before, &execve(0, 32, unreadable.clone()), 22);
    assert_refused(&before, &of_group(LEAVE, execve(0, 0, unreadable.clone())), 22);
    assert_refused(&before, &of_group(LEAVE - 1, execve(0, 0, unreadable.clone())), 60);
    assert_refused(&before, &of_group(9, execve(0, SET_GROUP_ID, unreadable.clone())), 60);
    assert_refused(&before, &execve(0, 0, unreadable), 60);
    assert_not_permitted(&before, &execve(0, 0, refused_by_f.clone()), 11);
    assert_not_permitted(&before, &of_group(9, execve(0, SET_GROUP_ID, refused_by_f.clone())), 11);
    assert_refused(&before, &of_group(LEAVE, execve(0, 0, refused_by_f.clone())), 22);
    assert_refused(&before, &execve(LEAVE, 0, refused_by_f), 22);
}

#[test]
fn order_22_before_1() {
    assert_refused(&user(), &step(3, 41, 0, 0), 22);
    assert_not_permitted(&user(), &step(3, 40, 0, 0), 1);
    assert_refused(&user(), &step(5, 41, 0, 0), 22);
    assert_not_permitted(&user(), &step(5, 40, 0, 0), 6);
    assert_refused(&user(), &step(9, 256, 0, 0), 22);
    assert_not_permitted(&user(), &step(9, 255, 0, 0), 1);
    assert_refused(&user(), &step(2, 1 << 41, 0, 0), 22);
    assert_not_permitted(&user(), &step(2, 1 << 40, 0, 0), 4);
    assert_refused(&user(), &step(15, LEAVE, 0, 0), 22);
    assert_not_permitted(&user(), &step(15, LEAVE - 1, 0, 0), 10);
    assert_refused(&user(), &step(16, 1, LEAVE + 1, 0), 22);
    assert_refused(&user(), &step(19, LEAVE, 0, 0), 22);
    assert_not_permitted(&user(), &step(19, LEAVE - 1, 0, 0), 10);
    assert_refused(&user(), &step(20, 1, LEAVE + 1, 0), 22);
    assert_refused(&user(), &step(20, 1, LEAVE, 1), 22);
    assert_not_permitted(&user(), &step(20, 1, LEAVE, 0), 10);
    assert_refused(&user(), &step(21, 1, LEAVE, LEAVE + 1), 22);
    assert_not_permitted(&user(), &step(21, 1, LEAVE, LEAVE), 10);
    let locked = Credentials { securebits: KEEP_CAPS_LOCKED, ..user() };
    assert_refused(&locked, &step(11, 2, 0, 0), 22);
    assert_not_permitted(&locked, &step(11, 1, 0, 0), 9);
}

#[test]
fn plan_order_70_before_72_before_28() {
    let invalid = SHEET.replace("ruid=1000", "ruid=4294967295");
    let mut buffer = [0xa5; 4];
    let plan = format!("{invalid}{LAUNCH}x");
    assert_eq!(second::run_plan(plan.as_bytes(), &mut buffer), Outcome::Malformed { line: 21 });
    let plan = format!("{invalid}{LAUNCH}");
    assert_eq!(second::run_plan(plan.as_bytes(), &mut buffer), Outcome::Invalid);
    let plan = format!("{SHEET}{LAUNCH}");
    assert_eq!(second::run_plan(plan.as_bytes(), &mut buffer), Outcome::NoRoom);
    assert_eq!(buffer, [0xa5; 4]);
}

#[test]
fn plan_72_for_each_fault_of_the_sheet() {
    for (right, wrong) in [
        ("ruid=1000", "ruid=4294967295"),
        ("euid=1000", "euid=4294967295"),
        ("suid=1000", "suid=4294967295"),
        ("fsuid=1000", "fsuid=4294967295"),
        ("rgid=1000", "rgid=4294967295"),
        ("egid=1000", "egid=4294967295"),
        ("sgid=1000", "sgid=4294967295"),
        ("fsgid=1000", "fsgid=4294967295"),
        ("permitted=0000000000002000", "permitted=0000000000000000"),
        ("permitted=0000000000002000", "permitted=0000020000002000"),
        ("inheritable=0000000000002000", "inheritable=0000000000000000"),
        ("inheritable=0000000000002000", "inheritable=8000000000002000"),
        ("effective=0000000000002000", "effective=0000000000002001"),
        ("bounding=000001ffffffffff", "bounding=000003ffffffffff"),
        ("ambient=0000000000002000", "ambient=0000000000002001"),
    ] {
        let plan = SHEET.replacen(right, wrong, 1);
        assert_ne!(plan, SHEET);
        assert_eq!(run(plan.as_bytes()).0, Outcome::Invalid, "{wrong}");
    }
}
