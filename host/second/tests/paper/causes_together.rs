//! Why it was refused: the causes that each call has, the lowest of several, and 0 where another refusal goes before.
//!
//! The calls and their causes: call 1 has 11; call 2 has 2, 3, 4 and 5; call 3 has 1; call 5 has 6 and 7; call 9 has 1,
//! 8 and 9; call 11 has 9; calls 15, 16, 17, 19, 20 and 21 have 10; the others have none.
//!
//! Two causes meet only where one call has both, which is so for ten of the 55 pairs. All ten can be had:
//! - call 2: 2 and 3, 2 and 4, 2 and 5, 3 and 4, 3 and 5, 4 and 5;
//! - call 5: 6 and 7;
//! - call 9: 1 and 8, 1 and 9, 8 and 9.
//!
//! The other 45 cannot:
//! - 1 and any of 2 to 5: the lack of CAP_SETPCAP is part of capset's first test and no cause there;
//! - 1 and 6 or 7: an ambient raise needs no capability to be effective;
//! - 1 and 10: the ID calls ask for the capability, but answer 10 for the lack of it;
//! - 1 and 11: a launch needs no capability;
//! - any of 2 to 5 and any of 6 to 11: capset looks at no flag, no lock, no ID and no file;
//! - 6 or 7 and any of 8 to 11: an ambient raise leaves flags and locks, and has no ID and no file;
//! - 8 or 9 and 10 or 11: calls 9 and 11 have no ID and no file;
//! - 10 and 11: a launch sets IDs without asking, and the ID calls have no file.
//!
//! Within capset, 2 meets nothing where CAP_SETPCAP is effective. Call 11 has the one test, so there 9 meets nothing.

use crate::causes::*;
use crate::helpers::*;
use second::{perform, Credentials, Step};

/// The causes that a call has.
fn causes_of(call: u8) -> &'static [u32] {
    match call {
        1 => &[11],
        2 => &[2, 3, 4, 5],
        3 => &[1],
        5 => &[6, 7],
        9 => &[1, 8, 9],
        11 => &[9],
        15..=17 | 19..=21 => &[10],
        _ => &[],
    }
}

/// Threads of many kinds, valid and not.
fn threads() -> Vec<Credentials> {
    let mut all = Vec::new();
    for thread in [user(), eight_ids(), root(), full_root(), ambient_user(), five(), with_setpcap(five()), raising(0)] {
        for securebits in [0, KEEP_CAPS_LOCKED, NO_CAP_AMBIENT_RAISE, 0x55, 0xaa, 0xff] {
            all.push(Credentials { securebits, ..thread.clone() });
            all.push(Credentials { securebits, bounding: 0, ..thread.clone() });
            all.push(Credentials { securebits, nnp: true, ..thread.clone() });
            all.push(Credentials { securebits, fsgid: u32::MAX, ..thread.clone() });
        }
    }
    all
}

#[test]
fn a_cause_comes_with_refusal_1_alone_and_is_one_of_the_calls_own() {
    let operands = [0, 1, 2, 9, 13, 20, 21, 32, 0xaa, 0xff, 256, V | W, Y, Z, LEAVE, LEAVE + 1];
    let attributes = [vec![], attribute(NET_RAW, 0, true), attribute(NET_RAW, 0, false), vec![0]];
    let mut seen = Vec::new();
    for before in threads() {
        for call in 0..=23 {
            // One operand alone, the same one thrice, and the same one beside two others.
            for &a in &operands {
                for (b, c) in [(0, 0), (a, a), (W | Y, W), (LEAVE, LEAVE), (a, 0)] {
                    let attr = if call == 1 { attributes[a as usize % 4].clone() } else { vec![] };
                    let step = Step { attr, ..step(call, a, b, c) };
                    let answer = perform(&before, &step);
                    if answer.code == 1 {
                        assert!(causes_of(call).contains(&answer.cause), "{step:?} on {before:?}: {answer:?}");
                        seen.push((call, answer.cause));
                    } else {
                        assert_eq!(answer.cause, 0, "{step:?} on {before:?}: {answer:?}");
                    }
                }
            }
        }
    }
    seen.sort_unstable();
    seen.dedup();
    let mut all = Vec::new();
    for call in 0..=23 {
        all.extend(causes_of(call).iter().map(|&cause| (call, cause)));
    }
    assert_eq!(seen, all);
}

const PAIRS: [Capset; 7] = [
    // One capability fails both tests, or each of two fails one.
    ([V | W, Z, W], &[2, 3]),
    ([V | W, V | Y, W], &[2, 3]),
    ([V | Y, W | Y, Y], &[2, 4]),
    ([V, W | Y, W], &[2, 5]),
    ([V | Y, V | X, Y], &[3, 4]),
    ([V, V | X, W], &[3, 5]),
    ([Y, W | X, W], &[4, 5]),
];

const THREE_AND_FOUR: [Capset; 6] = [
    ([V | Y, V | Y, Y], &[2, 3, 4]),
    ([V, V | Y, W], &[2, 3, 5]),
    ([Y, W | Y, W], &[2, 4, 5]),
    ([Y, V | X, W], &[3, 4, 5]),
    ([Y, Z, W], &[2, 3, 4, 5]),
    ([FULL & !1, FULL, FULL], &[2, 3, 4, 5]),
];

#[test]
fn causes_2_to_5_meet_in_pairs() {
    for (sets, causes) in PAIRS {
        assert_eq!(causes.len(), 2);
        assert_capset(&five(), sets, causes);
    }
}

#[test]
fn causes_2_to_5_meet_three_and_four_at_once() {
    for (sets, causes) in THREE_AND_FOUR {
        assert_capset(&five(), sets, causes);
    }
}

#[test]
fn cause_2_goes_where_setpcap_is_effective_and_the_next_is_answered() {
    let before = with_setpcap(five());
    for (sets, causes) in NONE.into_iter().chain(SINGLE).chain(PAIRS).chain(THREE_AND_FOUR) {
        let others: Vec<u32> = causes.iter().copied().filter(|&cause| cause != 2).collect();
        assert_capset(&before, sets, &others);
    }
}

#[test]
fn capset_without_setpcap_never_gives_1() {
    // Nothing but the first test asks for SETPCAP: the others give the same without it.
    for (sets, causes) in NONE.into_iter().chain(SINGLE).chain(PAIRS).filter(|(_, causes)| !causes.contains(&2)) {
        assert_capset(&five(), sets, causes);
        assert_capset(&with_setpcap(five()), sets, causes);
    }
}

#[test]
fn causes_6_and_7_give_6() {
    for securebits in [NO_CAP_AMBIENT_RAISE, NO_CAP_AMBIENT_RAISE | NO_CAP_AMBIENT_RAISE_LOCKED, 0xff] {
        for capability in [20, 22, 23, 0, 40] {
            assert_not_permitted(&raising(securebits), &step(5, capability, 0, 0), 6);
        }
    }
}

#[test]
fn causes_8_and_9_give_8() {
    for flag in FLAGS {
        let lock = 2 * flag;
        // Of one flag.
        assert_securebits_cause(lock, flag, 8);
        assert_securebits_cause(lock | flag, 0, 8);
        // Of two: this one's lock is undone and another one, still locked, is changed.
        for other in FLAGS.into_iter().filter(|&other| other != flag) {
            let other_lock = 2 * other;
            assert_securebits_cause(lock | other_lock, other_lock | other, 8);
            assert_securebits_cause(lock | other_lock | other, other_lock, 8);
        }
    }
    assert_securebits_cause(0xff, 0, 8);
    assert_securebits_cause(0xaa, 0x55, 8);
    assert_securebits_cause(NOROOT_LOCKED | NO_SETUID_FIXUP_LOCKED, NOROOT_LOCKED | NOROOT, 8);
}

#[test]
fn causes_1_and_8_give_1() {
    for flag in FLAGS {
        let lock = 2 * flag;
        assert_securebits_need_setpcap(lock, 0);
        assert_securebits_need_setpcap(lock | flag, flag);
        assert_securebits_need_setpcap(0xff, !lock);
    }
}

#[test]
fn causes_1_and_9_give_1() {
    for flag in FLAGS {
        let lock = 2 * flag;
        assert_securebits_need_setpcap(lock, lock | flag);
        assert_securebits_need_setpcap(lock | flag, lock);
        assert_securebits_need_setpcap(0xff, !flag);
    }
}

#[test]
fn causes_1_8_and_9_give_1() {
    for flag in FLAGS {
        assert_securebits_need_setpcap(2 * flag, flag);
        assert_securebits_need_setpcap(3 * flag, 0);
    }
    assert_securebits_need_setpcap(0xff, 0);
    assert_securebits_need_setpcap(NOROOT_LOCKED | NO_SETUID_FIXUP_LOCKED, NOROOT_LOCKED | NOROOT);
}

#[test]
fn cause_0_for_22_where_the_rules_would_refuse_too() {
    // Each step has an operand that is out of its range or not used.
    assert_refused(&user(), &step(2, 1 << 41, FULL, FULL), 22);
    assert_refused(&user(), &step(3, 41, 0, 0), 22);
    assert_refused(&user(), &step(3, 0, 1, 0), 22);
    let barred = Credentials { securebits: 0xff, ..user() };
    assert_refused(&barred, &step(5, 41, 0, 0), 22);
    assert_refused(&barred, &step(9, 256, 0, 0), 22);
    assert_refused(&barred, &step(11, 2, 0, 0), 22);
    for call in [15, 19] {
        assert_refused(&user(), &step(call, LEAVE, 0, 0), 22);
    }
    for call in [16, 20] {
        assert_refused(&user(), &step(call, 9, LEAVE + 1, 0), 22);
    }
    for call in [17, 21] {
        assert_refused(&user(), &step(call, 9, 9, LEAVE + 1), 22);
    }
    let bounded = Credentials { bounding: 0, ..user() };
    assert_refused(&bounded, &execve(0, 32, attribute(NET_RAW, 0, true)), 22);
}

#[test]
fn cause_0_for_60_and_72() {
    let bounded = Credentials { bounding: 0, ..user() };
    assert_refused(&bounded, &execve(0, 0, attribute(NET_RAW | 1 << 41, 0, true)), 60);
    assert_refused(&bounded, &execve(0, 0, vec![0]), 60);

    // Not valid, and each step is one that the rules would refuse with 1.
    let not_valid = Credentials { ruid: u32::MAX, securebits: 0xff, ..bounded };
    assert_refused(&not_valid, &execve(0, 0, attribute(NET_RAW, 0, true)), 72);
    for step in [step(2, 0, 1, 0), step(3, 0, 0, 0), step(5, 0, 0, 0), step(9, 0, 0, 0), step(11, 0, 0, 0)] {
        assert_refused(&not_valid, &step, 72);
    }
    for call in [15, 16, 17, 19, 20, 21] {
        let operands = if call == 15 || call == 19 { [9, 0, 0] } else { [9, LEAVE, 0] };
        assert_refused(&not_valid, &step(call, operands[0], operands[1], operands[2]), 72);
    }
}
