//! The whole machine, not one thread: calls in a slot, what a step changes, and what its answer depends on.

use crate::helpers::*;
use crate::slot_helpers::*;
use second::{perform, Credentials, SlotAnswer, Step, Threads};

/// Steps of every call that a full root is allowed, and of some that it is refused.
fn calls() -> Vec<Step> {
    let mut calls: Vec<Step> = (0..=29).chain(32..=99).map(|call| step(call, 0, 0, 0)).collect();
    calls.extend([
        execve(1000, SET_USER_ID, vec![]),
        of_group(1000, execve(0, SET_GROUP_ID, attribute(NET_RAW, 0, true))),
        execve(0, 0, vec![0]),
        execve(0, 32, vec![]),
        step(2, NET_RAW, NET_RAW, NET_RAW),
        step(2, 0, 0, 1),
        step(3, 17, 0, 0),
        step(5, 13, 0, 0),
        step(9, 0xff, 0, 0),
        step(11, 1, 0, 0),
        step(13, 1, 0, 0),
        step(15, 1000, 0, 0),
        step(16, 1, 2, 0),
        step(17, 1, 2, 3),
        step(18, 4, 0, 0),
        step(19, 1000, 0, 0),
        step(20, 1, 2, 0),
        step(21, 1, 2, 3),
        step(22, 4, 0, 0),
    ]);
    calls
}

#[test]
fn a_call_in_a_slot_is_that_call_on_what_the_slot_holds() {
    for start in [full_root(), user(), ambient_user(), motley()] {
        for call in calls() {
            let expected = perform(&start, &call);
            let mut threads = Threads::new(start.clone());
            let answer = SlotAnswer { code: expected.code, value: expected.value, cause: expected.cause };
            assert_eq!(threads.step(0, &call), answer, "{call:?}");
            assert_eq!(threads.held(0), Some(&expected.after), "{call:?}");
            assert_eq!(in_use(&threads), [0]);
        }
    }
}

#[test]
fn a_call_in_one_slot_changes_no_other() {
    for call in calls() {
        let expected = perform(&full_root(), &call);
        for slot in [0, 1, 2, 3] {
            let mut threads = family(full_root(), 4);
            threads.step(slot, &call);
            for other in 0..=255 {
                let held = match other {
                    4.. => None,
                    _ if other == slot => Some(&expected.after),
                    _ => Some(&full_root()),
                };
                assert_eq!(threads.held(other), held, "{call:?} in slot {slot}, seen in {other}");
            }
        }
    }
}

#[test]
fn fork_changes_only_the_slot_it_takes() {
    let mut threads = family(full_root(), 5);
    for (slot, id) in [(0, 10), (1, 11), (3, 13), (4, 14)] {
        done_in(&mut threads, slot, &step(21, id, id, id));
    }
    done_in(&mut threads, 2, &exit());
    let before = threads.clone();
    assert_eq!(done_in(&mut threads, 3, &fork()), 2);
    for other in (0..=255).filter(|&other| other != 2) {
        assert_eq!(threads.held(other), before.held(other));
    }
    assert_eq!(threads.held(2), Some(&with_groups(full_root(), 13, 13, 13, 13)));
}

#[test]
fn an_answer_depends_on_its_step_and_the_named_slot_alone() {
    // Slot 1 holds the same in both; what else is in use, and what is held there, differs.
    let mut few = family(full_root(), 2);
    done_in(&mut few, 0, &exit());
    let mut many = family(full_root(), 60);
    for slot in (0..60).filter(|&slot| slot != 1) {
        done_in(&mut many, slot, &step(15, 1000, 0, 0));
    }
    for call in calls().iter().chain([&exit(), &step(30, 1, 0, 0), &step(31, 0, 0, 1)]) {
        let (mut few, mut many) = (few.clone(), many.clone());
        assert_eq!(few.step(1, call), many.step(1, call), "{call:?}");
        assert_eq!(few.held(1), many.held(1), "{call:?}");
    }
    assert_eq!(few.step(1, &fork()).value, 0);
    assert_eq!(many.step(1, &fork()).value, 60);
    assert_eq!(few.held(0), many.held(60));
}

#[test]
fn forks_number_depends_only_on_which_slots_are_in_use() {
    let (mut one, mut other) = (family(full_root(), 9), family(full_root(), 9));
    for slot in [7, 3] {
        done_in(&mut one, slot, &exit());
        done_in(&mut other, slot, &exit());
    }
    for slot in [0, 1, 2, 4, 5, 8] {
        done_in(&mut other, slot, &step(17, 9, 9, 9));
    }
    for taken in [3, 7, 9] {
        assert_eq!(done_in(&mut one, 6, &fork()), taken);
        assert_eq!(done_in(&mut other, 6, &fork()), taken);
    }
}

#[test]
fn parent_and_child_go_their_own_ways() {
    let mut threads = family(full_root(), 3);
    done_in(&mut threads, 0, &step(3, 17, 0, 0));
    done_in(&mut threads, 1, &step(15, 1000, 0, 0));
    done_in(&mut threads, 2, &step(13, 1, 0, 0));
    let panel = Credentials { permitted: 0, effective: 0, ..with_ids(full_root(), 1000, 1000, 1000, 1000) };
    assert_eq!(threads.held(0), Some(&Credentials { bounding: FULL & !SYS_RAWIO, ..full_root() }));
    assert_eq!(threads.held(1), Some(&panel));
    assert_eq!(threads.held(2), Some(&Credentials { nnp: true, ..full_root() }));
    assert_eq!(done_in(&mut threads, 0, &step(4, 17, 0, 0)), 0);
    assert_eq!(done_in(&mut threads, 1, &step(4, 17, 0, 0)), 1);
    assert_eq!(done_in(&mut threads, 1, &step(18, LEAVE, 0, 0)), 1000);
    assert_eq!(done_in(&mut threads, 2, &step(14, 0, 0, 0)), 1);
    assert_eq!(done_in(&mut threads, 1, &step(14, 0, 0, 0)), 0);
}
