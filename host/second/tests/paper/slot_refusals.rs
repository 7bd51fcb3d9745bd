//! The whole machine, not one thread: the refusals of a step in a slot, their causes and their order.

use crate::helpers::*;
use crate::refusals::not_valid;
use crate::slot_helpers::*;
use second::{Credentials, Step, Threads};

/// Steps with whatever can be wrong with them, and fork, exit and a call as they should be.
fn whatever_steps() -> Vec<Step> {
    let mut steps: Vec<Step> = (0..=255).map(|call| step(call, 0, 0, 0)).collect();
    for call in [0, 1, 14, 15, 29, 30, 31, 32, 99] {
        steps.push(step(call, u64::MAX, u64::MAX, u64::MAX));
        steps.push(Step { attr: vec![0xff], ..step(call, 0, 0, 0) });
    }
    steps
}

/// Fork and exit with one thing that they do not use.
fn with_something_unused() -> Vec<Step> {
    let mut wrong = Vec::new();
    for bare in [fork(), exit()] {
        for value in [1, 30, 95, 1 << 31, LEAVE, 1 << 32, 1 << 63, u64::MAX] {
            wrong.push(Step { a: value, ..bare.clone() });
            wrong.push(Step { b: value, ..bare.clone() });
            wrong.push(Step { c: value, ..bare.clone() });
        }
        for attr in [vec![0], vec![0xff], attribute(0, 0, false), attribute(NET_RAW, 0, true), vec![0; 1000]] {
            wrong.push(Step { attr, ..bare.clone() });
        }
    }
    wrong
}

#[test]
fn code_22_a_slot_above_95() {
    let mut empty = Threads::new(user());
    done_in(&mut empty, 0, &exit());
    for threads in [Threads::new(user()), family(user(), 96), empty] {
        for slot in 96..=255 {
            for step in [fork(), exit(), step(14, 0, 0, 0), step(99, 0, 0, 0), step(30, 1, 0, 0)] {
                assert_refused_in(&threads, slot, &step, 22);
            }
        }
        for step in whatever_steps() {
            assert_refused_in(&threads, 96, &step, 22);
            assert_refused_in(&threads, 99, &step, 22);
        }
    }
}

#[test]
fn code_3_any_step_naming_an_unused_slot() {
    let threads = family(user(), 40);
    for slot in 40..=95 {
        for step in whatever_steps().iter().chain(&with_something_unused()) {
            assert_refused_in(&threads, slot, step, 3);
        }
    }
}

#[test]
fn code_3_a_slot_that_is_free_again() {
    let mut threads = family(user(), 96);
    for slot in [0, 7, 95] {
        done_in(&mut threads, slot, &exit());
    }
    for slot in [0, 7, 95] {
        for step in whatever_steps() {
            assert_refused_in(&threads, slot, &step, 3);
        }
    }
    assert_eq!(done_in(&mut threads, 1, &fork()), 0);
    assert_eq!(done_in(&mut threads, 0, &step(18, LEAVE, 0, 0)), 1000);
    assert_refused_in(&threads, 7, &fork(), 3);
}

#[test]
fn code_22_fork_and_exit_use_no_operand_and_no_attribute() {
    for threads in [Threads::new(full_root()), family(user(), 40)] {
        for step in with_something_unused() {
            assert_refused_in(&threads, 0, &step, 22);
        }
    }
    for step in with_something_unused() {
        assert_refused_in(&family(user(), 40), 39, &step, 22);
    }
}

#[test]
fn code_22_unknown_calls_in_a_slot() {
    // 29 and 32 stand beside fork and exit.
    for threads in [Threads::new(full_root()), family(full_root(), 96)] {
        for call in (0..=255).filter(|call| ![30, 31].contains(call) && !(1..=22).contains(call)) {
            assert_refused_in(&threads, 0, &step(call, 0, 0, 0), 22);
            assert_refused_in(&threads, 0, &step(call, 1, 0, 0), 22);
        }
    }
}

#[test]
fn code_22_fork_and_exit_are_no_calls_of_one_thread() {
    for before in [user(), full_root()] {
        for step in [fork(), exit()].iter().chain(&with_something_unused()) {
            assert_refused(&before, step, 22);
        }
    }
}

#[test]
fn code_72_for_fork_and_exit_too() {
    for credentials in not_valid() {
        let threads = Threads::new(credentials);
        assert_refused_in(&threads, 0, &fork(), 72);
        assert_refused_in(&threads, 0, &exit(), 72);
        for call in 0..=255 {
            assert_refused_in(&threads, 0, &step(call, 0, 0, 0), 72);
        }
    }
}

#[test]
fn order_22_of_the_slot_before_3_before_72() {
    for credentials in not_valid() {
        let threads = Threads::new(credentials);
        for step in [fork(), exit(), step(14, 0, 0, 0), step(99, 0, 0, 0)] {
            assert_refused_in(&threads, 0, &step, 72);
            assert_refused_in(&threads, 1, &step, 3);
            assert_refused_in(&threads, 95, &step, 3);
            assert_refused_in(&threads, 96, &step, 22);
            assert_refused_in(&threads, 255, &step, 22);
        }
    }
}

#[test]
fn order_3_before_the_rest() {
    let threads = Threads::new(full_root());
    let unreadable = execve(0, 0, vec![0]);
    for (step, code) in [(step(30, 1, 0, 0), 22), (step(31, 0, 1, 0), 22), (step(99, 0, 0, 0), 22), (unreadable, 60)] {
        assert_refused_in(&threads, 0, &step, code);
        assert_refused_in(&threads, 1, &step, 3);
        assert_refused_in(&threads, 96, &step, 22);
    }
    let raise = step(5, 13, 0, 0);
    assert_not_permitted_in(&threads, 0, &raise, 6);
    assert_refused_in(&threads, 1, &raise, 3);
    assert_refused_in(&threads, 96, &raise, 22);
}

#[test]
fn order_72_before_the_rest() {
    let threads = Threads::new(Credentials { effective: NET_RAW, ..user() });
    for step in with_something_unused().iter().chain(&whatever_steps()) {
        assert_refused_in(&threads, 0, step, 72);
    }
    assert_refused_in(&threads, 0, &execve(LEAVE, 0, vec![]), 72);
    assert_refused_in(&threads, 0, &execve(0, 0, vec![0]), 72);
    assert_refused_in(&threads, 0, &step(15, 0, 0, 0), 72);
}

#[test]
fn order_22_before_11() {
    let threads = family(user(), 96);
    for slot in [0, 1, 95] {
        assert_refused_in(&threads, slot, &fork(), 11);
        for step in with_something_unused() {
            assert_refused_in(&threads, slot, &step, 22);
        }
        assert_refused_in(&threads, slot, &step(29, 0, 0, 0), 22);
        assert_refused_in(&threads, slot, &step(32, 0, 0, 0), 22);
    }
    assert_refused_in(&threads, 96, &fork(), 22);
}

#[test]
fn code_11_is_for_fork_alone() {
    let full = family(user(), 96);
    assert_not_permitted_in(&full, 5, &step(15, 0, 0, 0), 10);
    assert_refused_in(&full, 5, &execve(0, 0, vec![0]), 60);
    for slot in [0, 5, 95] {
        let mut threads = full.clone();
        assert_eq!(done_in(&mut threads, slot, &step(18, LEAVE, 0, 0)), 1000);
        assert_eq!(done_in(&mut threads, slot, &exit()), 0);
    }
}

#[test]
fn order_22_before_60_before_1_in_a_slot() {
    let threads = family(Credentials { bounding: 0, ..user() }, 3);
    let refused_by_f = attribute(NET_RAW, 0, true);
    let unreadable = attribute(NET_RAW | 1 << 41, 0, true);
    for slot in 0..3 {
        assert_refused_in(&threads, slot, &execve(LEAVE, 0, unreadable.clone()), 22);
        assert_refused_in(&threads, slot, &execve(0, 0, unreadable.clone()), 60);
        assert_refused_in(&threads, slot, &execve(LEAVE, 0, refused_by_f.clone()), 22);
        assert_not_permitted_in(&threads, slot, &execve(0, 0, refused_by_f.clone()), 11);
    }
    assert_refused_in(&threads, 3, &execve(LEAVE, 0, unreadable.clone()), 3);
}

#[test]
fn code_1_has_its_cause_in_a_slot() {
    // P={8,12,13}, I={13}, B={10}; slot 1 has SETPCAP effective, and in it NOROOT is locked.
    let start = Credentials {
        permitted: SETPCAP | NET_ADMIN | NET_RAW,
        inheritable: NET_RAW,
        bounding: NET_BIND_SERVICE,
        securebits: NO_CAP_AMBIENT_RAISE | KEEP_CAPS_LOCKED,
        ..user()
    };
    let mut threads = family(start.clone(), 2);
    done_in(&mut threads, 1, &step(2, start.permitted, start.inheritable, SETPCAP));
    done_in(&mut threads, 1, &step(9, u64::from(start.securebits | NOROOT_LOCKED), 0, 0));
    for (slot, refused, cause) in [
        (0, step(3, 10, 0, 0), 1),
        (0, step(2, start.permitted, NET_BIND_SERVICE, 0), 2),
        (0, step(2, start.permitted, NET_ADMIN, 0), 3),
        (0, step(2, start.permitted | NET_BIND_SERVICE, NET_RAW, 0), 4),
        (0, step(2, start.permitted, NET_RAW, NET_BIND_SERVICE), 5),
        (0, step(5, 12, 0, 0), 6),
        (0, step(5, 13, 0, 0), 7),
        (1, step(9, u64::from(start.securebits), 0, 0), 8),
        (1, step(9, u64::from(start.securebits | NOROOT_LOCKED | NOROOT), 0, 0), 9),
        (0, step(11, 0, 0, 0), 9),
        (0, step(15, 0, 0, 0), 10),
        (0, step(20, 0, LEAVE, 0), 10),
        (0, execve(0, 0, attribute(SYS_RAWIO, 0, true)), 11),
    ] {
        assert_not_permitted_in(&threads, slot, &refused, cause);
    }
    // The other slot's capability is of no use to slot 0, nor is slot 0's lack of it a bar to slot 1.
    assert_not_permitted_in(&threads, 0, &step(9, 0xff, 0, 0), 1);
    done_in(&mut threads, 1, &step(3, 10, 0, 0));
}
