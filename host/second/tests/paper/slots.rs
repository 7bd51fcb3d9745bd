//! The whole machine, not one thread: the table, fork and exit.

use crate::helpers::*;
use crate::slot_helpers::*;
use second::{Credentials, SlotAnswer, Threads};

/// The same but for one field, each in its turn.
fn one_field_changed(from: Credentials) -> [Credentials; 15] {
    [
        Credentials { ruid: from.ruid + 100, ..from.clone() },
        Credentials { euid: from.euid + 100, ..from.clone() },
        Credentials { suid: from.suid + 100, ..from.clone() },
        Credentials { fsuid: from.fsuid + 100, ..from.clone() },
        Credentials { rgid: from.rgid + 100, ..from.clone() },
        Credentials { egid: from.egid + 100, ..from.clone() },
        Credentials { sgid: from.sgid + 100, ..from.clone() },
        Credentials { fsgid: from.fsgid + 100, ..from.clone() },
        Credentials { permitted: FULL, ..from.clone() },
        Credentials { inheritable: FULL, ..from.clone() },
        Credentials { effective: from.permitted, ..from.clone() },
        Credentials { bounding: 0, ..from.clone() },
        Credentials { ambient: 0, ..from.clone() },
        Credentials { securebits: !from.securebits, ..from.clone() },
        Credentials { nnp: !from.nnp, ..from },
    ]
}

#[test]
fn one_slot_is_in_use_at_the_start() {
    for start in [user(), full_root(), motley()] {
        let threads = Threads::new(start.clone());
        assert_eq!(threads.held(0), Some(&start));
        assert_eq!(in_use(&threads), [0]);
    }
}

#[test]
fn there_are_96_slots() {
    let threads = family(user(), 96);
    assert_eq!(in_use(&threads), (0..=95).collect::<Vec<u8>>());
}

#[test]
fn fork_copies_all_of_the_callers_credentials() {
    for start in one_field_changed(motley()).into_iter().chain([motley(), user(), full_root()]) {
        assert!(start.is_valid());
        let mut threads = Threads::new(start.clone());
        assert_eq!(threads.step(0, &fork()), SlotAnswer { code: 0, value: 1, cause: 0 });
        assert_eq!(threads.held(0), Some(&start));
        assert_eq!(threads.held(1), Some(&start));
        assert_eq!(in_use(&threads), [0, 1]);
    }
}

#[test]
fn fork_copies_what_the_caller_holds_then_and_not_the_sheet() {
    let mut threads = Threads::new(full_root());
    done_in(&mut threads, 0, &step(15, 1000, 0, 0));
    let burner = Credentials { permitted: 0, effective: 0, ..with_ids(full_root(), 1000, 1000, 1000, 1000) };
    assert_eq!(done_in(&mut threads, 0, &fork()), 1);
    assert_eq!(threads.held(1), Some(&burner));
    done_in(&mut threads, 1, &step(13, 1, 0, 0));
    assert_eq!(done_in(&mut threads, 1, &fork()), 2);
    assert_eq!(done_in(&mut threads, 0, &fork()), 3);
    assert_eq!(threads.held(2), Some(&Credentials { nnp: true, ..burner.clone() }));
    assert_eq!(threads.held(3), Some(&burner));
}

#[test]
fn fork_takes_the_lowest_free_slot() {
    let mut threads = family(user(), 7);
    for slot in [4, 2, 5] {
        assert_eq!(done_in(&mut threads, slot, &exit()), 0);
    }
    assert_eq!(in_use(&threads), [0, 1, 3, 6]);
    for (caller, taken) in [(6, 2), (0, 4), (4, 5), (3, 7), (7, 8)] {
        assert_eq!(done_in(&mut threads, caller, &fork()), taken);
    }
    assert_eq!(in_use(&threads), (0..=8).collect::<Vec<u8>>());
}

#[test]
fn exit_frees_its_slot_and_no_other() {
    for slot in 0..=95 {
        let mut threads = family(motley(), 96);
        assert_eq!(threads.step(slot, &exit()), SlotAnswer { code: 0, value: 0, cause: 0 });
        for other in 0..=95 {
            let held = if other == slot { None } else { Some(motley()) };
            assert_eq!(threads.held(other), held.as_ref());
        }
    }
}

#[test]
fn a_freed_slot_is_taken_again_with_nothing_left_in_it() {
    // Slots 0, 1 and 2 hold the start. The last one changes and exits; a fork by slot 1 takes its slot.
    let changes = [
        step(2, FULL, FULL, FULL),
        step(5, 13, 0, 0),
        step(3, 17, 0, 0),
        step(9, 0xff, 0, 0),
        step(13, 1, 0, 0),
        step(21, 1, 2, 3),
        step(22, 4, 0, 0),
        step(17, 1, 2, 3),
        step(18, 4, 0, 0),
    ];
    let mut threads = family(full_root(), 3);
    for change in &changes {
        done_in(&mut threads, 2, change);
    }
    assert_ne!(threads.held(2), Some(&full_root()));
    done_in(&mut threads, 2, &exit());
    assert_eq!(threads.held(2), None);
    assert_eq!(done_in(&mut threads, 1, &fork()), 2);
    assert!(threads == family(full_root(), 3));
}

#[test]
fn a_fork_has_the_freed_slots_forker_as_its_parent() {
    let mut threads = family(user(), 3);
    done_in(&mut threads, 1, &step(13, 1, 0, 0));
    done_in(&mut threads, 2, &exit());
    assert_eq!(done_in(&mut threads, 1, &fork()), 2);
    assert_eq!(threads.held(2), Some(&Credentials { nnp: true, ..user() }));
    done_in(&mut threads, 2, &exit());
    assert_eq!(done_in(&mut threads, 0, &fork()), 2);
    assert_eq!(threads.held(2), Some(&user()));
}

#[test]
fn slot_0_may_exit_and_is_taken_again() {
    let mut threads = family(user(), 2);
    done_in(&mut threads, 1, &step(13, 1, 0, 0));
    assert_eq!(done_in(&mut threads, 0, &exit()), 0);
    assert_eq!(in_use(&threads), [1]);
    assert_refused_in(&threads, 0, &fork(), 3);
    assert_eq!(done_in(&mut threads, 1, &fork()), 0);
    assert_eq!(in_use(&threads), [0, 1]);
    assert_eq!(threads.held(0), Some(&Credentials { nnp: true, ..user() }));
    assert_eq!(done_in(&mut threads, 0, &fork()), 2);
}

#[test]
fn the_last_one_may_exit() {
    for last in [0, 1, 50, 95] {
        let mut threads = family(user(), 96);
        for slot in (0..=95).filter(|&slot| slot != last) {
            done_in(&mut threads, slot, &exit());
        }
        assert_eq!(in_use(&threads), [last]);
        assert_eq!(done_in(&mut threads, last, &exit()), 0);
        assert_eq!(in_use(&threads), []);
        for slot in 0..=95 {
            for call in 0..=255 {
                assert_refused_in(&threads, slot, &step(call, 0, 0, 0), 3);
            }
        }
        assert_refused_in(&threads, 96, &fork(), 22);
    }
}

#[test]
fn all_96_in_use_and_one_more() {
    let mut threads = family(user(), 96);
    for slot in 0..=95 {
        assert_refused_in(&threads, slot, &fork(), 11);
    }
    for freed in [95, 0, 41] {
        let caller = 94 - freed / 2;
        done_in(&mut threads, freed, &exit());
        assert_eq!(done_in(&mut threads, caller, &fork()), u64::from(freed));
        assert_refused_in(&threads, caller, &fork(), 11);
    }
}

#[test]
fn fork_is_refused_with_11_exactly_if_no_slot_is_free() {
    for count in 1..=96 {
        let mut threads = family(user(), count);
        let code = if count == 96 { 11 } else { 0 };
        let value = if count == 96 { 0 } else { u64::from(count) };
        assert_eq!(threads.step(count - 1, &fork()), SlotAnswer { code, value, cause: 0 });
    }
}
