//! The four user-ID calls and the capability rules for ID changes.

use crate::helpers::*;
use second::Credentials;

/// Four different user IDs, none of them 0.
fn four_ids() -> Credentials {
    with_ids(user(), 1, 2, 3, 4)
}

fn with_setuid(credentials: Credentials) -> Credentials {
    Credentials { permitted: SETUID, effective: SETUID, ..credentials }
}

fn setuid_ids(before: &Credentials, uid: u64) -> [u32; 4] {
    ids(&after(before, &step(15, uid, 0, 0)))
}

fn setreuid_ids(before: &Credentials, ruid: u64, euid: u64) -> [u32; 4] {
    ids(&after(before, &step(16, ruid, euid, 0)))
}

fn setresuid_ids(before: &Credentials, ruid: u64, euid: u64, suid: u64) -> [u32; 4] {
    ids(&after(before, &step(17, ruid, euid, suid)))
}

#[test]
fn setuid_with_the_capability_sets_all_four() {
    assert_eq!(setuid_ids(&with_setuid(four_ids()), 9), [9, 9, 9, 9]);
    assert_eq!(setuid_ids(&with_setuid(four_ids()), 4_294_967_294), [4_294_967_294; 4]);
}

#[test]
fn setuid_without_it_takes_real_or_saved() {
    assert_eq!(setuid_ids(&four_ids(), 1), [1, 1, 3, 1]);
    assert_eq!(setuid_ids(&four_ids(), 3), [1, 3, 3, 3]);
    for uid in [0, 2, 4, 9] {
        assert_not_permitted(&four_ids(), &step(15, uid, 0, 0), 10);
    }
}

#[test]
fn the_capability_must_be_effective_and_id_0_is_no_substitute() {
    let permitted_only = Credentials { permitted: SETUID, ..four_ids() };
    assert_not_permitted(&permitted_only, &step(15, 9, 0, 0), 10);
    assert_not_permitted(&root(), &step(15, 9, 0, 0), 10);
}

#[test]
fn setreuid_without_the_capability() {
    let before = four_ids();
    assert_eq!(setreuid_ids(&before, LEAVE, LEAVE), [1, 2, 3, 2]);
    assert_eq!(setreuid_ids(&before, 1, LEAVE), [1, 2, 2, 2]);
    assert_eq!(setreuid_ids(&before, 2, LEAVE), [2, 2, 2, 2]);
    assert_eq!(setreuid_ids(&before, LEAVE, 1), [1, 1, 3, 1]);
    assert_eq!(setreuid_ids(&before, LEAVE, 2), [1, 2, 2, 2]);
    assert_eq!(setreuid_ids(&before, LEAVE, 3), [1, 3, 3, 3]);
    assert_eq!(setreuid_ids(&before, 2, 1), [2, 1, 1, 1]);
    assert_eq!(setreuid_ids(&before, 1, 1), [1, 1, 1, 1]);
    for real in [0, 3, 4, 9] {
        assert_not_permitted(&before, &step(16, real, LEAVE, 0), 10);
        assert_not_permitted(&before, &step(16, real, 1, 0), 10);
    }
    for effective in [0, 4, 9] {
        assert_not_permitted(&before, &step(16, LEAVE, effective, 0), 10);
        assert_not_permitted(&before, &step(16, 1, effective, 0), 10);
    }
}

#[test]
fn setreuid_with_the_capability_has_the_same_rule_for_saved() {
    let before = with_setuid(four_ids());
    assert_eq!(setreuid_ids(&before, LEAVE, LEAVE), [1, 2, 3, 2]);
    assert_eq!(setreuid_ids(&before, LEAVE, 1), [1, 1, 3, 1]);
    assert_eq!(setreuid_ids(&before, LEAVE, 9), [1, 9, 9, 9]);
    assert_eq!(setreuid_ids(&before, 9, LEAVE), [9, 2, 2, 2]);
    assert_eq!(setreuid_ids(&before, 9, 8), [9, 8, 8, 8]);
    // The effective ID is held against the old real one, not the new.
    assert_eq!(setreuid_ids(&before, 8, 1), [8, 1, 1, 1]);
}

#[test]
fn setresuid_without_the_capability() {
    let before = four_ids();
    assert_eq!(setresuid_ids(&before, LEAVE, LEAVE, LEAVE), [1, 2, 3, 2]);
    assert_eq!(setresuid_ids(&before, 2, 3, 1), [2, 3, 1, 3]);
    assert_eq!(setresuid_ids(&before, 3, LEAVE, 2), [3, 2, 2, 2]);
    assert_eq!(setresuid_ids(&before, LEAVE, 1, LEAVE), [1, 1, 3, 1]);
    for other in [0, 4, 9] {
        assert_not_permitted(&before, &step(17, other, LEAVE, LEAVE), 10);
        assert_not_permitted(&before, &step(17, LEAVE, other, LEAVE), 10);
        assert_not_permitted(&before, &step(17, LEAVE, LEAVE, other), 10);
    }
}

#[test]
fn setresuid_with_the_capability() {
    let before = with_setuid(four_ids());
    assert_eq!(setresuid_ids(&before, 7, 8, 9), [7, 8, 9, 8]);
    assert_eq!(setresuid_ids(&before, LEAVE, LEAVE, 9), [1, 2, 9, 2]);
    assert_eq!(setresuid_ids(&before, 4_294_967_294, LEAVE, LEAVE), [4_294_967_294, 2, 3, 2]);
}

#[test]
fn setfsuid_changes_to_any_of_the_four() {
    for own in [1, 2, 3, 4] {
        let expected = Credentials { fsuid: own, ..four_ids() };
        assert_eq!(done(&four_ids(), &step(18, u64::from(own), 0, 0)), (4, expected));
    }
}

#[test]
fn setfsuid_to_another_id_is_done_and_changes_nothing() {
    assert_eq!(done(&four_ids(), &step(18, 9, 0, 0)), (4, four_ids()));
    assert_eq!(done(&four_ids(), &step(18, 0, 0, 0)), (4, four_ids()));
    let before = with_setuid(four_ids());
    assert_eq!(done(&before, &step(18, 9, 0, 0)), (4, Credentials { fsuid: 9, ..before }));
}

#[test]
fn setfsuid_can_only_ask() {
    for before in [four_ids(), with_setuid(four_ids()), full_root()] {
        assert_eq!(done(&before, &step(18, LEAVE, 0, 0)), (u64::from(before.fsuid), before));
    }
}

/// Sets that show every change: E is part of P, A part of E.
fn with_sets(credentials: Credentials) -> Credentials {
    Credentials {
        permitted: SETUID | NET_ADMIN | NET_RAW | 0x1,
        inheritable: NET_ADMIN | NET_RAW,
        effective: SETUID | NET_RAW | 0x1,
        ambient: NET_RAW,
        ..credentials
    }
}

#[test]
fn rule_1_needs_one_id_0_before_and_none_after() {
    for start in [[0, 5, 5], [5, 5, 0]] {
        let before = with_sets(with_ids(user(), start[0], start[1], start[2], 5));
        let expected = Credentials { permitted: 0, effective: 0, ambient: 0, ..with_ids(before.clone(), 5, 5, 5, 5) };
        assert_eq!(after(&before, &step(17, 5, 5, 5)), expected);
    }
    let before = with_sets(with_ids(user(), 0, 5, 0, 5));
    assert_eq!(after(&before, &step(17, 5, 5, 0)), with_ids(before, 5, 5, 0, 5));
    let before = with_sets(with_ids(user(), 6, 6, 6, 0));
    assert_eq!(after(&before, &step(17, 5, 5, 5)), with_ids(before, 5, 5, 5, 5));
}

#[test]
fn rule_1_keep_caps_keeps_permitted_and_effective_but_not_ambient() {
    let before = Credentials { securebits: KEEP_CAPS, ..with_sets(with_ids(user(), 0, 5, 0, 5)) };
    let expected = Credentials { ambient: 0, ..with_ids(before.clone(), 5, 5, 5, 5) };
    assert_eq!(after(&before, &step(17, 5, 5, 5)), expected);
}

#[test]
fn rule_1_holds_for_setuid_and_setreuid() {
    let before = with_sets(root());
    let expected = Credentials { inheritable: before.inheritable, ..user() };
    assert_eq!(after(&before, &step(15, 1000, 0, 0)), expected);
    assert_eq!(after(&before, &step(16, 1000, 1000, 0)), expected);
}

#[test]
fn rule_2_clears_effective_alone() {
    let before = with_sets(root());
    let expected = Credentials { effective: 0, ..with_ids(before.clone(), 0, 5, 0, 5) };
    assert_eq!(after(&before, &step(17, LEAVE, 5, LEAVE)), expected);
    let keeping = Credentials { securebits: KEEP_CAPS, ..before };
    let expected = Credentials { securebits: KEEP_CAPS, ..expected };
    assert_eq!(after(&keeping, &step(17, LEAVE, 5, LEAVE)), expected);
}

#[test]
fn rule_3_copies_permitted() {
    let before = Credentials { effective: 0, ..with_sets(with_ids(user(), 0, 5, 5, 5)) };
    let expected = Credentials { effective: before.permitted, ..with_ids(before.clone(), 0, 0, 5, 0) };
    assert_eq!(after(&before, &step(15, 0, 0, 0)), expected);
}

#[test]
fn effective_root_that_stays_root_keeps_its_effective_set() {
    let before = with_sets(root());
    assert_eq!(after(&before, &step(17, 0, 0, 0)), before);
}

#[test]
fn rule_4_takes_and_gives_the_filesystem_set() {
    let before = Credentials { permitted: FULL & !0x2, effective: SETUID | 0x5, ..root() };
    let expected = Credentials { effective: SETUID, fsuid: 5, ..before.clone() };
    assert_eq!(done(&before, &step(18, 5, 0, 0)), (0, expected.clone()));

    let back = Credentials { effective: SETUID | (0x1_0800_021f & !0x2), fsuid: 0, ..expected.clone() };
    assert_eq!(done(&expected, &step(18, 0, 0, 0)), (5, back.clone()));
    assert_eq!(done(&back, &step(18, 0, 0, 0)), (0, back));
}

#[test]
fn rule_4_is_for_call_18_only() {
    // The filesystem ID goes from 0 to 5, and from 5 to 0, with the effective ID staying where it is.
    let before = with_sets(with_ids(user(), 5, 5, 5, 0));
    assert_eq!(after(&before, &step(17, LEAVE, LEAVE, LEAVE)), with_ids(before, 5, 5, 5, 5));
    let before = Credentials { effective: 0, ..with_sets(with_ids(user(), 0, 0, 0, 5)) };
    assert_eq!(after(&before, &step(16, LEAVE, LEAVE, 0)), with_ids(before, 0, 0, 0, 0));
}

#[test]
fn no_setuid_fixup_stops_all_four_rules() {
    let fixed = |credentials| Credentials { securebits: NO_SETUID_FIXUP, ..with_sets(credentials) };
    let before = fixed(root());
    assert_eq!(after(&before, &step(15, 5, 0, 0)), with_ids(before.clone(), 5, 5, 5, 5));
    assert_eq!(after(&before, &step(17, LEAVE, 5, LEAVE)), with_ids(before.clone(), 0, 5, 0, 5));
    assert_eq!(done(&before, &step(18, 5, 0, 0)), (0, with_ids(before, 0, 0, 0, 5)));
    let before = fixed(with_ids(user(), 0, 5, 5, 5));
    assert_eq!(after(&before, &step(17, LEAVE, 0, LEAVE)), with_ids(before.clone(), 0, 0, 5, 0));
    assert_eq!(done(&before, &step(18, 0, 0, 0)), (5, with_ids(before, 0, 5, 5, 0)));
}

#[test]
fn no_setuid_fixups_lock_is_not_the_flag() {
    let before = Credentials { securebits: NO_SETUID_FIXUP << 1, ..with_sets(root()) };
    assert_eq!(after(&before, &step(15, 5, 0, 0)).permitted, 0);
}
