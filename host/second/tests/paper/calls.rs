//! Capset, the bounding and ambient calls, securebits, keep-caps and no-new-privs.

use crate::helpers::*;
use second::Credentials;

/// Numbers of four capabilities beside CAP_SETPCAP.
const W: u64 = 1 << 20;
const X: u64 = 1 << 21;
const Y: u64 = 1 << 22;
const Z: u64 = 1 << 23;

/// P={W,X}, I={X,Y}, E={W}, B={W,Z}.
fn mixed() -> Credentials {
    Credentials { permitted: W | X, inheritable: X | Y, effective: W, bounding: W | Z, ..user() }
}

fn with_setpcap(credentials: Credentials) -> Credentials {
    Credentials {
        permitted: credentials.permitted | SETPCAP,
        effective: credentials.effective | SETPCAP,
        ..credentials
    }
}

#[test]
fn capset_sets_the_three_sets() {
    let expected = Credentials { permitted: X, inheritable: W | Y, effective: X, ..mixed() };
    assert_eq!(after(&mixed(), &step(2, X, W | Y, X)), expected);
}

#[test]
fn capset_limits_inheritable() {
    let p = W | X;
    // Z is in B alone: CAP_SETPCAP adds it.
    assert_not_permitted(&mixed(), &step(2, p, Z, W), 2);
    assert_eq!(after(&with_setpcap(mixed()), &step(2, p, Z, W)).inheritable, Z);
    // With X out of I it is in P but not in B: nobody adds it.
    let before = Credentials { inheritable: Y, ..mixed() };
    assert_not_permitted(&before, &step(2, p, X | Y, W), 3);
    assert_not_permitted(&with_setpcap(before), &step(2, p, X | Y, W), 3);
    // Y is in I and in neither P nor B: it may stay.
    assert_eq!(after(&mixed(), &step(2, p, Y, W)).inheritable, Y);
    // In none of the three: CAP_SETPCAP helps past the first test alone.
    assert_not_permitted(&with_setpcap(mixed()), &step(2, p, 1, W), 3);
    assert_not_permitted(&mixed(), &step(2, p, 1, W), 2);
}

#[test]
fn capset_takes_the_old_permitted_set_and_the_new_one() {
    assert_not_permitted(&mixed(), &step(2, W | Z, 0, 0), 4);
    assert_not_permitted(&with_setpcap(mixed()), &step(2, W | Z, 0, 0), 4);
    assert_not_permitted(&mixed(), &step(2, W, 0, X), 5);
    // New I is measured against the old P: dropping W from P does not stop it from entering I.
    assert_eq!(after(&mixed(), &step(2, 0, W, 0)).inheritable, W);
}

#[test]
fn capset_lowers_ambient() {
    let all = W | X | Y;
    let before = Credentials { permitted: all, inheritable: all, ambient: all, ..user() };
    let expected = Credentials { permitted: W | X, inheritable: X | Y, ambient: X, ..before.clone() };
    assert_eq!(after(&before, &step(2, W | X, X | Y, 0)), expected);
}

#[test]
fn bounding_drop_needs_setpcap_and_leaves_the_other_sets() {
    let before = Credentials { bounding: FULL, ambient: X, ..with_setpcap(mixed()) };
    assert_eq!(after(&before, &step(3, 21, 0, 0)), Credentials { bounding: FULL & !X, ..before.clone() });
    assert_eq!(after(&before, &step(3, 0, 0, 0)).bounding, FULL & !1);
    assert_eq!(after(&before, &step(3, 40, 0, 0)).bounding, FULL >> 1);
    assert_not_permitted(&mixed(), &step(3, 21, 0, 0), 1);
    assert_not_permitted(&root(), &step(3, 21, 0, 0), 1);
    let permitted_only = Credentials { permitted: SETPCAP, ..user() };
    assert_not_permitted(&permitted_only, &step(3, 21, 0, 0), 1);
}

#[test]
fn bounding_drop_of_what_is_gone_still_needs_setpcap() {
    assert_not_permitted(&mixed(), &step(3, 0, 0, 0), 1);
    let before = with_setpcap(mixed());
    assert_eq!(after(&before, &step(3, 0, 0, 0)), before);
}

#[test]
fn bounding_read_answers_the_bit() {
    for capability in 0..=40 {
        let bit = u64::from(capability == 20 || capability == 23);
        assert_eq!(done(&mixed(), &step(4, capability, 0, 0)), (bit, mixed()));
    }
}

#[test]
fn ambient_raise_needs_permitted_inheritable_and_the_flag_clear() {
    assert_eq!(after(&mixed(), &step(5, 21, 0, 0)), Credentials { ambient: X, ..mixed() });
    assert_not_permitted(&mixed(), &step(5, 20, 0, 0), 6);
    assert_not_permitted(&mixed(), &step(5, 22, 0, 0), 6);
    let barred = Credentials { securebits: NO_CAP_AMBIENT_RAISE, ambient: X, ..mixed() };
    assert_not_permitted(&barred, &step(5, 21, 0, 0), 7);
    let only_locked = Credentials { securebits: NO_CAP_AMBIENT_RAISE << 1, ..mixed() };
    assert_eq!(after(&only_locked, &step(5, 21, 0, 0)).ambient, X);
}

#[test]
fn ambient_lower_read_and_clear_need_nothing() {
    let before = Credentials { inheritable: W | X, ambient: W | X, securebits: 0xff, effective: 0, ..mixed() };
    assert_eq!(after(&before, &step(6, 20, 0, 0)), Credentials { ambient: X, ..before.clone() });
    assert_eq!(after(&before, &step(6, 40, 0, 0)), before);
    assert_eq!(done(&before, &step(7, 20, 0, 0)), (1, before.clone()));
    assert_eq!(done(&before, &step(7, 22, 0, 0)), (0, before.clone()));
    assert_eq!(after(&before, &step(8, 0, 0, 0)), Credentials { ambient: 0, ..before });
}

/// The paper's rule for call 9 with CAP_SETPCAP, flag by flag: the cause, or 0 where it is allowed.
fn securebits_cause(old: u8, new: u8) -> u32 {
    let locked = [1u8, 4, 16, 64].into_iter().filter(|flag| old & (2 * flag) != 0);
    let lock_undone = locked.clone().any(|flag| new & (2 * flag) == 0);
    let locked_flag_changed = locked.clone().any(|flag| new & flag != old & flag);
    match (lock_undone, locked_flag_changed) {
        (true, _) => 8,
        (false, true) => 9,
        (false, false) => 0,
    }
}

#[test]
fn set_securebits_for_every_pair() {
    for old in 0..=255u8 {
        let unable = Credentials { securebits: old, ..user() };
        let able = with_setpcap(unable.clone());
        for new in 0..=255u8 {
            let set = step(9, u64::from(new), 0, 0);
            assert_not_permitted(&unable, &set, 1);
            match securebits_cause(old, new) {
                0 => assert_eq!(after(&able, &set), Credentials { securebits: new, ..able.clone() }),
                cause => assert_not_permitted(&able, &set, cause),
            }
        }
    }
}

#[test]
fn get_securebits_answers_them_all() {
    for securebits in 0..=255u8 {
        let before = Credentials { securebits, ..user() };
        assert_eq!(done(&before, &step(10, 0, 0, 0)), (u64::from(securebits), before.clone()));
        assert_eq!(done(&before, &step(12, 0, 0, 0)), (u64::from(securebits >> 4 & 1), before));
    }
}

#[test]
fn set_keep_caps_needs_no_capability_but_no_lock() {
    let on = Credentials { securebits: 0xdf, ..user() };
    let off = Credentials { securebits: 0xcf, ..user() };
    for before in [&on, &off] {
        assert_eq!(after(before, &step(11, 1, 0, 0)), on);
        assert_eq!(after(before, &step(11, 0, 0, 0)), off);
    }
    for locked in [KEEP_CAPS_LOCKED, KEEP_CAPS | KEEP_CAPS_LOCKED] {
        let before = Credentials { securebits: locked, ..full_root() };
        assert_not_permitted(&before, &step(11, 0, 0, 0), 9);
        assert_not_permitted(&before, &step(11, 1, 0, 0), 9);
    }
}

#[test]
fn no_new_privs_is_set_for_good() {
    let set = Credentials { nnp: true, ..user() };
    assert_eq!(done(&user(), &step(14, 0, 0, 0)), (0, user()));
    assert_eq!(after(&user(), &step(13, 1, 0, 0)), set);
    assert_eq!(after(&set, &step(13, 1, 0, 0)), set);
    assert_eq!(done(&set, &step(14, 0, 0, 0)), (1, set.clone()));
    assert!(after(&set, &execve(0, 0, vec![])).nnp);
}
