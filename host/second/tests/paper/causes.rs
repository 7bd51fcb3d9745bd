//! Why it was refused: each cause by each call that can give it, and 0 for setfsuid and setfsgid.

use crate::helpers::*;
use second::Credentials;

/// Each securebits flag; its lock is twice its value.
pub const FLAGS: [u8; 4] = [NOROOT, NO_SETUID_FIXUP, KEEP_CAPS, NO_CAP_AMBIENT_RAISE];

/// The same with every capability effective but those of `lacking`, which stay permitted.
fn all_but(lacking: u64, credentials: Credentials) -> Credentials {
    Credentials { permitted: FULL, effective: FULL & !lacking, ..credentials }
}

/// Threads without SETPCAP: nothing at all, SETPCAP in every other set, every other capability, user IDs 0.
fn without_setpcap() -> [Credentials; 4] {
    [
        user(),
        Credentials { permitted: SETPCAP, inheritable: SETPCAP, ambient: SETPCAP, ..user() },
        all_but(SETPCAP, user()),
        all_but(SETPCAP, root()),
    ]
}

/// The same with SETPCAP effective.
pub fn with_setpcap(credentials: Credentials) -> Credentials {
    Credentials {
        permitted: credentials.permitted | SETPCAP,
        effective: credentials.effective | SETPCAP,
        ..credentials
    }
}

/// Call 9 by a thread that has SETPCAP gives this cause.
pub fn assert_securebits_cause(old: u8, new: u8, cause: u32) {
    let before = Credentials { securebits: old, ..with_setpcap(user()) };
    assert_not_permitted(&before, &step(9, u64::from(new), 0, 0), cause);
}

/// Call 9 by a thread that lacks SETPCAP gives cause 1.
pub fn assert_securebits_need_setpcap(old: u8, new: u8) {
    for thread in without_setpcap() {
        let before = Credentials { securebits: old, ..thread };
        assert_not_permitted(&before, &step(9, u64::from(new), 0, 0), 1);
    }
}

#[test]
fn cause_1_bounding_drop() {
    for before in without_setpcap() {
        for capability in 0..=40 {
            assert_not_permitted(&before, &step(3, capability, 0, 0), 1);
        }
        // What the bounding set lacks already is no exception.
        assert_not_permitted(&Credentials { bounding: 0, ..before }, &step(3, 13, 0, 0), 1);
    }
}

#[test]
fn cause_1_set_securebits() {
    for flag in FLAGS {
        // Nothing is locked, and nothing locked changes.
        assert_securebits_need_setpcap(0, flag);
        assert_securebits_need_setpcap(flag, 0);
        assert_securebits_need_setpcap(0, 3 * flag);
        assert_securebits_need_setpcap(3 * flag, 3 * flag);
    }
    assert_securebits_need_setpcap(0, 0);
    assert_securebits_need_setpcap(255, 255);
}

/// Five capabilities by the sets of `five` that hold them: V is in P, W in P and B, X in I, Y in B, Z in none.
pub const V: u64 = 1 << 20;
pub const W: u64 = 1 << 21;
pub const X: u64 = 1 << 22;
pub const Y: u64 = 1 << 23;
pub const Z: u64 = 1 << 24;

/// P={V,W}, I={X}, B={W,Y}. So new I fails capset's first test by Y or Z, and the second one by V or Z; new P fails
/// the third one by Y, and new E the fourth one by what new P has not.
pub fn five() -> Credentials {
    Credentials { permitted: V | W, inheritable: X, bounding: W | Y, ..user() }
}

/// New P, I and E of a capset on `five`, and the causes that meet there; the first of them is the lowest.
pub type Capset = ([u64; 3], &'static [u32]);

pub const NONE: [Capset; 3] = [([V | W, W | X, W], &[]), ([0, 0, 0], &[]), ([V | W, W | X, V | W], &[])];

pub const SINGLE: [Capset; 4] =
    [([V | W, W | Y, W], &[2]), ([V | W, V | X, W], &[3]), ([V | Y, W | X, Y], &[4]), ([V, W | X, W], &[5])];

/// The capset gives the lowest of the causes, or is done where there is none.
pub fn assert_capset(before: &Credentials, [permitted, inheritable, effective]: [u64; 3], causes: &[u32]) {
    let capset = step(2, permitted, inheritable, effective);
    match causes.first() {
        Some(&lowest) => assert_not_permitted(before, &capset, lowest),
        None => {
            let expected = Credentials { permitted, inheritable, effective, ..before.clone() };
            assert_eq!(after(before, &capset), expected);
        }
    }
}

#[test]
fn causes_2_to_5_capset() {
    for (sets, causes) in NONE.into_iter().chain(SINGLE) {
        assert_capset(&five(), sets, causes);
    }
}

#[test]
fn capset_without_setpcap_gives_2_and_not_1() {
    // Y is in B alone, so SETPCAP is all that is missing.
    assert_not_permitted(&five(), &step(2, V | W, Y, 0), 2);
    let permitted_only = Credentials { permitted: V | W | SETPCAP, ..five() };
    assert_not_permitted(&permitted_only, &step(2, V | W, Y, 0), 2);
    let all_but_setpcap = Credentials { permitted: FULL & !Y, effective: FULL & !(SETPCAP | Y), ..five() };
    assert_not_permitted(&all_but_setpcap, &step(2, 0, Y, 0), 2);
    assert_not_permitted(&with_ids(five(), 0, 0, 0, 0), &step(2, V | W, Y, 0), 2);
    assert_capset(&with_setpcap(five()), [V | W, Y, 0], &[]);
    // The new effective set does not help: SETPCAP must be effective before.
    assert_not_permitted(&permitted_only, &step(2, V | W | SETPCAP, Y, SETPCAP), 2);
}

/// P={20,21}, I={21,22}: 21 alone can be raised.
pub fn raising(securebits: u8) -> Credentials {
    Credentials { permitted: V | W, inheritable: W | X, securebits, ..user() }
}

#[test]
fn cause_6_ambient_raise() {
    // In P alone, in I alone, in neither; every flag but NO_CAP_AMBIENT_RAISE has no say.
    for securebits in [0, NO_CAP_AMBIENT_RAISE_LOCKED, !NO_CAP_AMBIENT_RAISE] {
        for capability in [20, 22, 23, 0, 40] {
            assert_not_permitted(&raising(securebits), &step(5, capability, 0, 0), 6);
        }
        assert_eq!(after(&raising(securebits), &step(5, 21, 0, 0)).ambient, W);
    }
    // Effective and bounding sets do not help.
    let before = Credentials { permitted: FULL, effective: FULL, ..user() };
    assert_not_permitted(&before, &step(5, 13, 0, 0), 6);
}

#[test]
fn cause_7_ambient_raise() {
    for securebits in [NO_CAP_AMBIENT_RAISE, NO_CAP_AMBIENT_RAISE | NO_CAP_AMBIENT_RAISE_LOCKED, 0xff] {
        assert_not_permitted(&raising(securebits), &step(5, 21, 0, 0), 7);
        // Also where the capability is ambient already.
        let raised = Credentials { ambient: W, ..raising(securebits) };
        assert_not_permitted(&raised, &step(5, 21, 0, 0), 7);
        // And for root.
        let before = Credentials { inheritable: FULL, securebits, ..full_root() };
        assert_not_permitted(&before, &step(5, 21, 0, 0), 7);
    }
}

#[test]
fn cause_8_set_securebits() {
    for flag in FLAGS {
        let lock = 2 * flag;
        // The lock goes, and the flag stays clear or set.
        assert_securebits_cause(lock, 0, 8);
        assert_securebits_cause(lock | flag, flag, 8);
        // All the other bits stay, or all come.
        assert_securebits_cause(0xff, !lock, 8);
        assert_securebits_cause(lock, !(lock | flag), 8);
    }
}

#[test]
fn cause_9_set_securebits() {
    for flag in FLAGS {
        let lock = 2 * flag;
        // The lock stays, and the flag is set or cleared.
        assert_securebits_cause(lock, lock | flag, 9);
        assert_securebits_cause(lock | flag, lock, 9);
        assert_securebits_cause(0xff, !flag, 9);
        assert_securebits_cause(lock, 0xff, 9);
    }
}

#[test]
fn cause_9_set_keep_caps() {
    for thread in [user(), full_root(), with_setpcap(user())] {
        let clear = Credentials { securebits: KEEP_CAPS_LOCKED, ..thread.clone() };
        let set = Credentials { securebits: KEEP_CAPS | KEEP_CAPS_LOCKED, ..thread.clone() };
        assert_not_permitted(&clear, &step(11, 1, 0, 0), 9);
        assert_not_permitted(&set, &step(11, 0, 0, 0), 9);
        // Also where nothing would change.
        assert_not_permitted(&clear, &step(11, 0, 0, 0), 9);
        assert_not_permitted(&set, &step(11, 1, 0, 0), 9);
        // In call 9 that is no change, and not refused.
        if thread.effective & SETPCAP != 0 {
            assert_eq!(after(&clear, &step(9, u64::from(clear.securebits), 0, 0)), clear);
            assert_eq!(after(&set, &step(9, u64::from(set.securebits), 0, 0)), set);
        }
        // The other locks have no say.
        let others = Credentials { securebits: !KEEP_CAPS_LOCKED, ..thread };
        assert_eq!(after(&others, &step(11, 1, 0, 0)), others);
    }
}

/// User IDs 1, 2, 3, 4 and group IDs 11, 12, 13, 14.
pub fn eight_ids() -> Credentials {
    with_groups(with_ids(user(), 1, 2, 3, 4), 11, 12, 13, 14)
}

/// Threads with those IDs that lack this capability, whatever else they have.
fn lacking(capability: u64) -> [Credentials; 3] {
    [eight_ids(), Credentials { permitted: capability, ..eight_ids() }, all_but(capability, eight_ids())]
}

/// The calls that set one ID, two and three give cause 10 to threads that lack their capability. Of `own`, the IDs of
/// `eight_ids` that these calls are about, each call allows some; of `others` it allows none.
fn assert_ids_not_allowed(calls: [u8; 3], capability: u64, own: [u64; 4], others: [u64; 4]) {
    let [one, two, three] = calls;
    let [real, effective, saved, filesystem] = own;
    let never = || others.into_iter().chain([filesystem]);
    for before in lacking(capability) {
        for id in never().chain([effective]) {
            assert_not_permitted(&before, &step(one, id, 0, 0), 10);
        }
        for id in never().chain([saved]) {
            assert_not_permitted(&before, &step(two, id, LEAVE, 0), 10);
            assert_not_permitted(&before, &step(two, id, real, 0), 10);
        }
        for id in never() {
            assert_not_permitted(&before, &step(two, LEAVE, id, 0), 10);
            assert_not_permitted(&before, &step(two, real, id, 0), 10);
            assert_not_permitted(&before, &step(two, id, id, 0), 10);
            assert_not_permitted(&before, &step(three, id, LEAVE, LEAVE), 10);
            assert_not_permitted(&before, &step(three, LEAVE, id, LEAVE), 10);
            assert_not_permitted(&before, &step(three, LEAVE, LEAVE, id), 10);
            assert_not_permitted(&before, &step(three, id, id, id), 10);
        }
    }
}

/// The calls that set one ID, two and three give cause 10 to this thread for ID 9.
fn assert_9_not_allowed([one, two, three]: [u8; 3], before: &Credentials) {
    assert_not_permitted(before, &step(one, 9, 0, 0), 10);
    assert_not_permitted(before, &step(two, 9, 9, 0), 10);
    assert_not_permitted(before, &step(three, 9, 9, 9), 10);
}

#[test]
fn cause_10_user_id_calls_without_setuid_and_never_1() {
    assert_ids_not_allowed([15, 16, 17], SETUID, [1, 2, 3, 4], [0, 9, 11, LEAVE - 1]);
    // User ID 0 is no capability.
    assert_9_not_allowed([15, 16, 17], &root());
}

#[test]
fn cause_10_group_id_calls_without_setgid_and_never_1() {
    assert_ids_not_allowed([19, 20, 21], SETGID, [11, 12, 13, 14], [0, 9, 1, LEAVE - 1]);
    // Neither user ID 0 nor group 0 is a capability.
    assert_9_not_allowed([19, 20, 21], &with_groups(root(), 0, 0, 0, 0));
}

#[test]
fn cause_11_launch() {
    let file = attribute(SYS_RAWIO | NET_RAW, NET_ADMIN, true);
    // Both are missing from the bounding set, or one of them.
    for bounding in [0, FULL & !SYS_RAWIO, FULL & !NET_RAW] {
        for thread in [user(), root(), full_root(), ambient_user()] {
            let before = Credentials { bounding, ..thread };
            for flags in [0, SET_USER_ID, SET_GROUP_ID, SET_USER_ID | SET_GROUP_ID] {
                assert_not_permitted(&before, &execve(0, flags, file.clone()), 11);
                assert_not_permitted(&before, &of_group(9, execve(9, flags, file.clone())), 11);
            }
        }
    }
    // Inheritable in the thread alone, or in the file alone.
    let before = Credentials { bounding: FULL & !SYS_RAWIO, ..user() };
    let inheriting = Credentials { inheritable: SYS_RAWIO, ..before.clone() };
    assert_not_permitted(&inheriting, &execve(0, 0, attribute(SYS_RAWIO, 0, true)), 11);
    assert_not_permitted(&before, &execve(0, 0, attribute(SYS_RAWIO, SYS_RAWIO, true)), 11);
    assert_eq!(after(&inheriting, &execve(0, 0, attribute(SYS_RAWIO, SYS_RAWIO, true))).permitted, SYS_RAWIO);
}

#[test]
fn cause_0_setfsuid_and_setfsgid_where_the_id_is_not_allowed() {
    // The helper asks for code 0 and cause 0.
    for before in lacking(SETUID) {
        for uid in [0, 9, 11, LEAVE - 1] {
            assert_eq!(done(&before, &step(18, uid, 0, 0)), (4, before.clone()));
        }
    }
    for before in lacking(SETGID) {
        for gid in [0, 9, 1, LEAVE - 1] {
            assert_eq!(done(&before, &step(22, gid, 0, 0)), (14, before.clone()));
        }
    }
}
