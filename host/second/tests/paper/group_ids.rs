//! The four group-ID calls: the user-ID calls' rules with CAP_SETGID, and no capability set touched.

use crate::helpers::*;
use second::Credentials;

/// Four different group IDs, none of them 0, and four user IDs that are other numbers.
fn four_groups() -> Credentials {
    with_groups(with_ids(user(), 11, 12, 13, 14), 1, 2, 3, 4)
}

fn with_setgid(credentials: Credentials) -> Credentials {
    Credentials { permitted: SETGID, effective: SETGID, ..credentials }
}

/// Threads that are not able to set group IDs, whatever else they have: nothing, CAP_SETUID, CAP_SETGID permitted but
/// not effective, every other capability, user IDs 0.
fn unable() -> [Credentials; 5] {
    let others = FULL & !SETGID;
    [
        four_groups(),
        Credentials { permitted: SETUID, effective: SETUID, ..four_groups() },
        Credentials { permitted: SETGID, inheritable: SETGID, ambient: SETGID, ..four_groups() },
        Credentials { permitted: FULL, inheritable: SETGID, effective: others, ..four_groups() },
        with_ids(four_groups(), 0, 0, 0, 0),
    ]
}

/// The value and the group IDs after a call that is done; everything else must be as it was.
fn done_groups(before: &Credentials, call: u8, [a, b, c]: [u64; 3]) -> (u64, [u32; 4]) {
    let (value, after) = done(before, &step(call, a, b, c));
    let [rgid, egid, sgid, fsgid] = groups(before);
    assert_eq!(&with_groups(after.clone(), rgid, egid, sgid, fsgid), before, "call {call}");
    (value, groups(&after))
}

fn setgid_groups(before: &Credentials, gid: u64) -> [u32; 4] {
    let (value, groups) = done_groups(before, 19, [gid, 0, 0]);
    assert_eq!(value, 0);
    groups
}

fn setregid_groups(before: &Credentials, rgid: u64, egid: u64) -> [u32; 4] {
    let (value, groups) = done_groups(before, 20, [rgid, egid, 0]);
    assert_eq!(value, 0);
    groups
}

fn setresgid_groups(before: &Credentials, rgid: u64, egid: u64, sgid: u64) -> [u32; 4] {
    let (value, groups) = done_groups(before, 21, [rgid, egid, sgid]);
    assert_eq!(value, 0);
    groups
}

fn setfsgid_groups(before: &Credentials, fsgid: u64) -> (u64, [u32; 4]) {
    done_groups(before, 22, [fsgid, 0, 0])
}

#[test]
fn setgid_with_the_capability_sets_all_four() {
    let before = with_setgid(four_groups());
    assert_eq!(setgid_groups(&before, 9), [9, 9, 9, 9]);
    assert_eq!(setgid_groups(&before, 2), [2, 2, 2, 2]);
    assert_eq!(setgid_groups(&before, 0), [0, 0, 0, 0]);
    assert_eq!(setgid_groups(&before, 4_294_967_294), [4_294_967_294; 4]);
    assert_refused(&before, &step(19, LEAVE, 0, 0), 22);
}

#[test]
fn setgid_without_it_takes_real_or_saved() {
    for before in unable() {
        assert_eq!(setgid_groups(&before, 1), [1, 1, 3, 1]);
        assert_eq!(setgid_groups(&before, 3), [1, 3, 3, 3]);
        for gid in [0, 2, 4, 9, 11, 12, 13, 14, LEAVE - 1] {
            assert_not_permitted(&before, &step(19, gid, 0, 0), 10);
        }
        assert_refused(&before, &step(19, LEAVE, 0, 0), 22);
    }
}

#[test]
fn group_0_is_no_substitute_for_the_capability() {
    let before = with_groups(root(), 0, 0, 0, 0);
    assert_not_permitted(&before, &step(19, 9, 0, 0), 10);
    assert_not_permitted(&before, &step(20, 9, LEAVE, 0), 10);
    assert_not_permitted(&before, &step(20, LEAVE, 9, 0), 10);
    assert_not_permitted(&before, &step(21, 9, LEAVE, LEAVE), 10);
    assert_eq!(setfsgid_groups(&before, 9), (0, [0, 0, 0, 0]));
}

#[test]
fn setregid_without_the_capability() {
    for before in unable() {
        assert_eq!(setregid_groups(&before, LEAVE, LEAVE), [1, 2, 3, 2]);
        assert_eq!(setregid_groups(&before, 1, LEAVE), [1, 2, 2, 2]);
        assert_eq!(setregid_groups(&before, 2, LEAVE), [2, 2, 2, 2]);
        assert_eq!(setregid_groups(&before, LEAVE, 1), [1, 1, 3, 1]);
        assert_eq!(setregid_groups(&before, LEAVE, 2), [1, 2, 2, 2]);
        assert_eq!(setregid_groups(&before, LEAVE, 3), [1, 3, 3, 3]);
        assert_eq!(setregid_groups(&before, 2, 1), [2, 1, 1, 1]);
        assert_eq!(setregid_groups(&before, 1, 1), [1, 1, 1, 1]);
        assert_eq!(setregid_groups(&before, 1, 3), [1, 3, 3, 3]);
        for real in [0, 3, 4, 9, 11, 12] {
            assert_not_permitted(&before, &step(20, real, LEAVE, 0), 10);
            assert_not_permitted(&before, &step(20, real, 1, 0), 10);
        }
        for effective in [0, 4, 9, 11, 12, 13] {
            assert_not_permitted(&before, &step(20, LEAVE, effective, 0), 10);
            assert_not_permitted(&before, &step(20, 1, effective, 0), 10);
        }
    }
}

#[test]
fn setregid_with_the_capability_has_the_same_rule_for_saved() {
    let before = with_setgid(four_groups());
    assert_eq!(setregid_groups(&before, LEAVE, LEAVE), [1, 2, 3, 2]);
    assert_eq!(setregid_groups(&before, LEAVE, 1), [1, 1, 3, 1]);
    assert_eq!(setregid_groups(&before, LEAVE, 9), [1, 9, 9, 9]);
    assert_eq!(setregid_groups(&before, 9, LEAVE), [9, 2, 2, 2]);
    assert_eq!(setregid_groups(&before, 9, 8), [9, 8, 8, 8]);
    assert_eq!(setregid_groups(&before, 4_294_967_294, 0), [4_294_967_294, 0, 0, 0]);
    // With the real group given, the saved one follows even where the effective one becomes the old real one.
    assert_eq!(setregid_groups(&before, 8, 1), [8, 1, 1, 1]);
    // The effective group is held against the real group, not the real user ID.
    assert_eq!(setregid_groups(&before, LEAVE, 11), [1, 11, 11, 11]);
}

#[test]
fn setresgid_without_the_capability() {
    for before in unable() {
        assert_eq!(setresgid_groups(&before, LEAVE, LEAVE, LEAVE), [1, 2, 3, 2]);
        assert_eq!(setresgid_groups(&before, 2, 3, 1), [2, 3, 1, 3]);
        assert_eq!(setresgid_groups(&before, 3, LEAVE, 2), [3, 2, 2, 2]);
        assert_eq!(setresgid_groups(&before, LEAVE, 1, LEAVE), [1, 1, 3, 1]);
        assert_eq!(setresgid_groups(&before, LEAVE, LEAVE, 1), [1, 2, 1, 2]);
        for other in [0, 4, 9, 11, 12, 13, 14] {
            assert_not_permitted(&before, &step(21, other, LEAVE, LEAVE), 10);
            assert_not_permitted(&before, &step(21, LEAVE, other, LEAVE), 10);
            assert_not_permitted(&before, &step(21, LEAVE, LEAVE, other), 10);
            assert_not_permitted(&before, &step(21, 1, 2, other), 10);
        }
    }
}

#[test]
fn setresgid_with_the_capability() {
    let before = with_setgid(four_groups());
    assert_eq!(setresgid_groups(&before, LEAVE, LEAVE, LEAVE), [1, 2, 3, 2]);
    assert_eq!(setresgid_groups(&before, 7, 8, 9), [7, 8, 9, 8]);
    assert_eq!(setresgid_groups(&before, LEAVE, LEAVE, 9), [1, 2, 9, 2]);
    assert_eq!(setresgid_groups(&before, 0, LEAVE, LEAVE), [0, 2, 3, 2]);
    assert_eq!(setresgid_groups(&before, 4_294_967_294, LEAVE, LEAVE), [4_294_967_294, 2, 3, 2]);
}

#[test]
fn setfsgid_changes_to_any_of_the_four() {
    for before in unable().into_iter().chain([with_setgid(four_groups())]) {
        for own in [1, 2, 3, 4] {
            assert_eq!(setfsgid_groups(&before, u64::from(own)), (4, [1, 2, 3, own]));
        }
    }
}

#[test]
fn setfsgid_to_another_group_is_done_and_changes_nothing() {
    for before in unable() {
        for other in [0, 9, 11, 12, 13, 14, LEAVE - 1] {
            assert_eq!(setfsgid_groups(&before, other), (4, [1, 2, 3, 4]));
        }
    }
    let before = with_setgid(four_groups());
    assert_eq!(setfsgid_groups(&before, 9), (4, [1, 2, 3, 9]));
    assert_eq!(setfsgid_groups(&before, 0), (4, [1, 2, 3, 0]));
    assert_eq!(setfsgid_groups(&before, 4_294_967_294), (4, [1, 2, 3, 4_294_967_294]));
}

#[test]
fn setfsgid_can_only_ask() {
    for before in unable().into_iter().chain([with_setgid(four_groups())]) {
        assert_eq!(setfsgid_groups(&before, LEAVE), (4, [1, 2, 3, 4]));
    }
    let highest = with_groups(user(), 0, 0, 0, 4_294_967_294);
    assert_eq!(setfsgid_groups(&highest, LEAVE), (4_294_967_294, [0, 0, 0, 4_294_967_294]));
}

/// Sets that would show each of the four rules: E is part of P, A part of E, and both hold a filesystem capability.
fn with_sets(credentials: Credentials) -> Credentials {
    Credentials {
        permitted: SETGID | NET_ADMIN | NET_RAW | 0x3,
        inheritable: NET_ADMIN | NET_RAW,
        effective: SETGID | NET_RAW | 0x1,
        ambient: NET_RAW,
        ..credentials
    }
}

/// Threads in which a rule of the user-ID calls could have something to do, under each flag that has a say there.
fn with_sets_and_flags() -> Vec<Credentials> {
    let mut all = Vec::new();
    for thread in [user(), root(), with_ids(user(), 0, 5, 0, 5), with_ids(user(), 5, 0, 5, 0)] {
        for securebits in [0, KEEP_CAPS, NO_SETUID_FIXUP, KEEP_CAPS | NO_SETUID_FIXUP, 0xff] {
            for nnp in [false, true] {
                all.push(Credentials { securebits, nnp, ..with_sets(thread.clone()) });
            }
        }
    }
    all
}

#[test]
fn leaving_group_0_touches_nothing_else() {
    for thread in with_sets_and_flags() {
        let before = with_groups(thread, 0, 0, 0, 0);
        assert_eq!(setgid_groups(&before, 5), [5, 5, 5, 5]);
        assert_eq!(setregid_groups(&before, 5, 5), [5, 5, 5, 5]);
        assert_eq!(setresgid_groups(&before, 5, 5, 5), [5, 5, 5, 5]);
        assert_eq!(setresgid_groups(&before, LEAVE, 5, LEAVE), [0, 5, 0, 5]);
        assert_eq!(setfsgid_groups(&before, 5), (0, [0, 0, 0, 5]));
    }
}

#[test]
fn becoming_group_0_touches_nothing_else() {
    for thread in with_sets_and_flags() {
        let before = with_groups(thread, 5, 5, 5, 5);
        assert_eq!(setgid_groups(&before, 0), [0, 0, 0, 0]);
        assert_eq!(setregid_groups(&before, LEAVE, 0), [5, 0, 0, 0]);
        assert_eq!(setregid_groups(&before, 0, LEAVE), [0, 5, 5, 5]);
        assert_eq!(setresgid_groups(&before, LEAVE, 0, LEAVE), [5, 0, 5, 0]);
        assert_eq!(setfsgid_groups(&before, 0), (5, [5, 5, 5, 0]));
    }
}

#[test]
fn user_id_calls_touch_no_group() {
    // Whichever way the user IDs go, and whatever becomes of the sets.
    for securebits in [0, KEEP_CAPS, NO_SETUID_FIXUP] {
        for thread in [root(), with_ids(user(), 0, 5, 0, 5), with_ids(user(), 6, 6, 6, 6)] {
            let before = Credentials { permitted: FULL, effective: FULL, securebits, ..thread };
            let before = with_groups(before, 1, 2, 3, 4);
            for uid in [0, 5] {
                for step in [step(15, uid, 0, 0), step(16, uid, uid, 0), step(17, uid, uid, uid), step(18, uid, 0, 0)] {
                    assert_eq!(groups(&done(&before, &step).1), [1, 2, 3, 4]);
                }
            }
            assert_eq!(groups(&after(&before, &step(16, LEAVE, LEAVE, 0))), [1, 2, 3, 4]);
            assert_eq!(groups(&after(&before, &step(17, LEAVE, LEAVE, LEAVE))), [1, 2, 3, 4]);
        }
    }
}

#[test]
fn setgid_is_no_help_to_user_id_calls() {
    let before = with_setgid(four_groups());
    // 9 is no ID of the thread, 1 to 4 are its group IDs.
    for uid in [9, 1, 2, 3, 4] {
        assert_not_permitted(&before, &step(15, uid, 0, 0), 10);
        assert_not_permitted(&before, &step(16, uid, LEAVE, 0), 10);
        assert_not_permitted(&before, &step(16, LEAVE, uid, 0), 10);
        assert_not_permitted(&before, &step(17, uid, LEAVE, LEAVE), 10);
        assert_not_permitted(&before, &step(17, LEAVE, uid, LEAVE), 10);
        assert_not_permitted(&before, &step(17, LEAVE, LEAVE, uid), 10);
        assert_eq!(done(&before, &step(18, uid, 0, 0)), (14, before.clone()));
    }
}

#[test]
fn the_other_calls_touch_no_group() {
    let before = with_groups(Credentials { inheritable: 1, ..full_root() }, 1, 2, 3, 4);
    for step in [step(2, 1, 1, 1), step(3, 1, 0, 0), step(4, 1, 0, 0), step(5, 0, 0, 0), step(6, 0, 0, 0)] {
        assert_eq!(groups(&done(&before, &step).1), [1, 2, 3, 4]);
    }
    for step in [step(7, 0, 0, 0), step(8, 0, 0, 0), step(9, 0xff, 0, 0), step(10, 0, 0, 0), step(11, 1, 0, 0)] {
        assert_eq!(groups(&done(&before, &step).1), [1, 2, 3, 4]);
    }
    for step in [step(12, 0, 0, 0), step(13, 1, 0, 0), step(14, 0, 0, 0)] {
        assert_eq!(groups(&done(&before, &step).1), [1, 2, 3, 4]);
    }
}

/// Groups 100, 200, 300, 400 and no capability but NET_RAW, as in case 2.
const START: &str = "\
ruid=1000
euid=1000
suid=1000
fsuid=1000
rgid=100
egid=200
sgid=300
fsgid=400
permitted=0000000000002000
inheritable=0000000000002000
effective=0000000000002000
bounding=000001ffffffffff
ambient=0000000000002000
securebits=00
nnp=0
";

#[test]
fn group_calls_in_a_plan() {
    let first = steps(&[
        (22, [LEAVE, 0, 0]), // Asks.
        (22, [300, 0, 0]),   // The saved group: 100, 200, 300, 300.
        (22, [1000, 0, 0]),  // No group of the thread.
        (19, [200, 0, 0]),   // Neither the real group nor the saved one.
        (19, [300, 0, 0]),   // The saved one: 100, 300, 300, 300.
    ]);
    let answers = "\
code=0
value=0000000000000190
cause=0
code=0
value=0000000000000190
cause=0
code=0
value=000000000000012c
cause=0
code=1
value=0000000000000000
cause=10
code=0
value=0000000000000000
cause=0
";
    let sheet = START.replace("egid=200", "egid=300").replace("fsgid=400", "fsgid=300");
    assert_eq!(run(format!("{START}{first}").as_bytes()).1, format!("{answers}{sheet}"));

    let more = steps(&[
        (20, [LEAVE, 100, 0]),   // The old real group, so the saved one stays: 100, 100, 300, 100.
        (21, [300, LEAVE, 100]), // Real and saved: 300, 100, 100, 100.
        (23, [0, 0, 0]),         // No call.
    ]);
    let more_answers = "\
code=0
value=0000000000000000
cause=0
code=0
value=0000000000000000
cause=0
code=22
value=0000000000000000
cause=0
";
    let sheet = START
        .replace("rgid=100", "rgid=300")
        .replace("egid=200", "egid=100")
        .replace("\nsgid=300", "\nsgid=100")
        .replace("fsgid=400", "fsgid=100");
    let report = run(format!("{START}{first}{more}").as_bytes()).1;
    assert_eq!(report, format!("{answers}{more_answers}{sheet}"));
}

#[test]
fn a_set_group_id_launch_in_a_plan() {
    let launch = steps(&[(1, [0, SET_GROUP_ID, 50])]);
    let expected = "\
code=0
value=0000000000000000
cause=0
ruid=1000
euid=1000
suid=1000
fsuid=1000
rgid=100
egid=50
sgid=50
fsgid=50
permitted=0000000000000000
inheritable=0000000000002000
effective=0000000000000000
bounding=000001ffffffffff
ambient=0000000000000000
securebits=00
nnp=0
";
    assert_eq!(run(format!("{START}{launch}").as_bytes()).1, expected);
    let refused = steps(&[(1, [0, SET_GROUP_ID, LEAVE])]);
    let report = run(format!("{START}{refused}").as_bytes()).1;
    assert_eq!(report, format!("code=22\nvalue=0000000000000000\ncause=0\n{START}"));
}

#[test]
fn a_set_group_id_launch_in_the_effective_group_in_a_plan() {
    // Group 200 is the effective one already: the sets stay, and the saved and filesystem groups follow.
    let launch = steps(&[(1, [0, SET_GROUP_ID, 200])]);
    let expected = "\
code=0
value=0000000000000000
cause=0
ruid=1000
euid=1000
suid=1000
fsuid=1000
rgid=100
egid=200
sgid=200
fsgid=200
permitted=0000000000002000
inheritable=0000000000002000
effective=0000000000002000
bounding=000001ffffffffff
ambient=0000000000002000
securebits=00
nnp=0
";
    assert_eq!(run(format!("{START}{launch}").as_bytes()).1, expected);
}
