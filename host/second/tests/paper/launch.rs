//! Launching, a to f, and the points that are easy to get wrong there.

use crate::helpers::*;
use second::{perform, Credentials};

/// Bytes that no reader takes.
fn unreadable() -> Vec<u8> {
    vec![0xff; 24]
}

#[test]
fn a_no_new_privs_nosuid_and_traced_ignore_all() {
    let nnp = Credentials { nnp: true, ..ambient_user() };
    let set_ids = SET_USER_ID | SET_GROUP_ID;
    for attr in [vec![], attribute(FULL, FULL, true), unreadable()] {
        assert_eq!(after(&nnp, &execve(0, set_ids, attr.clone())), nnp);
        assert_eq!(after(&ambient_user(), &execve(0, set_ids | NOSUID, attr.clone())), ambient_user());
        assert_eq!(after(&ambient_user(), &execve(0, set_ids | TRACED, attr)), ambient_user());
    }
}

#[test]
fn a_no_file_caps_ignores_the_attribute_alone() {
    for attr in [vec![], attribute(FULL, FULL, true), unreadable()] {
        assert_eq!(after(&ambient_user(), &execve(0, NO_FILE_CAPS, attr.clone())), ambient_user());

        let privileged = after(&ambient_user(), &execve(2000, NO_FILE_CAPS | SET_USER_ID, attr));
        let expected = with_ids(Credentials { inheritable: NET_RAW, ..user() }, 1000, 2000, 2000, 2000);
        assert_eq!(privileged, expected);
    }
}

#[test]
fn a_ignored_attribute_counts_as_not_attached_for_root() {
    // Real 1000, effective 0: with the attribute attached the file's own empty sets would count.
    let before = with_ids(user(), 1000, 0, 0, 0);
    let empty = attribute(0, 0, false);
    assert_eq!(after(&before, &execve(0, 0, empty.clone())).permitted, 0);
    for flags in [NOSUID, TRACED, NO_FILE_CAPS] {
        let launched = after(&before, &execve(0, flags, empty.clone()));
        assert_eq!((launched.permitted, launched.effective), (FULL, FULL));
    }
}

#[test]
fn a_bounding_refusal_does_not_come_from_an_ignored_attribute() {
    let before = Credentials { bounding: 0, ..user() };
    let file = attribute(SYS_RAWIO, 0, true);
    assert_not_permitted(&before, &execve(0, 0, file.clone()), 11);
    for flags in [NOSUID, TRACED, NO_FILE_CAPS] {
        assert_eq!(after(&before, &execve(0, flags, file.clone())), before);
    }
}

#[test]
fn b_saved_and_filesystem_ids_follow_in_every_launch() {
    let before = with_ids(user(), 1, 2, 3, 4);
    assert_eq!(ids(&after(&before, &execve(9, 0, vec![]))), [1, 2, 2, 2]);
    assert_eq!(ids(&after(&before, &execve(9, SET_GROUP_ID, vec![]))), [1, 2, 2, 2]);
    assert_eq!(ids(&after(&before, &execve(9, SET_USER_ID, vec![]))), [1, 9, 9, 9]);
    assert_eq!(ids(&after(&before, &execve(9, SET_USER_ID | NOSUID, vec![]))), [1, 2, 2, 2]);
    assert_eq!(ids(&after(&before, &execve(4_294_967_294, SET_USER_ID, vec![])))[1..], [4_294_967_294; 3]);
}

/// Groups 1, 2, 3, 4 and user IDs that are other numbers.
fn four_groups() -> Credentials {
    with_groups(with_ids(user(), 11, 12, 13, 14), 1, 2, 3, 4)
}

/// The group IDs after the launch of a file of owner 8 and group 9.
fn launched_groups(before: &Credentials, flags: u64, attr: Vec<u8>) -> [u32; 4] {
    groups(&after(before, &of_group(9, execve(8, flags, attr))))
}

#[test]
fn b_set_group_id_sets_the_effective_group_and_the_real_one_stays() {
    assert_eq!(launched_groups(&four_groups(), SET_GROUP_ID, vec![]), [1, 9, 9, 9]);
    for group in [0, 1, 2, 3, 4, 12, 4_294_967_294] {
        let launched = after(&four_groups(), &of_group(group, execve(8, SET_GROUP_ID, vec![])));
        let group = group as u32;
        assert_eq!(groups(&launched), [1, group, group, group]);
    }
}

#[test]
fn b_saved_and_filesystem_groups_follow_in_every_launch() {
    for group in [0, 9, 4_294_967_294] {
        let launched = after(&four_groups(), &of_group(group, execve(8, 0, vec![])));
        assert_eq!(launched, with_groups(with_ids(user(), 11, 12, 12, 12), 1, 2, 2, 2));
    }
    assert_eq!(launched_groups(&four_groups(), 0, attribute(NET_RAW, 0, true)), [1, 2, 2, 2]);
    assert_eq!(launched_groups(&with_ids(four_groups(), 0, 0, 0, 0), 0, vec![]), [1, 2, 2, 2]);
}

#[test]
fn b_each_set_id_bit_has_its_own_ids() {
    let launched = |flags| after(&four_groups(), &of_group(9, execve(8, flags, vec![])));
    let expected = with_groups(with_ids(user(), 11, 8, 8, 8), 1, 2, 2, 2);
    assert_eq!(launched(SET_USER_ID), expected);
    let expected = with_groups(with_ids(user(), 11, 12, 12, 12), 1, 9, 9, 9);
    assert_eq!(launched(SET_GROUP_ID), expected);
    let expected = with_groups(with_ids(user(), 11, 8, 8, 8), 1, 9, 9, 9);
    assert_eq!(launched(SET_USER_ID | SET_GROUP_ID), expected);
}

#[test]
fn b_a_set_id_bit_that_changes_nothing_is_in_force_all_the_same() {
    let launched = |owner, group, flags| after(&four_groups(), &of_group(group, execve(owner, flags, vec![])));
    let expected = with_groups(with_ids(user(), 11, 12, 12, 12), 1, 2, 2, 2);
    assert_eq!(launched(12, 9, SET_USER_ID), expected);
    assert_eq!(launched(8, 2, SET_GROUP_ID), expected);
    assert_eq!(launched(12, 2, SET_USER_ID | SET_GROUP_ID), expected);
    let expected = with_groups(with_ids(user(), 11, 12, 12, 12), 1, 9, 9, 9);
    assert_eq!(launched(12, 9, SET_USER_ID | SET_GROUP_ID), expected);
    let expected = with_groups(with_ids(user(), 11, 8, 8, 8), 1, 2, 2, 2);
    assert_eq!(launched(8, 2, SET_USER_ID | SET_GROUP_ID), expected);
}

#[test]
fn b_set_group_id_is_ignored_under_no_new_privs_nosuid_and_traced() {
    let nnp = Credentials { nnp: true, ..four_groups() };
    for attr in [vec![], attribute(FULL, FULL, true), unreadable()] {
        for others in [0, SET_USER_ID, NO_FILE_CAPS, SET_USER_ID | NO_FILE_CAPS] {
            let flags = SET_GROUP_ID | others;
            assert_eq!(launched_groups(&nnp, flags, attr.clone()), [1, 2, 2, 2]);
            assert_eq!(launched_groups(&four_groups(), flags | NOSUID, attr.clone()), [1, 2, 2, 2]);
            assert_eq!(launched_groups(&four_groups(), flags | TRACED, attr.clone()), [1, 2, 2, 2]);
            assert_eq!(launched_groups(&four_groups(), flags | NOSUID | TRACED, attr.clone()), [1, 2, 2, 2]);
        }
    }
    // For root too, whatever it has.
    let before = with_groups(full_root(), 1, 2, 3, 4);
    assert_eq!(launched_groups(&before, SET_GROUP_ID | NOSUID, vec![]), [1, 2, 2, 2]);
    assert_eq!(launched_groups(&before, SET_GROUP_ID | TRACED, vec![]), [1, 2, 2, 2]);
}

#[test]
fn b_set_group_id_stays_in_force_under_no_file_caps() {
    for attr in [vec![], attribute(FULL, FULL, true), unreadable()] {
        let launched = after(&four_groups(), &of_group(9, execve(8, SET_GROUP_ID | NO_FILE_CAPS, attr)));
        assert_eq!(launched, with_groups(with_ids(user(), 11, 12, 12, 12), 1, 9, 9, 9));
    }
}

#[test]
fn b_set_group_id_beside_an_attribute() {
    let launched = after(&four_groups(), &of_group(9, execve(8, SET_GROUP_ID, attribute(NET_RAW, 0, true))));
    let expected = Credentials { permitted: NET_RAW, effective: NET_RAW, ..with_ids(user(), 11, 12, 12, 12) };
    assert_eq!(launched, with_groups(expected, 1, 9, 9, 9));
}

#[test]
fn b_leaving_group_0_in_a_launch_touches_no_set() {
    let before = with_groups(ambient_user(), 0, 0, 0, 0);
    assert_eq!(after(&before, &execve(0, 0, vec![])), before);
    let before = with_groups(ambient_user(), 5, 5, 0, 0);
    assert_eq!(after(&before, &execve(0, 0, vec![])), with_groups(ambient_user(), 5, 5, 5, 5));
}

#[test]
fn b_the_id_change_rules_do_not_run() {
    // The saved ID leaves 0 and no other is 0: in an ID call P, E and A would be cleared.
    let sets = Credentials { permitted: NET_RAW, inheritable: NET_RAW, ambient: NET_RAW, ..user() };
    let before = with_ids(sets, 1000, 1000, 0, 0);
    let expected = Credentials { effective: NET_RAW, ..with_ids(before.clone(), 1000, 1000, 1000, 1000) };
    assert_eq!(after(&before, &execve(0, 0, vec![])), expected);

    // The effective ID leaves 0: in an ID call E would be cleared.
    let launched = after(&root(), &execve(5, SET_USER_ID, attribute(NET_RAW, 0, true)));
    assert_eq!((launched.permitted, launched.effective), (FULL, FULL));
}

#[test]
fn c_effective_root_counts_the_bit_as_on_and_real_root_does_not() {
    let real_root = with_ids(user(), 0, 1000, 1000, 1000);
    let launched = after(&real_root, &execve(0, 0, vec![]));
    assert_eq!((launched.permitted, launched.effective), (FULL, 0));

    let effective_root = with_ids(user(), 1000, 0, 0, 0);
    let launched = after(&effective_root, &execve(0, 0, vec![]));
    assert_eq!((launched.permitted, launched.effective), (FULL, FULL));
}

#[test]
fn c_real_root_counts_an_attribute_as_full_but_keeps_its_bit() {
    let real_root = with_ids(user(), 0, 1000, 1000, 1000);
    for bit in [false, true] {
        let launched = after(&real_root, &execve(0, 0, attribute(NET_RAW, 0, bit)));
        assert_eq!((launched.permitted, launched.effective), (FULL, if bit { FULL } else { 0 }));
    }
}

#[test]
fn c_both_root_counts_an_attribute_as_full_with_the_bit_on() {
    let launched = after(&root(), &execve(0, 0, attribute(NET_RAW, 0, false)));
    assert_eq!((launched.permitted, launched.effective), (FULL, FULL));
}

#[test]
fn c_the_exception_uses_the_files_own_sets_and_bit() {
    for bit in [false, true] {
        let launched = after(&user(), &execve(0, SET_USER_ID, attribute(NET_RAW, 0, bit)));
        assert_eq!((launched.permitted, launched.effective), (NET_RAW, if bit { NET_RAW } else { 0 }));
    }
}

#[test]
fn c_the_ids_after_b_decide() {
    // Set-user-ID away from root: real 1000, effective 0 before, owner 2000.
    let before = with_ids(user(), 1000, 0, 0, 0);
    let launched = after(&before, &execve(2000, SET_USER_ID, vec![]));
    assert_eq!((launched.permitted, launched.effective), (0, 0));
}

#[test]
fn c_group_ids_have_no_say() {
    // Groups 0 from the start, and by the launch: no file set counts as full and no bit as on.
    let before = with_groups(user(), 0, 0, 0, 0);
    assert_eq!(after(&before, &execve(1000, 0, vec![])), before);
    assert_eq!(after(&before, &execve(1000, SET_GROUP_ID, vec![])), before);
    assert_eq!(after(&user(), &execve(1000, SET_GROUP_ID, vec![])), with_groups(user(), 1000, 0, 0, 0));
    let launched = after(&before, &execve(1000, SET_GROUP_ID, attribute(NET_RAW, 0, false)));
    assert_eq!(launched, Credentials { permitted: NET_RAW, ..before });

    // User ID 0 needs no group 0.
    for group in [0, 1000] {
        let before = with_groups(root(), group, group, group, group);
        let launched = after(&before, &of_group(1000, execve(0, SET_GROUP_ID, vec![])));
        assert_eq!((launched.permitted, launched.effective), (FULL, FULL));
    }

    // The exception is for a real user ID that is not 0, whatever the real group.
    let before = with_groups(with_ids(user(), 1000, 0, 0, 0), 0, 1000, 1000, 1000);
    let launched = after(&before, &execve(0, 0, attribute(NET_RAW, 0, false)));
    assert_eq!((launched.permitted, launched.effective), (NET_RAW, 0));
}

#[test]
fn c_noroot_stops_the_special_treatment() {
    let before = Credentials { securebits: NOROOT, inheritable: NET_ADMIN, ..root() };
    assert_eq!(after(&before, &execve(0, 0, vec![])), before);
    let launched = after(&before, &execve(0, 0, attribute(NET_RAW, NET_ADMIN, true)));
    assert_eq!((launched.permitted, launched.effective), (NET_RAW | NET_ADMIN, NET_RAW | NET_ADMIN));

    let before = Credentials { securebits: NOROOT << 1, ..root() };
    assert_eq!(after(&before, &execve(0, 0, vec![])).permitted, FULL);
}

#[test]
fn d_each_kind_of_privilege_empties_ambient() {
    let plain = after(&ambient_user(), &of_group(1000, execve(1000, 0, vec![])));
    assert_eq!(plain, ambient_user());
    for (flags, owner, group, attr) in [
        (SET_USER_ID, 2000, 1000, vec![]),
        (SET_GROUP_ID, 1000, 2000, vec![]),
        (0, 1000, 1000, attribute(0, 0, false)),
        (NO_FILE_CAPS | SET_USER_ID, 2000, 1000, vec![]),
        (NO_FILE_CAPS | SET_GROUP_ID, 1000, 2000, vec![]),
    ] {
        let launched = after(&ambient_user(), &of_group(group, execve(owner, flags, attr)));
        assert_eq!((launched.ambient, launched.permitted, launched.effective), (0, 0, 0));
    }
}

/// As `four_groups`, with the sets of case 2: effective user 12, effective group 2.
fn ambient_four_groups() -> Credentials {
    with_groups(with_ids(ambient_user(), 11, 12, 13, 14), 1, 2, 3, 4)
}

/// That thread after the launch of a file of this owner and group.
fn ambient_launch(owner: u64, group: u64, flags: u64) -> Credentials {
    after(&ambient_four_groups(), &of_group(group, execve(owner, flags, vec![])))
}

/// That thread after a launch that ends in this effective user and group and leaves A.
fn kept(euid: u32, egid: u32) -> Credentials {
    with_groups(with_ids(ambient_user(), 11, euid, euid, euid), 1, egid, egid, egid)
}

/// That thread after a launch that ends in this effective user and group and empties A.
fn emptied(euid: u32, egid: u32) -> Credentials {
    without_ambient(kept(euid, egid))
}

/// The same with A empty, and with it P and E, where the file gives nothing.
fn without_ambient(credentials: Credentials) -> Credentials {
    Credentials { permitted: 0, effective: 0, ambient: 0, ..credentials }
}

#[test]
fn d_set_user_id_empties_ambient_unless_the_owner_is_the_effective_user() {
    // The real, saved and filesystem user ID, the four group IDs, and others.
    for owner in [11, 13, 14, 1, 2, 3, 4, 9, 12 + 65_536, 12 + 2_147_483_648, 4_294_967_294] {
        assert_eq!(ambient_launch(u64::from(owner), 9, SET_USER_ID), emptied(owner, 2));
    }
    assert_eq!(ambient_launch(12, 9, SET_USER_ID), kept(12, 2));

    let highest = with_ids(ambient_user(), 1000, 4_294_967_294, 1000, 1000);
    let expected = with_ids(ambient_user(), 1000, 4_294_967_294, 4_294_967_294, 4_294_967_294);
    assert_eq!(after(&highest, &execve(4_294_967_294, SET_USER_ID, vec![])), expected);
}

#[test]
fn d_set_group_id_empties_ambient_unless_the_group_is_the_effective_one() {
    // The real, saved and filesystem group, the four user IDs, and others.
    for group in [1, 3, 4, 11, 12, 13, 14, 0, 9, 2 + 65_536, 2 + 2_147_483_648, 4_294_967_294] {
        assert_eq!(ambient_launch(9, u64::from(group), SET_GROUP_ID), emptied(12, group));
    }
    assert_eq!(ambient_launch(9, 2, SET_GROUP_ID), kept(12, 2));

    let highest = with_groups(ambient_user(), 1000, 4_294_967_294, 1000, 1000);
    let expected = with_groups(ambient_user(), 1000, 4_294_967_294, 4_294_967_294, 4_294_967_294);
    assert_eq!(after(&highest, &of_group(4_294_967_294, execve(9, SET_GROUP_ID, vec![]))), expected);
}

/// Real, saved and filesystem ID of a thread whose effective ID is 12: each of them alone another one, two, all.
const NOT_EFFECTIVE: [[u32; 3]; 7] =
    [[8, 12, 12], [12, 8, 12], [12, 12, 8], [8, 8, 12], [8, 12, 8], [12, 8, 8], [8, 8, 8]];

#[test]
fn d_the_real_saved_and_filesystem_users_are_not_asked() {
    for [ruid, suid, fsuid] in NOT_EFFECTIVE {
        let before = with_ids(ambient_user(), ruid, 12, suid, fsuid);
        let expected = with_ids(ambient_user(), ruid, 12, 12, 12);
        assert_eq!(after(&before, &execve(12, SET_USER_ID, vec![])), expected);
        let expected = without_ambient(with_ids(ambient_user(), ruid, 8, 8, 8));
        assert_eq!(after(&before, &execve(8, SET_USER_ID, vec![])), expected);
    }
}

#[test]
fn d_the_real_saved_and_filesystem_groups_are_not_asked() {
    for [rgid, sgid, fsgid] in NOT_EFFECTIVE {
        let before = with_groups(ambient_user(), rgid, 12, sgid, fsgid);
        let expected = with_groups(ambient_user(), rgid, 12, 12, 12);
        assert_eq!(after(&before, &of_group(12, execve(9, SET_GROUP_ID, vec![]))), expected);
        let expected = without_ambient(with_groups(ambient_user(), rgid, 8, 8, 8));
        assert_eq!(after(&before, &of_group(8, execve(9, SET_GROUP_ID, vec![]))), expected);
    }
}

#[test]
fn d_of_both_bits_one_that_changes_its_id_is_enough() {
    let both = SET_USER_ID | SET_GROUP_ID;
    assert_eq!(ambient_launch(12, 2, both), kept(12, 2));
    assert_eq!(ambient_launch(8, 2, both), emptied(8, 2));
    assert_eq!(ambient_launch(12, 9, both), emptied(12, 9));
    assert_eq!(ambient_launch(8, 9, both), emptied(8, 9));
}

#[test]
fn d_a_bit_that_is_not_set_does_not_count() {
    for (owner, group) in [(12, 2), (8, 2), (12, 9), (8, 9)] {
        assert_eq!(ambient_launch(owner, group, 0), kept(12, 2));
    }
    // The file's other ID has no say, neither for A nor against it.
    assert_eq!(ambient_launch(12, 9, SET_USER_ID), kept(12, 2));
    assert_eq!(ambient_launch(8, 2, SET_USER_ID), emptied(8, 2));
    assert_eq!(ambient_launch(8, 2, SET_GROUP_ID), kept(12, 2));
    assert_eq!(ambient_launch(12, 9, SET_GROUP_ID), emptied(12, 9));
}

#[test]
fn d_each_bit_is_asked_of_its_own_id() {
    // The owner is the effective group, the file's group the effective user.
    for (owner, group) in [(2, 12), (2, 2), (2, 9)] {
        assert_eq!(ambient_launch(owner, group, SET_USER_ID), emptied(2, 2));
    }
    for (owner, group) in [(2, 12), (12, 12), (9, 12)] {
        assert_eq!(ambient_launch(owner, group, SET_GROUP_ID), emptied(12, 12));
    }
    let both = SET_USER_ID | SET_GROUP_ID;
    assert_eq!(ambient_launch(2, 12, both), emptied(2, 12));
    assert_eq!(ambient_launch(2, 2, both), emptied(2, 2));
    assert_eq!(ambient_launch(12, 12, both), emptied(12, 12));
}

#[test]
fn d_an_ignored_bit_does_not_count() {
    let nnp = Credentials { nnp: true, ..ambient_four_groups() };
    for bits in [SET_USER_ID, SET_GROUP_ID, SET_USER_ID | SET_GROUP_ID] {
        for (owner, group) in [(12, 2), (8, 2), (12, 9), (8, 9)] {
            for flags in [bits, bits | NO_FILE_CAPS] {
                assert_eq!(ambient_launch(owner, group, flags | NOSUID), kept(12, 2));
                assert_eq!(ambient_launch(owner, group, flags | TRACED), kept(12, 2));
                assert_eq!(ambient_launch(owner, group, flags | NOSUID | TRACED), kept(12, 2));
                let launched = after(&nnp, &of_group(group, execve(owner, flags, vec![])));
                assert_eq!(launched, Credentials { nnp: true, ..kept(12, 2) });
            }
        }
    }
}

#[test]
fn d_no_file_caps_leaves_the_bits() {
    for attr in [vec![], attribute(FULL, FULL, true), unreadable()] {
        let launched = |owner, group, bits| {
            after(&ambient_four_groups(), &of_group(group, execve(owner, NO_FILE_CAPS | bits, attr.clone())))
        };
        assert_eq!(launched(12, 9, SET_USER_ID), kept(12, 2));
        assert_eq!(launched(8, 2, SET_USER_ID), emptied(8, 2));
        assert_eq!(launched(8, 2, SET_GROUP_ID), kept(12, 2));
        assert_eq!(launched(12, 9, SET_GROUP_ID), emptied(12, 9));

        let both = SET_USER_ID | SET_GROUP_ID;
        assert_eq!(launched(12, 2, both), kept(12, 2));
        assert_eq!(launched(8, 2, both), emptied(8, 2));
        assert_eq!(launched(12, 9, both), emptied(12, 9));
        assert_eq!(launched(8, 9, both), emptied(8, 9));
    }
}

#[test]
fn d_an_attribute_counts_beside_bits_that_change_nothing() {
    for bits in [0, SET_USER_ID, SET_GROUP_ID, SET_USER_ID | SET_GROUP_ID] {
        let file = |attr| of_group(2, execve(12, bits, attr));
        let launched = |attr| after(&ambient_four_groups(), &file(attr));
        assert_eq!(launched(attribute(0, 0, false)), emptied(12, 2));
        assert_eq!(launched(attribute(0, 0, true)), emptied(12, 2));
        assert_eq!(launched(vec![0, 0, 0, 1, 0, 0, 0, 0, 0, 0, 0, 0]), emptied(12, 2));

        let expected = Credentials { permitted: NET_ADMIN, effective: NET_ADMIN, ..emptied(12, 2) };
        assert_eq!(launched(attribute(NET_ADMIN, 0, true)), expected);
        // NET_RAW is permitted again by I; with A it would be effective too.
        let expected = Credentials { permitted: NET_RAW, ..emptied(12, 2) };
        assert_eq!(launched(attribute(0, NET_RAW, false)), expected);

        assert_refused(&ambient_four_groups(), &file(unreadable()), 60);
        let before = Credentials { bounding: 0, ..ambient_four_groups() };
        assert_not_permitted(&before, &file(attribute(NET_RAW, 0, true)), 11);
    }
}

#[test]
fn d_the_effective_ids_just_before_the_launch_are_asked() {
    let before = with_groups(with_ids(ambient_user(), 5, 5, 6, 5), 7, 7, 8, 7);
    let both = SET_USER_ID | SET_GROUP_ID;
    let file = of_group(8, execve(6, both, vec![]));
    let expected = with_groups(with_ids(ambient_user(), 5, 6, 6, 6), 7, 8, 8, 8);
    assert_eq!(after(&before, &file), without_ambient(expected.clone()));

    // Setresuid to the owner leaves the group to be changed, setresgid then nothing.
    let user_set = after(&before, &step(17, LEAVE, 6, LEAVE));
    assert_eq!(after(&user_set, &file), without_ambient(expected.clone()));
    let both_set = after(&user_set, &step(21, LEAVE, 8, LEAVE));
    assert_eq!(after(&both_set, &file), expected);

    // A first launch changes both and leaves NET_RAW permitted; raised again, it stays in the next launch.
    let first = after(&before, &of_group(8, execve(6, both, attribute(0, NET_RAW, false))));
    assert_eq!((first.permitted, first.ambient), (NET_RAW, 0));
    let raised = after(&first, &step(5, 13, 0, 0));
    assert_eq!(after(&raised, &file), expected);
}

#[test]
fn d_roots_own_set_user_id_file_leaves_ambient() {
    let before = with_ids(ambient_user(), 0, 0, 0, 0);
    let expected = Credentials { permitted: FULL, effective: FULL, ..before.clone() };
    assert_eq!(after(&before, &execve(0, SET_USER_ID, vec![])), expected);
    // Real 0 still gives P, but no longer E.
    let away = Credentials { permitted: FULL, ..without_ambient(with_ids(before.clone(), 0, 1000, 1000, 1000)) };
    assert_eq!(after(&before, &execve(1000, SET_USER_ID, vec![])), away);

    // Under NOROOT there is nothing but A to give.
    let before = Credentials { securebits: NOROOT, ..before };
    assert_eq!(after(&before, &execve(0, SET_USER_ID, vec![])), before);
    let away = without_ambient(with_ids(before.clone(), 0, 1000, 1000, 1000));
    assert_eq!(after(&before, &execve(1000, SET_USER_ID, vec![])), away);
}

#[test]
fn d_real_root_and_effective_root_go_by_the_effective_user() {
    let real_root = with_ids(ambient_user(), 0, 1000, 1000, 1000);
    let expected = Credentials { permitted: FULL, ..real_root.clone() };
    assert_eq!(after(&real_root, &execve(1000, SET_USER_ID, vec![])), expected);
    let expected =
        Credentials { permitted: FULL, effective: FULL, ambient: 0, ..with_ids(real_root.clone(), 0, 0, 0, 0) };
    assert_eq!(after(&real_root, &execve(0, SET_USER_ID, vec![])), expected);

    let effective_root = with_ids(ambient_user(), 1000, 0, 0, 0);
    let expected = Credentials { permitted: FULL, effective: FULL, ..effective_root.clone() };
    assert_eq!(after(&effective_root, &execve(0, SET_USER_ID, vec![])), expected);
    assert_eq!(after(&effective_root, &execve(1000, SET_USER_ID, vec![])), without_ambient(ambient_user()));
}

#[test]
fn d_group_0_is_a_group_like_any_other() {
    let before = with_groups(ambient_user(), 1000, 0, 1000, 1000);
    let launched = after(&before, &of_group(0, execve(9, SET_GROUP_ID, vec![])));
    assert_eq!(launched, with_groups(ambient_user(), 1000, 0, 0, 0));
    let launched = after(&before, &of_group(1000, execve(9, SET_GROUP_ID, vec![])));
    assert_eq!(launched, without_ambient(ambient_user()));

    // Root's own file, of a group that is not its own.
    let before = with_ids(ambient_user(), 0, 0, 0, 0);
    let launched = after(&before, &of_group(0, execve(0, SET_USER_ID | SET_GROUP_ID, vec![])));
    let expected = Credentials { permitted: FULL, effective: FULL, ambient: 0, ..before };
    assert_eq!(launched, with_groups(expected, 1000, 0, 0, 0));
}

#[test]
fn d_securebits_have_no_say() {
    for securebits in 0..=255 {
        let before = Credentials { securebits, ..ambient_four_groups() };
        let securebits = securebits & !KEEP_CAPS;
        let both = SET_USER_ID | SET_GROUP_ID;
        let launched = |owner, group| after(&before, &of_group(group, execve(owner, both, vec![])));
        assert_eq!(launched(12, 2), Credentials { securebits, ..kept(12, 2) });
        assert_eq!(launched(8, 2), Credentials { securebits, ..emptied(8, 2) });
        assert_eq!(launched(12, 9), Credentials { securebits, ..emptied(12, 9) });
    }
}

#[test]
fn e_the_three_parts_of_the_new_permitted_set() {
    let before = Credentials {
        permitted: 0b0001,
        inheritable: 0b0111,
        effective: 0,
        bounding: 0b11_0000,
        ambient: 0b0001,
        ..user()
    };
    let launched = after(&before, &execve(0, 0, attribute(0b101_0000, 0b1010, false)));
    let expected = Credentials { permitted: 0b1_0010, effective: 0, ambient: 0, ..before.clone() };
    assert_eq!(launched, expected);

    let launched = after(&before, &execve(0, 0, vec![]));
    assert_eq!(launched, Credentials { permitted: 1, effective: 1, ..before });
}

#[test]
fn e_ambient_counts_beside_the_full_sets_of_real_root() {
    let before = Credentials { bounding: 0, ..with_ids(ambient_user(), 0, 1000, 1000, 1000) };
    assert_eq!(after(&before, &execve(0, 0, vec![])), before);
}

#[test]
fn e_file_inheritable_is_not_masked_by_the_bounding_set() {
    let before = Credentials { bounding: 0, inheritable: SYS_RAWIO, ..root() };
    let launched = after(&before, &execve(0, 0, vec![]));
    assert_eq!((launched.permitted, launched.effective), (SYS_RAWIO, SYS_RAWIO));
}

#[test]
fn e_keep_caps_alone_is_cleared() {
    let before = Credentials { securebits: 0xff, nnp: true, ..user() };
    assert_eq!(after(&before, &execve(0, 0, vec![])), Credentials { securebits: 0xef, ..before });
}

#[test]
fn f_root_is_refused_too() {
    let before = Credentials { bounding: FULL & !SYS_RAWIO, ..full_root() };
    assert_not_permitted(&before, &execve(0, 0, attribute(SYS_RAWIO, 0, true)), 11);
    let launched = after(&before, &execve(0, 0, attribute(SYS_RAWIO, 0, false)));
    assert_eq!(launched.permitted, FULL & !SYS_RAWIO);
}

#[test]
fn f_looks_at_the_files_own_inheritable_set() {
    // Root with I={17}: with the file counted as full it would get 17 from I, but its own inheritable set is empty.
    let before = Credentials { bounding: FULL & !SYS_RAWIO, inheritable: SYS_RAWIO, ..root() };
    assert_not_permitted(&before, &execve(0, 0, attribute(SYS_RAWIO, 0, true)), 11);
    let launched = after(&before, &execve(0, 0, attribute(SYS_RAWIO, SYS_RAWIO, true)));
    assert_eq!((launched.permitted, launched.effective), (FULL, FULL));
}

#[test]
fn f_holds_in_the_exception_and_under_noroot() {
    let before = Credentials { bounding: 0, ..user() };
    assert_not_permitted(&before, &execve(0, SET_USER_ID, attribute(NET_RAW, 0, true)), 11);
    let before = Credentials { securebits: NOROOT, ..before };
    assert_not_permitted(&before, &execve(0, SET_USER_ID, attribute(NET_RAW, 0, true)), 11);
}

#[test]
fn f_ambient_does_not_help() {
    let before = Credentials { bounding: 0, ..ambient_user() };
    assert_not_permitted(&before, &execve(0, 0, attribute(NET_RAW, 0, true)), 11);
}

#[test]
fn f_an_empty_permitted_set_is_never_refused() {
    let before = Credentials { bounding: 0, inheritable: NET_RAW, ..user() };
    let launched = after(&before, &execve(0, 0, attribute(0, NET_RAW, true)));
    assert_eq!((launched.permitted, launched.effective), (NET_RAW, NET_RAW));
}

#[test]
fn version_1_launches_as_version_2() {
    let version_1 = vec![1, 0, 0, 1, 0, 0x20, 0, 0, 0, 0x10, 0, 0];
    let before = Credentials { inheritable: NET_ADMIN, ..user() };
    let version_2 = execve(0, 0, attribute(NET_RAW, NET_ADMIN, true));
    assert_eq!(perform(&before, &execve(0, 0, version_1.clone())), perform(&before, &version_2));
    assert_eq!(after(&before, &version_2).permitted, NET_RAW | NET_ADMIN);
    let bounded = Credentials { bounding: 0, ..before };
    assert_not_permitted(&bounded, &execve(0, 0, version_1), 11);
    assert_not_permitted(&bounded, &version_2, 11);
}
