//! The rows of "Launching" that speak of the file's group: a and b with the set-group-ID bit, and that a group 0 is no root.

use super::rows::{done, full_gain, has_bit, refused, Part};
use super::{own_gain, Launch, Reason};
use crate::branches::family::Family;
use crate::branches::validity::LARGEST_ID;
use crate::branches::Moment;

/// The rows of the group.
pub fn rows() -> Part {
    let parts = [ignored(), ids(), no_root()];
    parts.into_iter().flatten().collect()
}

fn is_in_force(l: &Launch) -> bool {
    l.is_in_force(Family::Groups)
}

fn is_another(m: &Moment, l: &Launch) -> bool {
    l.group != m.before.egid
}

// Whether the real group is as it was, and the other three are that one.
fn groups_become(m: &Moment, group: u32) -> bool {
    let after = &m.answer.after;
    [after.rgid, after.egid, after.sgid, after.fsgid] == [m.before.rgid, group, group, group]
}

fn become_the_files(m: &Moment, l: &Launch) -> bool {
    groups_become(m, l.group)
}

fn become_the_effective(m: &Moment, _: &Launch) -> bool {
    groups_become(m, m.before.egid)
}

// a: where the bit is ignored.
fn ignored() -> Part {
    let mut rows = Vec::new();
    for (reason, name) in [(Reason::NoNewPrivs, "no-new-privs"), (Reason::Nosuid, "nosuid"), (Reason::Traced, "traced")]
    {
        rows.push(done(
            format!("a: set-group-ID ignored by {name}"),
            move |m, l| l.is_only_by(reason) && l.set_group_id && is_another(m, l),
            become_the_effective,
        ));
    }
    rows.push(done(
        "a: set-group-ID in force under no_file_caps",
        |m, l| l.is_only_by(Reason::NoFileCaps) && l.set_group_id && is_another(m, l),
        become_the_files,
    ));
    rows
}

// b: the group IDs.
fn ids() -> Part {
    let moves_all = |m: &Moment, group: u32| m.before.sgid != group && m.before.fsgid != group;
    vec![
        done("b: set-group-ID in force, another group", |m, l| is_in_force(l) && is_another(m, l), become_the_files),
        done(
            "b: set-group-ID in force, the effective group, saved and filesystem groups follow",
            move |m, l| is_in_force(l) && !is_another(m, l) && moves_all(m, l.group),
            become_the_files,
        ),
        done(
            "b: set-group-ID in force, group 0",
            |m, l| is_in_force(l) && is_another(m, l) && l.group == 0,
            become_the_files,
        ),
        done(
            "b: set-group-ID in force, group 4294967294",
            |m, l| is_in_force(l) && is_another(m, l) && u64::from(l.group) == LARGEST_ID,
            become_the_files,
        ),
        done(
            "b: group 4294967294 without set-group-ID",
            |m, l| !l.set_group_id && is_another(m, l) && u64::from(l.group) == LARGEST_ID,
            become_the_effective,
        ),
        done(
            "b: saved and filesystem groups become the effective, without set-group-ID",
            move |m, l| !l.set_group_id && moves_all(m, m.before.egid),
            become_the_effective,
        ),
        done(
            "b: saved and filesystem groups become the effective, set-group-ID ignored",
            move |m, l| l.set_group_id && l.set_ids_are_ignored() && moves_all(m, m.before.egid),
            become_the_effective,
        ),
        done(
            "b: set-user-ID changes no group",
            |m, l| {
                let alone = l.set_user_id && !l.set_group_id && !l.set_ids_are_ignored();
                alone && is_another(m, l) && l.owner != m.before.egid
            },
            become_the_effective,
        ),
        done(
            "b: both set-ID bits, owner and group each in its place",
            |m, l| l.set_user_id && is_in_force(l) && l.owner != l.group && is_another(m, l),
            |m, l| become_the_files(m, l) && m.answer.after.euid == l.owner,
        ),
        done(
            "b: the real group stays, as does the real user",
            |m, l| is_in_force(l) && l.group != m.before.rgid && l.group != m.before.ruid,
            |m, _| (m.answer.after.rgid, m.answer.after.ruid) == (m.before.rgid, m.before.ruid),
        ),
        done(
            "b: effective group from 0 to nonzero clears no E",
            |m, l| m.before.egid == 0 && l.effective_group != 0 && gains_in_effect(m, l),
            |m, _| m.answer.after.effective != 0,
        ),
        done(
            "b: effective group from nonzero to 0 does not fill E",
            |m, l| {
                let gains = l.file.is_some_and(|file| own_gain(&m.before, &file) != 0);
                m.before.egid != 0 && l.effective_group == 0 && has_no_root_id(l) && gains && has_bit(l, false)
            },
            |m, _| m.answer.after.effective == 0 && m.answer.after.permitted != 0,
        ),
        refused("f: refused, set-group-ID takes no effect", |m, l| l.effective_group != m.before.egid),
    ]
}

fn gains_in_effect(m: &Moment, l: &Launch) -> bool {
    l.file.is_some_and(|file| file.effective && own_gain(&m.before, &file) != 0)
}

fn has_no_root_id(l: &Launch) -> bool {
    l.real != 0 && l.effective != 0
}

// c asks user IDs alone.
fn no_root() -> Part {
    let gains_nothing = |m: &Moment, _: &Launch| {
        let after = &m.answer.after;
        (after.permitted, after.effective) == (after.ambient, after.ambient)
    };
    let gains_its_own = |m: &Moment, l: &Launch| {
        let gain = l.file.map_or(0, |file| own_gain(&m.before, &file));
        m.answer.after.permitted == gain && m.answer.after.effective == if l.bit() { gain } else { 0 }
    };
    vec![
        done(
            "c: real group 0 is no root",
            |m, l| !l.noroot && m.before.rgid == 0 && has_no_root_id(l) && l.file.is_none(),
            gains_nothing,
        ),
        done(
            "c: effective group 0 is no root",
            |_, l| !l.noroot && l.effective_group == 0 && has_no_root_id(l) && l.file.is_none(),
            gains_nothing,
        ),
        done(
            "c: group 0 by set-group-ID is no root",
            |m, l| {
                !l.noroot && is_in_force(l) && is_another(m, l) && l.group == 0 && has_no_root_id(l) && l.file.is_none()
            },
            |m, _| m.answer.after.permitted | m.answer.after.effective == 0,
        ),
        done(
            "c: all groups 0, the file's own sets and bit",
            |m, l| !l.noroot && m.before.rgid == 0 && l.effective_group == 0 && has_no_root_id(l) && l.file.is_some(),
            gains_its_own,
        ),
        done(
            "c: both user IDs 0, no group 0",
            |m, l| !l.noroot && (l.real, l.effective) == (0, 0) && m.before.rgid != 0 && l.effective_group != 0,
            |m, _| (m.answer.after.permitted, m.answer.after.effective) == (full_gain(m), full_gain(m)),
        ),
        done(
            "c: exception, real group 0",
            |m, l| !l.noroot && l.real != 0 && l.effective == 0 && m.before.rgid == 0 && l.file.is_some(),
            gains_its_own,
        ),
        done(
            "c: exception, no group 0",
            |m, l| {
                let no_group_0 = m.before.rgid != 0 && l.effective_group != 0;
                !l.noroot && l.real != 0 && l.effective == 0 && no_group_0 && l.file.is_some()
            },
            gains_its_own,
        ),
    ]
}
