//! "After an accepted ID call": rules 1 to 4, where each runs and what holds it back. They are those of calls 15 to 18.

use super::family::{Family, EFFECTIVE, FILESYSTEM};
use super::moment::{KEEP_CAPS, NO_SETUID_FIXUP};
use super::{Moment, Row};

/// What setfsuid takes from E and gives it: CHOWN, DAC_OVERRIDE, DAC_READ_SEARCH, FOWNER, FSETID, LINUX_IMMUTABLE, MKNOD, MAC_OVERRIDE.
pub const FILESYSTEM_SET: u64 = 0x0000_0001_0800_021f;

const USERS: Family = Family::Users;

/// The rows of the four rules.
pub fn rows() -> Vec<Row<Moment>> {
    let mut rows = Vec::new();
    for (call, name) in [(15, "setuid"), (16, "setreuid"), (17, "setresuid")] {
        rows.extend(rows_of_rule_1(call, name));
        rows.extend(rows_of_rules_2_and_3(call, name));
    }
    rows.extend(rows_of_rule_4());
    rows
}

// 1: one of real, effective and saved was 0 and none is now.
fn leaves_root(m: &Moment) -> bool {
    USERS.leaves_0(m)
}

// 2, 3: the effective ID before and after is 0 or not.
fn effective_goes(m: &Moment, from_0: bool, to_0: bool) -> bool {
    USERS.goes(m, EFFECTIVE, from_0, to_0)
}

// 4: the filesystem ID likewise.
fn filesystem_goes(m: &Moment, from_0: bool, to_0: bool) -> bool {
    USERS.goes(m, FILESYSTEM, from_0, to_0)
}

fn sets_stay(m: &Moment) -> bool {
    let (before, after) = (&m.before, &m.answer.after);
    m.is_accepted()
        && (before.permitted, before.inheritable, before.effective)
            == (after.permitted, after.inheritable, after.effective)
        && (before.bounding, before.ambient) == (after.bounding, after.ambient)
}

fn rows_of_rule_1(call: u8, name: &str) -> Vec<Row<Moment>> {
    let runs = move |m: &Moment| m.calls(call) && leaves_root(m) && !m.secure(NO_SETUID_FIXUP);
    vec![
        Row::new(
            format!("Fix-up 1: {name} clears P, E and A"),
            move |m| runs(m) && !m.secure(KEEP_CAPS) && m.before.effective != 0 && m.before.ambient != 0,
            |m| {
                let after = &m.answer.after;
                m.is_done() && after.permitted | after.effective | after.ambient == 0
            },
        ),
        Row::new(
            format!("Fix-up 1: {name}, I and B stay"),
            move |m| runs(m) && m.before.inheritable != m.before.bounding,
            |m| {
                let after = &m.answer.after;
                m.is_done() && (after.inheritable, after.bounding) == (m.before.inheritable, m.before.bounding)
            },
        ),
        Row::new(
            format!("Fix-up 1: {name}, KEEP_CAPS keeps P and clears A"),
            move |m| runs(m) && m.secure(KEEP_CAPS) && m.before.ambient != 0,
            |m| m.is_done() && m.answer.after.permitted == m.before.permitted && m.answer.after.ambient == 0,
        ),
        Row::new(
            format!("Fix-up 1: {name}, held back by NO_SETUID_FIXUP"),
            move |m| m.calls(call) && leaves_root(m) && m.secure(NO_SETUID_FIXUP) && m.before.ambient != 0,
            sets_stay,
        ),
    ]
}

fn rows_of_rules_2_and_3(call: u8, name: &str) -> Vec<Row<Moment>> {
    let runs = move |m: &Moment| m.calls(call) && !m.secure(NO_SETUID_FIXUP);
    let mut rows = vec![
        Row::new(
            format!("Fix-up 2: {name}, KEEP_CAPS keeps P and not E"),
            move |m| runs(m) && m.secure(KEEP_CAPS) && effective_goes(m, true, false) && m.before.effective != 0,
            |m| m.is_done() && m.answer.after.effective == 0 && m.answer.after.permitted == m.before.permitted,
        ),
        Row::new(
            format!("Fix-up 2: {name}, held back by NO_SETUID_FIXUP"),
            move |m| {
                m.calls(call) && m.secure(NO_SETUID_FIXUP) && effective_goes(m, true, false) && m.before.effective != 0
            },
            sets_stay,
        ),
        Row::new(
            format!("Fix-up 3: {name}, E becomes P"),
            move |m| runs(m) && effective_goes(m, false, true) && m.before.effective != m.before.permitted,
            |m| m.is_done() && m.answer.after.effective == m.before.permitted,
        ),
        Row::new(
            format!("Fix-up 3: {name}, held back by NO_SETUID_FIXUP"),
            move |m| {
                let differ = m.before.effective != m.before.permitted;
                m.calls(call) && m.secure(NO_SETUID_FIXUP) && effective_goes(m, false, true) && differ
            },
            sets_stay,
        ),
        Row::new(
            format!("Fix-ups: {name} within root changes no set"),
            move |m| runs(m) && effective_goes(m, true, true) && m.before.effective != m.before.permitted,
            sets_stay,
        ),
        Row::new(
            format!("Fix-ups: {name} among users changes no set"),
            move |m| runs(m) && effective_goes(m, false, false) && !leaves_root(m) && m.before.effective != 0,
            sets_stay,
        ),
        Row::new(
            format!("Fix-up 4: not in {name}, filesystem ID from 0"),
            move |m| {
                let quiet = effective_goes(m, false, false) && !leaves_root(m);
                runs(m) && quiet && filesystem_goes(m, true, false) && m.before.effective & FILESYSTEM_SET != 0
            },
            sets_stay,
        ),
    ];
    rows.push(Row::new(
        format!("Fix-up 2: {name} clears E alone, an ID being 0 still"),
        move |m| runs(m) && effective_goes(m, true, false) && !leaves_root(m) && m.before.effective != 0,
        |m| {
            let after = &m.answer.after;
            m.is_done()
                && after.effective == 0
                && (after.permitted, after.ambient) == (m.before.permitted, m.before.ambient)
        },
    ));
    rows.push(Row::new(
        format!("Fix-up 1: {name}, KEEP_CAPS keeps P and E where the effective ID was not 0"),
        move |m| {
            runs(m)
                && m.secure(KEEP_CAPS)
                && leaves_root(m)
                && effective_goes(m, false, false)
                && m.before.effective != 0
        },
        |m| m.is_done() && m.answer.after.effective == m.before.effective,
    ));
    rows
}

fn rows_of_rule_4() -> Vec<Row<Moment>> {
    let runs = |m: &Moment| m.calls(18) && !m.secure(NO_SETUID_FIXUP);
    let held_back = |m: &Moment| m.calls(18) && m.secure(NO_SETUID_FIXUP);
    let has_some = |m: &Moment| m.before.effective & FILESYSTEM_SET != 0;
    let lacks_some = |m: &Moment| m.before.permitted & !m.before.effective & FILESYSTEM_SET != 0;
    let only_effective_is = |m: &Moment, set: u64| {
        let after = &m.answer.after;
        let others_stay = (after.permitted, after.ambient) == (m.before.permitted, m.before.ambient);
        m.is_accepted() && others_stay && after.effective == set
    };
    let lowered = move |m: &Moment| only_effective_is(m, m.before.effective & !FILESYSTEM_SET);
    let raised = move |m: &Moment| only_effective_is(m, m.before.effective | (m.before.permitted & FILESYSTEM_SET));
    vec![
        Row::new(
            "Fix-up 4: filesystem ID from 0 to nonzero",
            move |m| runs(m) && filesystem_goes(m, true, false) && has_some(m),
            lowered,
        ),
        Row::new(
            "Fix-up 4: filesystem ID from nonzero to 0",
            move |m| runs(m) && filesystem_goes(m, false, true) && lacks_some(m),
            raised,
        ),
        Row::new(
            "Fix-up 4: KEEP_CAPS does not hold it back",
            move |m| runs(m) && filesystem_goes(m, true, false) && has_some(m) && m.secure(KEEP_CAPS),
            lowered,
        ),
        Row::new(
            "Fix-up 4: from 0, held back by NO_SETUID_FIXUP",
            move |m| held_back(m) && filesystem_goes(m, true, false) && has_some(m),
            sets_stay,
        ),
        Row::new(
            "Fix-up 4: to 0, held back by NO_SETUID_FIXUP",
            move |m| held_back(m) && filesystem_goes(m, false, true) && lacks_some(m),
            sets_stay,
        ),
        Row::new(
            "Fix-up 4: from 0 to 0",
            move |m| runs(m) && filesystem_goes(m, true, true) && (has_some(m) || lacks_some(m)),
            sets_stay,
        ),
        Row::new(
            "Fix-up 4: among users",
            move |m| {
                runs(m) && filesystem_goes(m, false, false) && m.step.a != USERS.before(m)[FILESYSTEM] && has_some(m)
            },
            sets_stay,
        ),
        Row::new(
            "Fix-up 4: refused change of the filesystem ID",
            move |m| {
                let asked = m.step.a != USERS.before(m)[FILESYSTEM] && m.step.a != 4_294_967_295;
                runs(m) && asked && filesystem_goes(m, true, true) && has_some(m)
            },
            sets_stay,
        ),
    ]
}
