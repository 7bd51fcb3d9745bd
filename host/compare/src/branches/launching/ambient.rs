//! The rows of "Launching", d, as "Ambient lost too easily" has it: an attribute empties the ambient set, and so does a set-ID bit that makes the
//! effective ID another; a bit that changes nothing does not.

use super::rows::{done, full_gain, has_attribute_alone, Part};
use super::{File, Launch, Reason};
use crate::branches::family::{Family, EFFECTIVE, FILESYSTEM, REAL, SAVED};
use crate::branches::moment::is_within;
use crate::branches::Moment;

/// The rows of d.
pub fn rows() -> Part {
    let mut rows = attribute();
    for family in [Family::Users, Family::Groups] {
        let parts = [one_bit(family), own_ids(family), other_family(family), ignored(family), no_bit(family)];
        rows.extend(parts.into_iter().flatten());
    }
    rows.extend(both_bits());
    rows.extend(kept_by_whom());
    rows
}

fn bit(family: Family) -> &'static str {
    match family {
        Family::Users => "set-user-ID",
        Family::Groups => "set-group-ID",
    }
}

fn is_emptied(m: &Moment, _: &Launch) -> bool {
    m.answer.after.ambient == 0
}

fn is_kept(m: &Moment, _: &Launch) -> bool {
    let (ambient, after) = (m.before.ambient, &m.answer.after);
    after.ambient == ambient && is_within(ambient, after.permitted) && is_within(ambient, after.effective)
}

// There is an ambient set to lose, and of the two bits the one alone is in force.
fn is_one_bit(m: &Moment, l: &Launch, family: Family) -> bool {
    m.before.ambient != 0 && l.is_in_force(family) && !l.has_bit_of(family.other())
}

// The same, and no attribute counts.
fn is_alone(m: &Moment, l: &Launch, family: Family) -> bool {
    is_one_bit(m, l, family) && l.file.is_none()
}

fn effective(m: &Moment, family: Family) -> u32 {
    family.ids(&m.before)[EFFECTIVE]
}

// The file's ID is the thread's effective one: its bit would change nothing.
fn is_own(m: &Moment, l: &Launch, family: Family) -> bool {
    l.file_id(family) == effective(m, family)
}

fn attribute() -> Part {
    let has_file = |m: &Moment, l: &Launch| m.before.ambient != 0 && l.file.is_some() && has_attribute_alone(l);
    let is_empty = |file: File| file.permitted | file.inheritable == 0 && !file.effective;
    vec![
        done("d: emptied by an attribute", has_file, is_emptied),
        done(
            "d: emptied by an attribute of empty sets, bit off",
            move |m, l| has_file(m, l) && l.file.is_some_and(is_empty),
            is_emptied,
        ),
    ]
}

fn one_bit(family: Family) -> Part {
    let bit = bit(family);
    let beside = move |m: &Moment, l: &Launch| is_one_bit(m, l, family) && l.file.is_some();
    vec![
        done(
            format!("d: emptied by {bit} that makes the ID another"),
            move |m, l| is_alone(m, l, family) && !is_own(m, l, family),
            is_emptied,
        ),
        done(
            format!("d: kept, {bit} changes nothing"),
            move |m, l| is_alone(m, l, family) && is_own(m, l, family),
            is_kept,
        ),
        done(
            format!("d: emptied by an attribute, {bit} changes nothing"),
            move |m, l| beside(m, l) && is_own(m, l, family),
            is_emptied,
        ),
        done(
            format!("d: emptied by {bit} and by an attribute"),
            move |m, l| beside(m, l) && !is_own(m, l, family),
            is_emptied,
        ),
    ]
}

// The effective ID is asked, and none of the other three.
fn own_ids(family: Family) -> Part {
    let mut rows = Vec::new();
    for (place, name) in [(REAL, "real"), (SAVED, "saved"), (FILESYSTEM, "filesystem")] {
        let is = move |m: &Moment, l: &Launch, place: usize| l.file_id(family) == family.ids(&m.before)[place];
        rows.push(done(
            format!("d: emptied by {} for the {name} ID, not the effective one", bit(family)),
            move |m, l| is_alone(m, l, family) && is(m, l, place) && !is(m, l, EFFECTIVE),
            is_emptied,
        ));
        rows.push(done(
            format!("d: kept, {} for the effective ID, not the {name} one", bit(family)),
            move |m, l| is_alone(m, l, family) && is(m, l, EFFECTIVE) && !is(m, l, place),
            is_kept,
        ));
    }
    rows
}

// Each bit is asked of its own ID, and not of the other family's; nor is the other's file ID asked of this one.
fn other_family(family: Family) -> Part {
    let (bit, other) = (bit(family), family.other());
    vec![
        done(
            format!("d: emptied by {bit} for the effective one of the {}", other.ids_name()),
            move |m, l| is_alone(m, l, family) && l.file_id(family) == effective(m, other) && !is_own(m, l, family),
            is_emptied,
        ),
        done(
            format!("d: kept, {bit} for its own effective ID, not that of the {}", other.ids_name()),
            move |m, l| is_alone(m, l, family) && l.file_id(family) != effective(m, other) && is_own(m, l, family),
            is_kept,
        ),
        done(
            format!("d: emptied by {bit}, the file's other ID is the thread's"),
            move |m, l| is_alone(m, l, family) && is_own(m, l, other) && !is_own(m, l, family),
            is_emptied,
        ),
        done(
            format!("d: kept, {bit} changes nothing, the file's other ID is another"),
            move |m, l| is_alone(m, l, family) && !is_own(m, l, other) && is_own(m, l, family),
            is_kept,
        ),
    ]
}

// In force or not: three reasons ignore the bit, and no_file_caps does not.
fn ignored(family: Family) -> Part {
    let bit = bit(family);
    let would_change =
        move |m: &Moment, l: &Launch| m.before.ambient != 0 && l.has_bit_of(family) && !is_own(m, l, family);
    let mut rows = Vec::new();
    for (reason, name) in [(Reason::NoNewPrivs, "no-new-privs"), (Reason::Nosuid, "nosuid"), (Reason::Traced, "traced")]
    {
        rows.push(done(
            format!("d: kept, {bit} ignored by {name} would make the ID another"),
            move |m, l| l.is_only_by(reason) && would_change(m, l) && !l.has_bit_of(family.other()),
            is_kept,
        ));
        rows.push(done(
            format!("d: kept, {bit} ignored by {name} would change nothing"),
            move |m, l| l.is_only_by(reason) && m.before.ambient != 0 && l.has_bit_of(family) && is_own(m, l, family),
            is_kept,
        ));
    }
    rows.push(done(
        format!("d: emptied under no_file_caps by {bit} that makes the ID another"),
        move |m, l| l.is_only_by(Reason::NoFileCaps) && would_change(m, l) && !l.has_bit_of(family.other()),
        is_emptied,
    ));
    rows.push(done(
        format!("d: kept under no_file_caps, {bit} changes nothing"),
        move |m, l| l.is_only_by(Reason::NoFileCaps) && is_alone(m, l, family) && !would_change(m, l),
        is_kept,
    ));
    rows
}

fn no_bit(family: Family) -> Part {
    let ids = family.ids_name();
    vec![
        done(
            format!("d: kept without a set-ID bit, the file's of the {ids} is another"),
            move |m, l| {
                let bits = l.has_bit_of(family) || l.has_bit_of(family.other());
                m.before.ambient != 0 && l.file.is_none() && !bits && !is_own(m, l, family)
            },
            is_kept,
        ),
        done(
            format!("d: kept though the saved one of the {ids} moves"),
            move |m, l| {
                m.before.ambient != 0 && !l.is_privileged() && family.ids(&m.before)[SAVED] != effective(m, family)
            },
            is_kept,
        ),
        done(
            format!("d: kept though the filesystem one of the {ids} moves"),
            move |m, l| {
                m.before.ambient != 0 && !l.is_privileged() && family.ids(&m.before)[FILESYSTEM] != effective(m, family)
            },
            is_kept,
        ),
    ]
}

// Both bits in force: one that changes its ID is enough.
fn both_bits() -> Part {
    let both = |m: &Moment, l: &Launch, user: bool, group: bool| {
        let in_force = l.is_in_force(Family::Users) && l.is_in_force(Family::Groups);
        let is_so = |family, changes| is_own(m, l, family) != changes;
        m.before.ambient != 0
            && l.file.is_none()
            && in_force
            && is_so(Family::Users, user)
            && is_so(Family::Groups, group)
    };
    vec![
        done("d: kept, both set-ID bits change nothing", move |m, l| both(m, l, false, false), is_kept),
        done(
            "d: emptied, of both set-ID bits the user's changes its ID",
            move |m, l| both(m, l, true, false),
            is_emptied,
        ),
        done(
            "d: emptied, of both set-ID bits the group's changes its ID",
            move |m, l| both(m, l, false, true),
            is_emptied,
        ),
        done("d: emptied, both set-ID bits change their IDs", move |m, l| both(m, l, true, true), is_emptied),
    ]
}

fn kept_by_whom() -> Part {
    vec![
        done("d: kept", |m, l| m.before.ambient != 0 && !l.is_privileged(), is_kept),
        done(
            "d: kept where the bounding set lacks it",
            |m, l| m.before.ambient & !m.before.bounding != 0 && !l.is_privileged(),
            is_kept,
        ),
        done("d: kept for root", |m, l| m.before.ambient != 0 && !l.is_privileged() && l.effective == 0, is_kept),
        done(
            "d: kept for root by its own set-user-ID file, which gives all",
            |m, l| is_alone(m, l, Family::Users) && l.owner == 0 && m.before.euid == 0 && !l.noroot,
            |m, l| {
                is_kept(m, l) && (m.answer.after.permitted, m.answer.after.effective) == (full_gain(m), full_gain(m))
            },
        ),
    ]
}
