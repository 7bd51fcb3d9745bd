//! The rows of "Launching", letter by letter; those of c are in `root`, those of d in `ambient`, those of the file's group in `groups`.

use super::{ambient, groups, own_gain, root, Launch, Reading, Reason};
use crate::branches::moment::{is_within, KEEP_CAPS};
use crate::branches::{Moment, Row};

const KEEP_CAPS_LOCK: u8 = 2 * KEEP_CAPS;

/// All of them.
pub fn rows() -> Vec<Row<Moment>> {
    let parts = [ignored(), ids(), root::rows(), ambient::rows(), sets(), missing(), groups::rows()];
    parts.into_iter().flatten().collect()
}

/// The rows of one letter.
pub type Part = Vec<Row<Moment>>;

/// A row of a launch that is done.
pub fn done(
    name: impl Into<String>,
    when: impl Fn(&Moment, &Launch) -> bool + Send + Sync + 'static,
    then: impl Fn(&Moment, &Launch) -> bool + Send + Sync + 'static,
) -> Row<Moment> {
    let applies = move |m: &Moment| m.launch.as_ref().is_some_and(|l| l.is_done() && when(m, l));
    let holds = move |m: &Moment| m.is_done() && m.launch.as_ref().is_some_and(|l| then(m, l));
    Row::new(format!("Launching, {}", name.into()), applies, holds)
}

/// A row of a launch that is refused with 1; the one cause that a launch has is 11.
pub fn refused(name: &str, when: impl Fn(&Moment, &Launch) -> bool + Send + Sync + 'static) -> Row<Moment> {
    let applies = move |m: &Moment| m.launch.as_ref().is_some_and(|l| l.is_refused() && when(m, l));
    Row::new(format!("Launching, {name}"), applies, |m: &Moment| m.is_refused_for(11))
}

// a: what is ignored, and that it is not read.
fn ignored() -> Part {
    let mut rows = Vec::new();
    let reasons = [
        (Reason::NoNewPrivs, "no-new-privs"),
        (Reason::Nosuid, "nosuid"),
        (Reason::Traced, "traced"),
        (Reason::NoFileCaps, "no_file_caps"),
    ];
    for (reason, name) in reasons {
        if reason != Reason::NoFileCaps {
            rows.push(done(
                format!("a: set-user-ID ignored by {name}"),
                move |m, l| l.is_only_by(reason) && l.set_user_id && l.owner != m.before.euid,
                |m, _| m.answer.after.euid == m.before.euid,
            ));
        }
        rows.push(done(
            format!("a: attribute ignored by {name}, ambient kept"),
            move |m, l| l.is_only_by(reason) && has_attribute_alone(l) && m.before.ambient != 0,
            |m, _| m.answer.after.ambient == m.before.ambient,
        ));
        rows.push(done(
            format!("a: attribute that f would refuse ignored by {name}"),
            move |_, l| l.is_only_by(reason) && l.falls_short && own_bit(l),
            |_, _| true,
        ));
        rows.push(done(
            format!("a: unreadable attribute ignored by {name}"),
            move |_, l| l.is_only_by(reason) && l.reading == Reading::Unreadable,
            |_, _| true,
        ));
    }
    rows.push(done(
        "a: set-user-ID in force under no_file_caps",
        |m, l| l.is_only_by(Reason::NoFileCaps) && l.set_user_id && l.owner != m.before.euid,
        |m, l| m.answer.after.euid == l.owner,
    ));
    rows
}

/// Whether a readable attribute is there, ignored or not, and no set-ID bit.
pub fn has_attribute_alone(launch: &Launch) -> bool {
    matches!(launch.reading, Reading::File(_)) && !launch.set_user_id && !launch.set_group_id
}

fn own_bit(launch: &Launch) -> bool {
    matches!(launch.reading, Reading::File(file) if file.effective)
}

// b: the IDs, and that no ID-change rule runs.
fn ids() -> Part {
    vec![
        done(
            "b: set-user-ID in force, another owner",
            |m, l| l.set_user_id && !l.set_ids_are_ignored() && l.owner != m.before.euid,
            |m, l| {
                let after = &m.answer.after;
                [after.ruid, after.euid, after.suid, after.fsuid] == [m.before.ruid, l.owner, l.owner, l.owner]
            },
        ),
        done(
            "b: saved and filesystem IDs become the effective, without set-user-ID",
            |m, l| !l.set_user_id && m.before.suid != m.before.euid && m.before.fsuid != m.before.euid,
            |m, _| {
                let after = &m.answer.after;
                let euid = m.before.euid;
                [after.ruid, after.euid, after.suid, after.fsuid] == [m.before.ruid, euid, euid, euid]
            },
        ),
        done(
            "b: set-group-ID changes no user ID",
            |m, l| l.set_group_id && !l.set_user_id && !l.set_ids_are_ignored() && l.owner != m.before.euid,
            |m, _| m.answer.after.euid == m.before.euid,
        ),
        done(
            "b: effective from 0 to nonzero clears no E",
            |m, l| {
                m.before.euid == 0
                    && l.effective != 0
                    && l.file.is_some_and(|f| f.effective && own_gain(&m.before, &f) != 0)
            },
            |m, _| m.answer.after.effective != 0,
        ),
        done(
            "b: effective from nonzero to 0 does not fill E",
            |m, l| {
                let gains = l.file.is_some_and(|file| own_gain(&m.before, &file) != 0);
                m.before.euid != 0 && l.effective == 0 && l.real != 0 && gains && !l.bit()
            },
            |m, _| m.answer.after.effective == 0 && m.answer.after.permitted != 0,
        ),
        done(
            "b: saved ID 0 lost, ambient kept",
            |m, l| l.real != 0 && m.before.suid == 0 && l.effective != 0 && m.before.ambient != 0 && !l.is_privileged(),
            |m, _| m.answer.after.ambient == m.before.ambient,
        ),
        done(
            "b: filesystem ID 0 lost, E keeps what call 18 would take",
            |m, l| l.effective != 0 && m.before.fsuid == 0 && m.before.ambient & 0x21f != 0 && !l.is_privileged(),
            |m, _| is_within(m.before.ambient, m.answer.after.effective),
        ),
    ]
}

/// What P is for a file whose sets count as full.
pub fn full_gain(m: &Moment) -> u64 {
    m.before.inheritable | m.before.bounding
}

/// Whether an attribute is in force whose bit is so.
pub fn has_bit(launch: &Launch, on: bool) -> bool {
    launch.file.is_some_and(|file| file.effective == on)
}

// e: the new sets, and what stays.
fn sets() -> Part {
    let beyond =
        |m: &Moment, l: &Launch| l.file.map_or(0, |f| m.before.inheritable & f.inheritable & !m.before.bounding);
    vec![
        done(
            "e: file inheritable is not masked by B",
            move |m, l| beyond(m, l) != 0,
            move |m, l| is_within(beyond(m, l), m.answer.after.permitted),
        ),
        done(
            "e: file permitted is masked by B",
            |_, l| l.file.is_some() && l.falls_short && (l.noroot || l.real != 0),
            |m, l| l.file.is_some_and(|file| !is_within(file.permitted, m.answer.after.permitted)),
        ),
        done(
            "e: root's inheritable beyond B",
            |m, l| !l.noroot && l.real == 0 && !is_within(m.before.inheritable, m.before.bounding),
            |m, _| is_within(m.before.inheritable, m.answer.after.permitted),
        ),
        done(
            "e: root's B masks",
            |m, l| !l.noroot && l.real == 0 && full_gain(m) != 0x1ff_ffff_ffff,
            |m, _| m.answer.after.permitted == full_gain(m),
        ),
        done(
            "e: old P and E are lost",
            |m, l| {
                l.real != 0 && l.effective != 0 && m.before.permitted != 0 && m.before.ambient == 0 && l.file.is_none()
            },
            |m, _| m.answer.after.permitted | m.answer.after.effective == 0,
        ),
        done(
            "e: I and B stay",
            |m, _| m.before.inheritable != m.before.bounding,
            |m, _| m.answer.after.inheritable == m.before.inheritable && m.answer.after.bounding == m.before.bounding,
        ),
        done(
            "e: KEEP_CAPS cleared unlocked, others stay",
            |m, _| m.secure(KEEP_CAPS) && !m.secure(KEEP_CAPS_LOCK),
            |m, _| m.answer.after.securebits == m.before.securebits & !KEEP_CAPS,
        ),
        done(
            "e: KEEP_CAPS cleared locked, others stay",
            |m, _| m.secure(KEEP_CAPS) && m.secure(KEEP_CAPS_LOCK),
            |m, _| m.answer.after.securebits == m.before.securebits & !KEEP_CAPS,
        ),
        done("e: no-new-privs stays set", |m, _| m.before.nnp, |m, _| m.answer.after.nnp),
        done("e: no-new-privs stays clear", |m, _| !m.before.nnp, |m, _| !m.answer.after.nnp),
    ]
}

// f: the launch that cannot give what the file asks for.
fn missing() -> Part {
    vec![
        refused("f: refused, no root ID", |_, l| l.real != 0 && l.effective != 0),
        refused("f: refused, both IDs 0", |_, l| !l.noroot && l.real == 0 && l.effective == 0),
        refused("f: refused, real 0 alone", |_, l| !l.noroot && l.real == 0 && l.effective != 0),
        refused("f: refused, effective 0 alone", |_, l| !l.noroot && l.real != 0 && l.effective == 0),
        refused("f: refused, set-user-ID takes no effect", |m, l| l.effective != m.before.euid),
        refused("f: refused, KEEP_CAPS stays", |m, _| m.secure(KEEP_CAPS)),
        refused("f: refused though I has it", |m, l| {
            l.file.is_some_and(|f| is_within(f.permitted, m.before.inheritable | m.before.bounding))
        }),
        refused("f: refused though the file's inheritable has it", |m, l| {
            l.file.is_some_and(|f| is_within(f.permitted, f.inheritable | m.before.bounding))
        }),
        refused("f: refused though P has it", |m, l| {
            l.file.is_some_and(|f| is_within(f.permitted, m.before.permitted | m.before.bounding))
        }),
        done("f: not refused, bit off", |_, l| l.falls_short && has_bit(l, false), |_, _| true),
        done(
            "f: not refused, I and the file's inheritable have what B lacks",
            |m, l| l.file.is_some_and(|f| f.effective && !is_within(f.permitted, m.before.bounding)),
            |m, l| l.file.is_some_and(|f| is_within(f.permitted, m.answer.after.permitted)),
        ),
        done(
            "f: not refused, bit on and B has all",
            |m, l| l.file.is_some_and(|f| f.effective && f.permitted != 0 && is_within(f.permitted, m.before.bounding)),
            |m, l| l.file.is_some_and(|f| is_within(f.permitted, m.answer.after.effective)),
        ),
    ]
}
