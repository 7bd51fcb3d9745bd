//! Calls 9 to 14: securebits, keep-caps and no-new-privs.

use super::moment::{asked, done, lacks_setpcap, refused};
use super::moment::{CAP_SETPCAP, KEEP_CAPS, NOROOT, NO_CAP_AMBIENT_RAISE, NO_SETUID_FIXUP};
use super::{Moment, Row};

/// The flags, and their names.
pub(super) const FLAGS: [(u8, &str); 4] = [
    (NOROOT, "NOROOT"),
    (NO_SETUID_FIXUP, "NO_SETUID_FIXUP"),
    (KEEP_CAPS, "KEEP_CAPS"),
    (NO_CAP_AMBIENT_RAISE, "NO_CAP_AMBIENT_RAISE"),
];
const KEEP_CAPS_LOCK: u8 = 2 * KEEP_CAPS;

// Call 9's bits, and which are turned over by it.
fn new_bits(m: &Moment) -> u8 {
    m.step.a as u8
}

fn turned(m: &Moment) -> u8 {
    m.before.securebits ^ new_bits(m)
}

/// Whether call 9 undoes the lock of that flag.
pub(super) fn lock_is_undone(m: &Moment, flag: u8) -> bool {
    m.secure(2 * flag) && new_bits(m) & (2 * flag) == 0
}

/// Whether call 9 changes that flag, which is locked.
pub(super) fn locked_flag_is_changed(m: &Moment, flag: u8) -> bool {
    m.secure(2 * flag) && turned(m) & flag != 0
}

// The tests of call 9 beside the one for SETPCAP, and that of call 11; true where they refuse.
pub(super) fn undoes_a_lock(m: &Moment) -> bool {
    FLAGS.iter().any(|(flag, _)| lock_is_undone(m, *flag))
}

pub(super) fn changes_a_locked_flag(m: &Moment) -> bool {
    FLAGS.iter().any(|(flag, _)| locked_flag_is_changed(m, *flag))
}

pub(super) fn keep_caps_is_locked(m: &Moment) -> bool {
    m.secure(KEEP_CAPS_LOCK)
}

fn breaks_no_lock(m: &Moment) -> bool {
    !undoes_a_lock(m) && !changes_a_locked_flag(m)
}

fn sets_securebits(m: &Moment) -> bool {
    m.calls(9) && !lacks_setpcap(m) && breaks_no_lock(m)
}

fn only_securebits_are(m: &Moment, bits: u8) -> bool {
    let mut expected = m.before.clone();
    expected.securebits = bits;
    m.answer.after == expected
}

fn securebits_are_those_given(m: &Moment) -> bool {
    only_securebits_are(m, new_bits(m))
}

/// The rows of the six calls.
pub fn rows() -> Vec<Row<Moment>> {
    let mut rows = rows_of_call_9();
    rows.extend(rows_of_each_flag());
    rows.extend(rows_of_keep_caps());
    rows.extend(rows_of_no_new_privs());
    rows
}

fn rows_of_call_9() -> Vec<Row<Moment>> {
    vec![
        done("Securebits: done", |m| sets_securebits(m) && turned(m) != 0, securebits_are_those_given),
        done("Securebits: the same again", |m| sets_securebits(m) && turned(m) == 0, Moment::is_unchanged),
        done(
            "Securebits: the same again, locks set",
            |m| sets_securebits(m) && m.secure(0xaa),
            securebits_are_those_given,
        ),
        done(
            "Securebits: an unlocked flag cleared",
            |m| sets_securebits(m) && m.before.securebits & 0x55 & !new_bits(m) != 0,
            securebits_are_those_given,
        ),
        refused("Securebits: refused without SETPCAP", 1, |m| m.calls(9) && lacks_setpcap(m) && breaks_no_lock(m)),
        refused("Securebits: refused, SETPCAP permitted but not in effect", 1, |m| {
            m.calls(9) && lacks_setpcap(m) && breaks_no_lock(m) && m.before.permitted & CAP_SETPCAP != 0
        }),
        refused("Securebits: refused without SETPCAP though nothing changes", 1, |m| {
            m.calls(9) && lacks_setpcap(m) && turned(m) == 0
        }),
        Row::new(
            "Securebits: get",
            |m: &Moment| m.calls(10) && m.before.securebits != 0,
            |m| m.is_answered(u64::from(m.before.securebits)) && m.is_unchanged(),
        ),
        asked("Securebits: get 0", 0, |m| m.calls(10) && m.before.securebits == 0),
    ]
}

fn rows_of_each_flag() -> Vec<Row<Moment>> {
    let mut rows = Vec::new();
    for (flag, name) in FLAGS {
        let lock = 2 * flag;
        let changes_it =
            move |m: &Moment| m.calls(9) && m.has(CAP_SETPCAP) && !undoes_a_lock(m) && locked_flag_is_changed(m, flag);
        rows.push(refused(format!("Securebits: refused, lock of {name} undone"), 8, move |m| {
            m.calls(9) && m.has(CAP_SETPCAP) && lock_is_undone(m, flag) && !locked_flag_is_changed(m, flag)
        }));
        rows.push(refused(format!("Securebits: refused, {name} set while locked"), 9, move |m| {
            changes_it(m) && new_bits(m) & flag != 0
        }));
        rows.push(refused(format!("Securebits: refused, {name} cleared while locked"), 9, move |m| {
            changes_it(m) && new_bits(m) & flag == 0
        }));
        rows.push(done(
            &format!("Securebits: {name} set together with its lock"),
            move |m| sets_securebits(m) && turned(m) & new_bits(m) & (flag | lock) == flag | lock,
            securebits_are_those_given,
        ));
        rows.push(done(
            &format!("Securebits: another changed while {name} is locked"),
            move |m| sets_securebits(m) && m.secure(lock) && turned(m) != 0,
            securebits_are_those_given,
        ));
    }
    rows
}

fn rows_of_keep_caps() -> Vec<Row<Moment>> {
    let unlocked = |m: &Moment| m.calls(11) && !keep_caps_is_locked(m);
    let locked = |m: &Moment| m.calls(11) && keep_caps_is_locked(m);
    let set_to = |m: &Moment| only_securebits_are(m, (m.before.securebits & !KEEP_CAPS) | (KEEP_CAPS * m.step.a as u8));
    vec![
        done("Keep-caps: set", move |m| unlocked(m) && m.step.a == 1 && !m.secure(KEEP_CAPS), set_to),
        done("Keep-caps: cleared", move |m| unlocked(m) && m.step.a == 0 && m.secure(KEEP_CAPS), set_to),
        done("Keep-caps: other bits stay", move |m| unlocked(m) && m.secure(!KEEP_CAPS), set_to),
        done("Keep-caps: needs no capability", move |m| unlocked(m) && m.before.effective == 0, set_to),
        refused("Keep-caps: refused, locked clear", 9, move |m| locked(m) && m.step.a == 1 && !m.secure(KEEP_CAPS)),
        refused("Keep-caps: refused, locked set", 9, move |m| locked(m) && m.step.a == 0 && m.secure(KEEP_CAPS)),
        refused("Keep-caps: refused, locked though it is so", 9, move |m| {
            locked(m) && (m.step.a == 1) == m.secure(KEEP_CAPS)
        }),
        refused("Keep-caps: refused, locked, with every capability", 9, move |m| locked(m) && m.has(0x1ff_ffff_ffff)),
        asked("Keep-caps: get 1", 1, |m| m.calls(12) && m.secure(KEEP_CAPS)),
        asked("Keep-caps: get 0", 0, |m| m.calls(12) && !m.secure(KEEP_CAPS)),
        asked("Keep-caps: get 0, locked", 0, |m| m.calls(12) && !m.secure(KEEP_CAPS) && keep_caps_is_locked(m)),
    ]
}

fn rows_of_no_new_privs() -> Vec<Row<Moment>> {
    let is_set = |m: &Moment| {
        let mut expected = m.before.clone();
        expected.nnp = true;
        m.answer.after == expected
    };
    vec![
        done("No-new-privs: set", |m| m.calls(13) && !m.before.nnp, is_set),
        done("No-new-privs: set again", |m| m.calls(13) && m.before.nnp, is_set),
        asked("No-new-privs: get 1", 1, |m| m.calls(14) && m.before.nnp),
        asked("No-new-privs: get 0", 0, |m| m.calls(14) && !m.before.nnp),
    ]
}
