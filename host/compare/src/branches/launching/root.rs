//! The rows of "Launching", c: what root's file counts as.

use super::own_gain;
use super::rows::{done, full_gain, has_attribute_alone, has_bit, Part};
use super::Launch;
use crate::branches::moment::NOROOT;
use crate::branches::Moment;

const NOROOT_LOCK: u8 = 2 * NOROOT;

fn gains_all_in_effect(m: &Moment, _: &Launch) -> bool {
    m.answer.after.permitted == full_gain(m) && m.answer.after.effective == full_gain(m)
}

fn gains_all_not_in_effect(m: &Moment, _: &Launch) -> bool {
    m.answer.after.permitted == full_gain(m) && m.answer.after.effective == m.answer.after.ambient
}

// The file's own sets and bit. A privileged file leaves no ambient set.
fn gains_its_own(m: &Moment, l: &Launch) -> bool {
    let Some(file) = l.file else { return false };
    let gain = own_gain(&m.before, &file);
    m.answer.after.permitted == gain && m.answer.after.effective == if file.effective { gain } else { 0 }
}

fn gains_ambient_alone(m: &Moment, _: &Launch) -> bool {
    m.answer.after.permitted == m.answer.after.ambient && m.answer.after.effective == m.answer.after.ambient
}

/// The rows of c.
pub fn rows() -> Part {
    let real_alone = |l: &Launch| !l.noroot && l.real == 0 && l.effective != 0;
    let effective_alone = |l: &Launch| !l.noroot && l.real != 0 && l.effective == 0;
    let both = |l: &Launch| !l.noroot && l.real == 0 && l.effective == 0;
    let neither = |l: &Launch| l.real != 0 && l.effective != 0;
    vec![
        done("c: real 0 alone, no attribute", move |_, l| real_alone(l) && l.file.is_none(), gains_all_not_in_effect),
        done("c: real 0 alone, bit off", move |_, l| real_alone(l) && has_bit(l, false), gains_all_not_in_effect),
        done("c: real 0 alone, bit on", move |_, l| real_alone(l) && has_bit(l, true), gains_all_in_effect),
        done(
            "c: real 0 alone, ambient kept in effect",
            move |m, l| real_alone(l) && l.file.is_none() && !l.is_privileged() && m.before.ambient != 0,
            |m, _| m.answer.after.effective == m.before.ambient,
        ),
        done(
            "c: effective 0 alone, no attribute",
            move |_, l| effective_alone(l) && l.file.is_none(),
            gains_all_in_effect,
        ),
        done(
            "c: effective 0 alone by set-user-ID, no attribute",
            move |m, l| effective_alone(l) && l.file.is_none() && m.before.euid != 0,
            gains_all_in_effect,
        ),
        done(
            "c: effective 0 alone, attribute ignored is no exception",
            move |_, l| effective_alone(l) && has_attribute_alone(l) && l.file.is_none(),
            gains_all_in_effect,
        ),
        done("c: both 0, no attribute", move |_, l| both(l) && l.file.is_none(), gains_all_in_effect),
        done("c: both 0, bit off", move |_, l| both(l) && has_bit(l, false), gains_all_in_effect),
        done("c: both 0, bit on", move |_, l| both(l) && has_bit(l, true), gains_all_in_effect),
        done(
            "c: exception by set-user-ID, bit on",
            move |m, l| effective_alone(l) && has_bit(l, true) && m.before.euid != 0,
            gains_its_own,
        ),
        done(
            "c: exception by set-user-ID, bit off",
            move |m, l| effective_alone(l) && has_bit(l, false) && m.before.euid != 0,
            gains_its_own,
        ),
        done(
            "c: exception, effective 0 before",
            move |m, l| effective_alone(l) && l.file.is_some() && m.before.euid == 0,
            gains_its_own,
        ),
        done(
            "c: exception, attribute of empty sets",
            move |_, l| effective_alone(l) && l.file.is_some_and(|file| file.permitted | file.inheritable == 0),
            |m, _| m.answer.after.permitted | m.answer.after.effective == 0,
        ),
        done(
            "c: NOROOT set, a root ID, no attribute",
            move |_, l| l.noroot && !neither(l) && l.file.is_none(),
            gains_ambient_alone,
        ),
        done(
            "c: NOROOT set, a root ID, attribute",
            move |_, l| l.noroot && !neither(l) && l.file.is_some(),
            gains_its_own,
        ),
        done(
            "c: NOROOT locked clear is clear",
            move |m, l| both(l) && m.secure(NOROOT_LOCK) && !m.secure(NOROOT),
            gains_all_in_effect,
        ),
        done("c: no root ID, no attribute", move |_, l| neither(l) && l.file.is_none(), gains_ambient_alone),
        done("c: no root ID, attribute", move |_, l| neither(l) && l.file.is_some(), gains_its_own),
        done(
            "c: real 0, effective by set-user-ID another",
            move |m, l| real_alone(l) && m.before.euid == 0,
            |m, _| m.answer.after.permitted == full_gain(m),
        ),
    ]
}
