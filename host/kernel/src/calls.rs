//! The other calls: what the paper's rules give, and with each switch what the kernel gives instead.

use crate::credentials::*;
use crate::departures::{Departure::*, Switches};
use crate::id_calls::{set, set_filesystem, set_three, set_two};
use crate::launching::launch;
use crate::step::*;

const EPERM: u32 = 1;
const EINVAL: u32 = 22;

/// What E loses and regains with the filesystem ID.
const FILESYSTEM_SET: u64 = 0x1_0800_021f;

/// Makes the call of `step`.
pub fn perform(on: Switches, before: &Thread, step: &Step) -> Outcome {
    let Some(step) = decode(on, before, step) else { return Outcome::refused(EINVAL, before) };
    let old = &before.credentials;
    match step.call {
        EXECVE => launch(on, before, &step),
        CAPSET => capset(before, step.a, step.b, step.c),
        BOUNDING_DROP => bounding_drop(before, step.a),
        BOUNDING_READ => Outcome::done(old.bounding >> step.a & 1, *before),
        AMBIENT_RAISE => ambient_raise(before, step.a),
        AMBIENT_LOWER => ambient(before, old.ambient & !(1 << step.a)),
        AMBIENT_IS_SET => Outcome::done(old.ambient >> step.a & 1, *before),
        AMBIENT_CLEAR => ambient(before, 0),
        SET_SECUREBITS => set_securebits(before, step.a),
        GET_SECUREBITS => Outcome::done(u64::from(old.securebits), *before),
        SET_KEEP_CAPS => set_keep_caps(before, step.a == 1),
        GET_KEEP_CAPS => Outcome::done(u64::from(old.is_secure(SECBIT_KEEP_CAPS)), *before),
        SET_NO_NEW_PRIVS => with(before, |new| new.nnp = true),
        GET_NO_NEW_PRIVS => Outcome::done(u64::from(old.nnp), *before),
        _ => id_call(on, before, &step),
    }
}

// The step as the rules take it, or nothing where it is refused with 22 before any rule. A switch leaves the step in, as the kernel sees it.
fn decode(on: Switches, before: &Thread, step: &Step) -> Option<Step> {
    let mut step = step.clone();
    let is_call = (EXECVE..=SETFSGID).contains(&step.call);
    if !is_call || step.call != EXECVE && !step.attribute.is_empty() {
        return None;
    }
    if step.has_unused_operand() && !(on.on(UnusedOperandIgnored) && ignores_unused(step.call)) {
        return None;
    }
    let accepted = match step.call {
        EXECVE => step.a < u64::from(LEAVE) && step.b <= FLAGS && step.c < u64::from(LEAVE),
        CAPSET => {
            let is_within = (step.a | step.b | step.c) & !FULL == 0;
            [&mut step.a, &mut step.b, &mut step.c].into_iter().for_each(|set| *set &= FULL);
            is_within || on.on(CapsetHighBitsMasked)
        }
        BOUNDING_DROP => step.a <= CAP_LAST_CAP || on.on(BoundingDropAsksFirst) && !before.credentials.has(CAP_SETPCAP),
        BOUNDING_READ | AMBIENT_RAISE | AMBIENT_LOWER | AMBIENT_IS_SET => step.a <= CAP_LAST_CAP,
        SET_SECUREBITS if step.a > u64::from(SECBITS_OF_THE_KERNEL) => on.on(SecurebitsUnknown),
        SET_SECUREBITS if step.a > u64::from(SECBITS_OF_THE_PAPER) => on.on(SecurebitsOfPrograms),
        SET_KEEP_CAPS => step.a <= 1,
        SET_NO_NEW_PRIVS => step.a == 1,
        SETUID | SETGID => is_id(on, &mut step.a) && step.a != u64::from(LEAVE),
        SETREUID | SETREGID => is_id(on, &mut step.a) & is_id(on, &mut step.b),
        SETRESUID | SETRESGID => is_id(on, &mut step.a) & is_id(on, &mut step.b) & is_id(on, &mut step.c),
        SETFSUID | SETFSGID => is_id(on, &mut step.a),
        _ => true,
    };
    accepted.then_some(step)
}

// The calls of prctl(2) that look at all their arguments are the ambient ones and those of no-new-privs.
fn ignores_unused(call: u32) -> bool {
    !matches!(call, EXECVE | AMBIENT_RAISE..=AMBIENT_CLEAR | SET_NO_NEW_PRIVS | GET_NO_NEW_PRIVS)
}

// An ID has 32 bits in the kernel; the register has 64.
fn is_id(on: Switches, operand: &mut u64) -> bool {
    let fits = *operand <= u64::from(u32::MAX);
    *operand &= u64::from(u32::MAX);
    fits || on.on(WideIdCut)
}

fn with(before: &Thread, change: impl FnOnce(&mut Credentials)) -> Outcome {
    let mut new = *before;
    change(&mut new.credentials);
    Outcome::done(0, new)
}

// Every test of the paper answers 1, so their order shows nowhere.
fn capset(before: &Thread, permitted: u64, inheritable: u64, effective: u64) -> Outcome {
    let old = &before.credentials;
    let is_refused = !old.has(CAP_SETPCAP) && inheritable & !(old.inheritable | old.permitted) != 0
        || inheritable & !(old.inheritable | old.bounding) != 0
        || permitted & !old.permitted != 0
        || effective & !permitted != 0;
    if is_refused {
        return Outcome::refused(EPERM, before);
    }
    with(before, |new| {
        new.permitted = permitted;
        new.inheritable = inheritable;
        new.effective = effective;
        new.ambient &= permitted & inheritable;
    })
}

fn bounding_drop(before: &Thread, capability: u64) -> Outcome {
    if !before.credentials.has(CAP_SETPCAP) {
        return Outcome::refused(EPERM, before);
    }
    with(before, |new| new.bounding &= !(1 << capability))
}

fn ambient_raise(before: &Thread, capability: u64) -> Outcome {
    let old = &before.credentials;
    let can_rise = (old.permitted & old.inheritable) >> capability & 1 == 1;
    if !can_rise || old.is_secure(SECBIT_NO_CAP_AMBIENT_RAISE) {
        return Outcome::refused(EPERM, before);
    }
    ambient(before, old.ambient | 1 << capability)
}

fn ambient(before: &Thread, set: u64) -> Outcome {
    with(before, |new| new.ambient = set)
}

// The four securebits above ff can be changed without SETPCAP, as long as something changes and nothing else does.
fn set_securebits(before: &Thread, bits: u64) -> Outcome {
    let old = &before.credentials;
    if bits > u64::from(SECBITS_OF_THE_KERNEL) {
        return Outcome::refused(EPERM, before);
    }
    let bits = bits as u32;
    let locks = old.securebits & SECBITS_LOCKS;
    let changed = old.securebits ^ bits;
    let is_free = changed != 0 && changed & SECBITS_OF_THE_PAPER == 0;
    if locks >> 1 & changed != 0 || locks & !bits != 0 || !old.has(CAP_SETPCAP) && !is_free {
        return Outcome::refused(EPERM, before);
    }
    with(before, |new| new.securebits = bits)
}

fn set_keep_caps(before: &Thread, keep: bool) -> Outcome {
    if before.credentials.is_secure(SECBIT_KEEP_CAPS_LOCKED) {
        return Outcome::refused(EPERM, before);
    }
    with(before, |new| {
        new.securebits &= !SECBIT_KEEP_CAPS;
        new.securebits |= if keep { SECBIT_KEEP_CAPS } else { 0 };
    })
}

// The calls of user IDs and those of group IDs have the same rules. A capability set is touched by the first alone.
fn id_call(on: Switches, before: &Thread, step: &Step) -> Outcome {
    let old = &before.credentials;
    let is_of_users = step.call <= SETFSUID;
    let (ids, capability, without_change) = if is_of_users {
        (old.uids, CAP_SETUID, SetresuidWithoutChange)
    } else {
        (old.gids, CAP_SETGID, SetresgidWithoutChange)
    };
    let any = old.has(capability);
    let [a, b, c] = [step.a, step.b, step.c].map(|id| id as u32);
    let next = match step.call {
        SETUID | SETGID => set(ids, any, a),
        SETREUID | SETREGID => set_two(ids, any, a, b),
        SETRESUID | SETRESGID => set_three(ids, any, [a, b, c], on.on(without_change)),
        _ => Some(set_filesystem(ids, any, a)),
    };
    let Some(next) = next else { return Outcome::refused(EPERM, before) };
    let mut outcome = with(before, |new| {
        if is_of_users {
            new.uids = next;
            fix_up(old, new, step.call);
        } else {
            new.gids = next;
        }
    });
    if matches!(step.call, SETFSUID | SETFSGID) {
        outcome.value = u64::from(ids.filesystem);
    }
    outcome
}

// The paper's rules 1 to 4 after an ID call. setfsuid changes none of the IDs that the first three look at.
fn fix_up(old: &Credentials, new: &mut Credentials, call: u32) {
    if old.is_secure(SECBIT_NO_SETUID_FIXUP) {
        return;
    }
    if old.uids.has(0) && !new.uids.has(0) {
        new.ambient = 0;
        if !old.is_secure(SECBIT_KEEP_CAPS) {
            new.permitted = 0;
            new.effective = 0;
        }
    }
    match (old.uids.effective, new.uids.effective) {
        (0, 1..) => new.effective = 0,
        (1.., 0) => new.effective = new.permitted,
        _ => {}
    }
    match (old.uids.filesystem, new.uids.filesystem) {
        _ if call != SETFSUID => {}
        (0, 1..) => new.effective &= !FILESYSTEM_SET,
        (1.., 0) => new.effective |= new.permitted & FILESYSTEM_SET,
        _ => {}
    }
}
