//! A launch: what the paper's rules a to f give, and with each switch what the kernel gives instead.

use crate::attribute::{read, FileCapabilities};
use crate::credentials::*;
use crate::departures::{Departure::*, Switches};
use crate::step::{Step, Tracer, NOSUID, NO_FILE_CAPS, SET_GROUP_ID, SET_USER_ID, TRACED};

const EPERM: u32 = 1;
const UNREADABLE: u32 = 60;

/// Launches the file of `step`.
pub fn launch(on: Switches, before: &Thread, step: &Step) -> Outcome {
    let old = &before.credentials;
    let reading = if ignores_attribute(on, old, step) { Some(FileCapabilities::default()) } else { read(on, step) };
    let Some(file) = reading else { return Outcome::refused(UNREADABLE, before) };
    let from_file = old.inheritable & file.inheritable | old.bounding & file.permitted;
    if file.effective && file.permitted & !from_file != 0 {
        return Outcome::refused(EPERM, before);
    }

    let mut new = *before;
    let set_id = set_id_in_force(on, old, step);
    if set_id & SET_USER_ID != 0 {
        new.credentials.uids.effective = step.a as u32;
    }
    if set_id & SET_GROUP_ID != 0 {
        new.credentials.gids.effective = step.c as u32;
    }

    let is_root = counts_as_root(&new.credentials, file.attached);
    let bit = file.effective || is_root && new.credentials.uids.effective == 0;
    new.credentials.permitted = if is_root { old.inheritable | old.bounding } else { from_file };
    let changes = changes_ids(on, before, &new);
    let to_member_group = changes_to_member_group(before, &new);
    let gains = new.credentials.permitted & !old.permitted != 0;
    if changes || gains {
        cut(on, before, step, is_root, &mut new);
    }

    follow(&mut new.credentials.uids);
    follow(&mut new.credentials.gids);
    if file.attached || changes || to_member_group && !on.on(SetGroupIdToMemberGroup) {
        new.credentials.ambient = 0;
    }
    new.credentials.permitted |= new.credentials.ambient;
    new.credentials.effective = if bit { new.credentials.permitted } else { new.credentials.ambient };
    new.credentials.securebits &= !SECBIT_KEEP_CAPS;
    Outcome::done(0, new)
}

// Those of the two set-ID bits that are in force. On a file that its group may not execute the set-group-ID bit stands for locking (inode(7)).
fn set_id_in_force(on: Switches, old: &Credentials, step: &Step) -> u64 {
    if step.flagged(NOSUID) || old.nnp || step.flagged(TRACED) && !on.on(TracedHonoursSetId) {
        return 0;
    }
    let stands_for_locking = step.setting.without_group_execution && on.on(SetGroupIdWithoutGroupExecution);
    step.b & if stands_for_locking { SET_USER_ID } else { SET_USER_ID | SET_GROUP_ID }
}

fn ignores_attribute(on: Switches, old: &Credentials, step: &Step) -> bool {
    step.flagged(NOSUID)
        || step.flagged(NO_FILE_CAPS)
        || old.nnp && !on.on(NoNewPrivsReadsAttribute)
        || step.flagged(TRACED) && !on.on(TracedReadsAttribute)
}

// "Launching, c": whether both file sets count as full. The IDs are the new ones.
fn counts_as_root(new: &Credentials, attached: bool) -> bool {
    let (real, effective) = (new.uids.real == 0, new.uids.effective == 0);
    let is_exception = attached && !real && effective;
    (real || effective) && !is_exception && !new.is_secure(SECBIT_NOROOT)
}

// Whether an ID changes: the effective user ID becomes another, or the effective group becomes another, one that the thread was not in. The kernel asks
// whether the thread was in it also where the effective group stays.
fn changes_ids(on: Switches, before: &Thread, new: &Thread) -> bool {
    let (old, new) = (&before.credentials, &new.credentials);
    let asks_group = new.gids.effective != old.gids.effective || on.on(FilesystemGroupApart);
    new.uids.effective != old.uids.effective || asks_group && !before.is_in_group(new.gids.effective)
}

// "Launching, d" counts such a change too, where the kernel sees none.
fn changes_to_member_group(before: &Thread, new: &Thread) -> bool {
    let group = new.credentials.gids.effective;
    group != before.credentials.gids.effective && before.is_in_group(group)
}

// The kernel's way with a launch that is not safe: done, but with no more than there was before.
fn cut(on: Switches, before: &Thread, step: &Step, is_root: bool, new: &mut Thread) {
    let old = &before.credentials;
    let is_able = match step.setting.tracer {
        Tracer::Asked => old.has(CAP_SYS_PTRACE),
        Tracer::Seized => true,
    };
    let is_watched = step.flagged(TRACED) && !is_able;
    let (by_nnp, by_tracer) =
        if is_root { (NoNewPrivsCutsRoot, TracedCutsRoot) } else { (NoNewPrivsCutsGain, TracedCutsGain) };
    if old.nnp && on.on(by_nnp) || is_watched && on.on(by_tracer) {
        new.credentials.permitted &= old.permitted;
    }
    // SETUID decides for the group too: SETGID is not asked for.
    let resets = |by_nnp, by_tracer| old.nnp && on.on(by_nnp) || is_watched && !old.has(CAP_SETUID) && on.on(by_tracer);
    if resets(NoNewPrivsResetsEffectiveId, TracedResetsEffectiveId) {
        new.credentials.uids.effective = old.uids.real;
    }
    if resets(NoNewPrivsResetsEffectiveGroup, TracedResetsEffectiveGroup) {
        new.credentials.gids.effective = old.gids.real;
    }
}

// In every launch the saved and the filesystem ID become the effective one.
fn follow(ids: &mut Ids) {
    ids.saved = ids.effective;
    ids.filesystem = ids.effective;
}
