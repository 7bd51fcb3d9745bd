//! The rules of the ID calls, which are the same for user IDs and for group IDs; what becomes of capability sets is no
//! part of them.
//!
//! A thread is `able` if it has the capability for IDs of the kind at hand: CAP_SETUID or CAP_SETGID. Where it is not,
//! the cause of a refusal is the ID given, never the capability.

use crate::cause::Cause;
use crate::refusal::Refusal;

/// A thread's four IDs of one kind, user or group.
#[derive(Clone, Copy)]
pub(crate) struct Ids {
    pub(crate) real: u32,
    pub(crate) effective: u32,
    pub(crate) saved: u32,
    pub(crate) filesystem: u32,
}

/// Calls 15 and 19: an able thread changes all four IDs, another one the effective and the filesystem ID.
pub(crate) fn setid(before: Ids, able: bool, id: u32) -> Result<Ids, Refusal> {
    let mut after = before;
    if able {
        after.real = id;
        after.saved = id;
    } else if id != before.real && id != before.saved {
        return Err(Refusal::NotPermitted(Cause::IdNotAllowed));
    }
    after.effective = id;
    after.filesystem = id;
    Ok(after)
}

/// Calls 16 and 20; an ID that is not given stays.
pub(crate) fn setreid(before: Ids, able: bool, real: Option<u32>, effective: Option<u32>) -> Result<Ids, Refusal> {
    check_each(able, &[real], &[before.real, before.effective])?;
    check_each(able, &[effective], &[before.real, before.effective, before.saved])?;

    let mut after = before;
    after.real = real.unwrap_or(before.real);
    after.effective = effective.unwrap_or(before.effective);
    after.filesystem = after.effective;
    if real.is_some() || effective.is_some_and(|given| given != before.real) {
        after.saved = after.effective;
    }
    Ok(after)
}

/// Calls 17 and 21; an ID that is not given stays, but the filesystem ID becomes the effective one all the same.
pub(crate) fn setresid(
    before: Ids,
    able: bool,
    real: Option<u32>,
    effective: Option<u32>,
    saved: Option<u32>,
) -> Result<Ids, Refusal> {
    check_each(able, &[real, effective, saved], &[before.real, before.effective, before.saved])?;

    let mut after = before;
    after.real = real.unwrap_or(before.real);
    after.effective = effective.unwrap_or(before.effective);
    after.saved = saved.unwrap_or(before.saved);
    after.filesystem = after.effective;
    Ok(after)
}

/// Calls 18 and 22: never refused; an ID that is not allowed, or none, changes nothing.
pub(crate) fn setfsid(before: Ids, able: bool, filesystem: Option<u32>) -> Ids {
    let mut after = before;
    let Some(given) = filesystem else { return after };
    let own = [before.real, before.effective, before.saved, before.filesystem];
    if able || own.contains(&given) {
        after.filesystem = given;
    }
    after
}

/// A thread that is not able may give only the IDs allowed.
fn check_each(able: bool, given: &[Option<u32>], allowed: &[u32]) -> Result<(), Refusal> {
    if able || given.iter().flatten().all(|id| allowed.contains(id)) {
        Ok(())
    } else {
        Err(Refusal::NotPermitted(Cause::IdNotAllowed))
    }
}
