//! The calls that change user IDs, and what a change does to the capability sets.

use crate::capability::{CAP_SETUID, FILESYSTEM_SET};
use crate::credentials::Credentials;
use crate::ids::{self, Ids};
use crate::refusal::Refusal;
use crate::securebits::{SECBIT_KEEP_CAPS, SECBIT_NO_SETUID_FIXUP};

/// Call 15.
pub(crate) fn setuid(before: &Credentials, uid: u32) -> Result<Credentials, Refusal> {
    let user_ids = ids::setid(before.user_ids(), before.has(CAP_SETUID), uid)?;
    Ok(with_user_ids(before, user_ids))
}

/// Call 16.
pub(crate) fn setreuid(before: &Credentials, ruid: Option<u32>, euid: Option<u32>) -> Result<Credentials, Refusal> {
    let user_ids = ids::setreid(before.user_ids(), before.has(CAP_SETUID), ruid, euid)?;
    Ok(with_user_ids(before, user_ids))
}

/// Call 17.
pub(crate) fn setresuid(
    before: &Credentials,
    ruid: Option<u32>,
    euid: Option<u32>,
    suid: Option<u32>,
) -> Result<Credentials, Refusal> {
    let user_ids = ids::setresid(before.user_ids(), before.has(CAP_SETUID), ruid, euid, suid)?;
    Ok(with_user_ids(before, user_ids))
}

/// Call 18.
pub(crate) fn setfsuid(before: &Credentials, fsuid: Option<u32>) -> Credentials {
    let mut after = before.clone();
    after.set_user_ids(ids::setfsid(before.user_ids(), before.has(CAP_SETUID), fsuid));
    fix_filesystem_capabilities(before, &mut after);
    after
}

/// The credentials with these user IDs, and with the capability sets that come of the change.
fn with_user_ids(before: &Credentials, user_ids: Ids) -> Credentials {
    let mut after = before.clone();
    after.set_user_ids(user_ids);
    fix_capabilities(before, &mut after);
    after
}

/// ID changes, 1 to 3, for the calls that change the real, effective and saved user IDs.
fn fix_capabilities(before: &Credentials, after: &mut Credentials) {
    if before.is_secure(SECBIT_NO_SETUID_FIXUP) {
        return;
    }
    if has_root_id(before) && !has_root_id(after) {
        after.ambient = 0;
        if !before.is_secure(SECBIT_KEEP_CAPS) {
            after.permitted = 0;
            after.effective = 0;
        }
    }
    match (before.euid, after.euid) {
        (0, 0) => {}
        (0, _) => after.effective = 0,
        (_, 0) => after.effective = after.permitted,
        _ => {}
    }
}

/// ID changes, 4, for setfsuid alone: it leaves the other user IDs, so 1 to 3 have nothing to do there.
fn fix_filesystem_capabilities(before: &Credentials, after: &mut Credentials) {
    if before.is_secure(SECBIT_NO_SETUID_FIXUP) {
        return;
    }
    match (before.fsuid, after.fsuid) {
        (0, 0) => {}
        (0, _) => after.effective &= !FILESYSTEM_SET,
        (_, 0) => after.effective |= FILESYSTEM_SET & after.permitted,
        _ => {}
    }
}

fn has_root_id(credentials: &Credentials) -> bool {
    [credentials.ruid, credentials.euid, credentials.suid].contains(&0)
}
