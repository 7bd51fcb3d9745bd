//! The calls that change group IDs; they never touch a capability set, not even where a group ID is 0.

use crate::capability::CAP_SETGID;
use crate::credentials::Credentials;
use crate::ids::{self, Ids};
use crate::refusal::Refusal;

/// Call 19.
pub(crate) fn setgid(before: &Credentials, gid: u32) -> Result<Credentials, Refusal> {
    let group_ids = ids::setid(before.group_ids(), before.has(CAP_SETGID), gid)?;
    Ok(with_group_ids(before, group_ids))
}

/// Call 20.
pub(crate) fn setregid(before: &Credentials, rgid: Option<u32>, egid: Option<u32>) -> Result<Credentials, Refusal> {
    let group_ids = ids::setreid(before.group_ids(), before.has(CAP_SETGID), rgid, egid)?;
    Ok(with_group_ids(before, group_ids))
}

/// Call 21.
pub(crate) fn setresgid(
    before: &Credentials,
    rgid: Option<u32>,
    egid: Option<u32>,
    sgid: Option<u32>,
) -> Result<Credentials, Refusal> {
    let group_ids = ids::setresid(before.group_ids(), before.has(CAP_SETGID), rgid, egid, sgid)?;
    Ok(with_group_ids(before, group_ids))
}

/// Call 22.
pub(crate) fn setfsgid(before: &Credentials, fsgid: Option<u32>) -> Credentials {
    let group_ids = ids::setfsid(before.group_ids(), before.has(CAP_SETGID), fsgid);
    with_group_ids(before, group_ids)
}

fn with_group_ids(before: &Credentials, group_ids: Ids) -> Credentials {
    let mut after = before.clone();
    after.set_group_ids(group_ids);
    after
}
