//! Launching: call 1, execve.

use crate::attribute::{self, FileCapabilities};
use crate::capability::{is_within, FULL_SET};
use crate::cause::Cause;
use crate::credentials::Credentials;
use crate::ids::Ids;
use crate::refusal::Refusal;
use crate::securebits::{SECBIT_KEEP_CAPS, SECBIT_NOROOT};

const SET_USER_ID: u64 = 1;
const SET_GROUP_ID: u64 = 2;
const NOSUID_MOUNT: u64 = 4;
const TRACED: u64 = 8;
const NO_FILE_CAPS: u64 = 16;

/// Every flag that execve knows.
pub(crate) const ALL_FLAGS: u64 = SET_USER_ID | SET_GROUP_ID | NOSUID_MOUNT | TRACED | NO_FILE_CAPS;

/// What is left of the file's privileges once the ignored ones are out (Launching, a).
struct File {
    set_user_id: bool,
    set_group_id: bool,
    attribute: Option<FileCapabilities>,
}

impl File {
    /// Launching, a: an ignored attribute is not even read, so its bytes may be anything.
    fn in_force(before: &Credentials, flags: u64, attribute: &[u8]) -> Result<File, Refusal> {
        let ignored = before.nnp || flags & (NOSUID_MOUNT | TRACED) != 0;
        let attribute = if ignored || flags & NO_FILE_CAPS != 0 { None } else { attribute::read(attribute)? };
        Ok(File {
            set_user_id: !ignored && flags & SET_USER_ID != 0,
            set_group_id: !ignored && flags & SET_GROUP_ID != 0,
            attribute,
        })
    }

    /// Launching, d: such a file empties the ambient set. A set-ID bit counts only if it changes the effective ID;
    /// nothing else in a launch does, so the IDs alone are asked.
    fn is_privileged(&self, before: &Credentials, after: &Credentials) -> bool {
        let has_capabilities = self.attribute.is_some();
        let changes_user = after.euid != before.euid;
        let changes_group = after.egid != before.egid;
        has_capabilities || changes_user || changes_group
    }
}

/// Runs a file of this owner and group, with these flags and attribute bytes.
pub(crate) fn execve(
    before: &Credentials,
    owner: u32,
    group: u32,
    flags: u64,
    attribute: &[u8],
) -> Result<Credentials, Refusal> {
    let file = File::in_force(before, flags, attribute)?;
    check_all_obtained(before, file.attribute)?;

    let mut after = before.clone();
    after.set_user_ids(launched_ids(before.user_ids(), file.set_user_id, owner));
    after.set_group_ids(launched_ids(before.group_ids(), file.set_group_id, group));
    let counted = counted_capabilities(&after, file.attribute);
    let privileged = file.is_privileged(before, &after);
    change_sets(&mut after, counted, privileged);
    after.securebits &= !SECBIT_KEEP_CAPS;
    Ok(after)
}

/// Launching, f: a file whose own effective bit is on must obtain all of its own permitted set.
fn check_all_obtained(before: &Credentials, attribute: Option<FileCapabilities>) -> Result<(), Refusal> {
    let Some(own) = attribute else { return Ok(()) };
    let obtained = (before.inheritable & own.inheritable) | (own.permitted & before.bounding);
    if own.effective && !is_within(own.permitted, obtained) {
        return Err(Refusal::NotPermitted(Cause::FilePermittedNotObtained));
    }
    Ok(())
}

/// Launching, b, for the user IDs and the file's owner as for the group IDs and the file's group. The capability rules
/// for ID changes have no part in this.
fn launched_ids(before: Ids, set_id: bool, file_id: u32) -> Ids {
    let mut after = before;
    if set_id {
        after.effective = file_id;
    }
    after.saved = after.effective;
    after.filesystem = after.effective;
    after
}

/// Launching, c: the file's capabilities as they count for a thread that has its new IDs already; only its user IDs
/// are asked.
fn counted_capabilities(after: &Credentials, attribute: Option<FileCapabilities>) -> FileCapabilities {
    let mut file = attribute.unwrap_or_default();
    let own_sets_count = attribute.is_some() && after.ruid != 0 && after.euid == 0;
    if after.is_secure(SECBIT_NOROOT) || own_sets_count {
        return file;
    }
    if after.ruid == 0 || after.euid == 0 {
        file.permitted = FULL_SET;
        file.inheritable = FULL_SET;
    }
    if after.euid == 0 {
        file.effective = true;
    }
    file
}

/// Launching, e, with the ambient set of d. The bounding set limits the file's permitted set alone.
fn change_sets(after: &mut Credentials, file: FileCapabilities, privileged: bool) {
    if privileged {
        after.ambient = 0;
    }
    after.permitted = (after.inheritable & file.inheritable) | (file.permitted & after.bounding) | after.ambient;
    after.effective = if file.effective { after.permitted } else { after.ambient };
}
