//! The twenty-two calls and what comes back from them.

use crate::capability::bit;
use crate::credentials::Credentials;
use crate::decode::{decode, Call, Step};
use crate::refusal::Refusal;
use crate::securebits::{self, SECBIT_KEEP_CAPS};
use crate::{group_ids, launch, sets, user_ids};

/// What a call comes to.
#[derive(Clone, Debug, PartialEq, Eq)]
pub struct Answer {
    /// 0 for a call that is done, else the number of its refusal.
    pub code: u32,
    /// What a done call reads; 0 for the others and for a refusal.
    pub value: u64,
    /// Where the code is 1, what is wrong; else 0. The causes are 1 a needed capability is not effective; 2 to 5 one of
    /// the four tests of capset fails; 6 a capability is not in both the permitted and the inheritable set; 7 a flag
    /// forbids the ambient raise; 8 a lock is undone; 9 a locked flag is changed; 10 an ID is not among those allowed;
    /// 11 a launch falls short of the file's permitted set.
    pub cause: u32,
    /// The credentials after the call; after a refusal, those before it.
    pub after: Credentials,
}

/// Performs one call on any credentials. Refusals are looked for in the order 72 (credentials not valid), 22 (no such
/// call, or an operand out of range), 60 (attribute unreadable), 1 (not permitted). Of several causes of refusal 1 the
/// lowest number is answered.
pub fn perform(before: &Credentials, step: &Step) -> Answer {
    match attempt(before, step) {
        Ok(answer) => answer,
        Err(refusal) => Answer { code: refusal.code(), value: 0, cause: refusal.cause(), after: before.clone() },
    }
}

fn attempt(before: &Credentials, step: &Step) -> Result<Answer, Refusal> {
    if !before.is_valid() {
        return Err(Refusal::InvalidCredentials);
    }
    let call = decode(step)?;
    let after = credentials_after(before, &call)?;
    Ok(Answer { code: 0, value: value_read(before, &call), cause: 0, after })
}

fn credentials_after(before: &Credentials, call: &Call) -> Result<Credentials, Refusal> {
    match *call {
        Call::Execve { owner, group, flags, attribute } => launch::execve(before, owner, group, flags, attribute),
        Call::Capset { permitted, inheritable, effective } => sets::capset(before, permitted, inheritable, effective),
        Call::DropBounding(capability) => sets::drop_bounding(before, capability),
        Call::RaiseAmbient(capability) => sets::raise_ambient(before, capability),
        Call::LowerAmbient(capability) => Ok(sets::lower_ambient(before, capability)),
        Call::ClearAmbient => Ok(sets::clear_ambient(before)),
        Call::SetSecurebits(securebits) => securebits::set_securebits(before, securebits),
        Call::SetKeepCaps(keep) => securebits::set_keep_caps(before, keep),
        Call::SetNoNewPrivs => Ok(Credentials { nnp: true, ..before.clone() }),
        Call::Setuid(uid) => user_ids::setuid(before, uid),
        Call::Setreuid(ruid, euid) => user_ids::setreuid(before, ruid, euid),
        Call::Setresuid(ruid, euid, suid) => user_ids::setresuid(before, ruid, euid, suid),
        Call::Setfsuid(fsuid) => Ok(user_ids::setfsuid(before, fsuid)),
        Call::Setgid(gid) => group_ids::setgid(before, gid),
        Call::Setregid(rgid, egid) => group_ids::setregid(before, rgid, egid),
        Call::Setresgid(rgid, egid, sgid) => group_ids::setresgid(before, rgid, egid, sgid),
        Call::Setfsgid(fsgid) => Ok(group_ids::setfsgid(before, fsgid)),
        Call::ReadBounding(_)
        | Call::IsAmbientSet(_)
        | Call::GetSecurebits
        | Call::GetKeepCaps
        | Call::GetNoNewPrivs => Ok(before.clone()),
    }
}

/// The value of a done call; setfsuid and setfsgid answer the old filesystem ID whether or not they change it.
fn value_read(before: &Credentials, call: &Call) -> u64 {
    match *call {
        Call::ReadBounding(capability) => u64::from(before.bounding & bit(capability) != 0),
        Call::IsAmbientSet(capability) => u64::from(before.ambient & bit(capability) != 0),
        Call::GetSecurebits => u64::from(before.securebits),
        Call::GetKeepCaps => u64::from(before.is_secure(SECBIT_KEEP_CAPS)),
        Call::GetNoNewPrivs => u64::from(before.nnp),
        Call::Setfsuid(_) => u64::from(before.fsuid),
        Call::Setfsgid(_) => u64::from(before.fsgid),
        _ => 0,
    }
}
