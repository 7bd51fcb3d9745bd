//! What a thread carries, and when that is valid.

use crate::capability::{bit, is_within, FULL_SET};
use crate::ids::Ids;

/// The highest user or group ID; the next number up stands for no ID at all.
pub(crate) const MAX_ID: u32 = u32::MAX - 1;

/// One thread's credentials; the fields are named by the sheet's keys.
#[derive(Clone, Debug, PartialEq, Eq)]
pub struct Credentials {
    /// Real user ID.
    pub ruid: u32,
    /// Effective user ID.
    pub euid: u32,
    /// Saved set-user-ID.
    pub suid: u32,
    /// Filesystem user ID.
    pub fsuid: u32,
    /// Real group ID.
    pub rgid: u32,
    /// Effective group ID.
    pub egid: u32,
    /// Saved set-group-ID.
    pub sgid: u32,
    /// Filesystem group ID.
    pub fsgid: u32,
    /// Permitted capabilities; bit n is capability n, here and in the other sets.
    pub permitted: u64,
    /// Inheritable capabilities.
    pub inheritable: u64,
    /// Effective capabilities.
    pub effective: u64,
    /// Capability bounding set.
    pub bounding: u64,
    /// Ambient capabilities.
    pub ambient: u64,
    /// The securebits flags and their locks.
    pub securebits: u8,
    /// The no-new-privs flag.
    pub nnp: bool,
}

impl Credentials {
    /// Whether a thread can carry these credentials: effective within permitted, ambient within permitted and
    /// inheritable, no capability above the last one, no user or group ID above the highest. Any securebits will do.
    pub fn is_valid(&self) -> bool {
        let user_ids = [self.ruid, self.euid, self.suid, self.fsuid];
        let group_ids = [self.rgid, self.egid, self.sgid, self.fsgid];
        let sets = [self.permitted, self.inheritable, self.effective, self.bounding, self.ambient];
        is_within(self.effective, self.permitted)
            && is_within(self.ambient, self.permitted)
            && is_within(self.ambient, self.inheritable)
            && sets.iter().all(|&set| is_within(set, FULL_SET))
            && user_ids.iter().chain(&group_ids).all(|&id| id <= MAX_ID)
    }

    /// Whether the thread can use the capability, that is, has it in its effective set.
    pub(crate) fn has(&self, capability: u32) -> bool {
        self.effective & bit(capability) != 0
    }

    /// Whether the securebits flag is set.
    pub(crate) fn is_secure(&self, flag: u8) -> bool {
        self.securebits & flag != 0
    }

    pub(crate) fn user_ids(&self) -> Ids {
        Ids { real: self.ruid, effective: self.euid, saved: self.suid, filesystem: self.fsuid }
    }

    /// Puts in these user IDs and leaves the rest as it is.
    pub(crate) fn set_user_ids(&mut self, ids: Ids) {
        self.ruid = ids.real;
        self.euid = ids.effective;
        self.suid = ids.saved;
        self.fsuid = ids.filesystem;
    }

    pub(crate) fn group_ids(&self) -> Ids {
        Ids { real: self.rgid, effective: self.egid, saved: self.sgid, filesystem: self.fsgid }
    }

    /// Puts in these group IDs and leaves the rest as it is.
    pub(crate) fn set_group_ids(&mut self, ids: Ids) {
        self.rgid = ids.real;
        self.egid = ids.effective;
        self.sgid = ids.saved;
        self.fsgid = ids.filesystem;
    }
}
