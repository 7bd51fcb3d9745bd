//! What a thread carries: the fifteen fields of a sheet, and beside them a supplementary group, of which the paper does not speak but the kernel does.

use std::fmt::Write;

/// The capabilities that decide something here, by the header's names.
pub const CAP_SETGID: u32 = 6;
pub const CAP_SETUID: u32 = 7;
pub const CAP_SETPCAP: u32 = 8;
pub const CAP_SYS_PTRACE: u32 = 19;

/// The largest capability number of the paper, and the set of all capabilities.
pub const CAP_LAST_CAP: u64 = 40;
pub const FULL: u64 = 0x1ff_ffff_ffff;

pub const SECBIT_NOROOT: u32 = 0x01;
pub const SECBIT_NO_SETUID_FIXUP: u32 = 0x04;
pub const SECBIT_KEEP_CAPS: u32 = 0x10;
pub const SECBIT_KEEP_CAPS_LOCKED: u32 = 0x20;
pub const SECBIT_NO_CAP_AMBIENT_RAISE: u32 = 0x40;
/// The flags of the paper with their locks. Above them the kernel has two more flags, which restrict nothing in it.
pub const SECBITS_OF_THE_PAPER: u32 = 0x0ff;
pub const SECBITS_OF_THE_KERNEL: u32 = 0xfff;
pub const SECBITS_LOCKS: u32 = 0xaaa;

/// The operand that leaves an ID as it is.
pub const LEAVE: u32 = u32::MAX;

/// Real, effective, saved and filesystem ID, of users or of groups.
#[derive(Clone, Copy, Debug, Default, PartialEq, Eq)]
pub struct Ids {
    pub real: u32,
    pub effective: u32,
    pub saved: u32,
    pub filesystem: u32,
}

impl Ids {
    /// The same ID in all four places.
    pub fn all(id: u32) -> Ids {
        Ids { real: id, effective: id, saved: id, filesystem: id }
    }

    /// Whether `id` is the real, the effective or the saved ID.
    pub fn has(&self, id: u32) -> bool {
        [self.real, self.effective, self.saved].contains(&id)
    }
}

/// The keys of four IDs on a sheet, in the order of [`Ids`].
const UID_KEYS: [&str; 4] = ["ruid", "euid", "suid", "fsuid"];
const GID_KEYS: [&str; 4] = ["rgid", "egid", "sgid", "fsgid"];

/// The fifteen fields of a sheet, in its order.
#[derive(Clone, Copy, Debug, Default, PartialEq, Eq)]
pub struct Credentials {
    pub uids: Ids,
    pub gids: Ids,
    pub permitted: u64,
    pub inheritable: u64,
    pub effective: u64,
    pub bounding: u64,
    pub ambient: u64,
    pub securebits: u32,
    pub nnp: bool,
}

impl Credentials {
    /// Whether the thread has the capability: whether it is effective.
    pub fn has(&self, capability: u32) -> bool {
        self.effective >> capability & 1 == 1
    }

    /// Whether any of these securebits is set.
    pub fn is_secure(&self, bits: u32) -> bool {
        self.securebits & bits != 0
    }

    /// Whether a sheet can say them: securebits above ff have none.
    pub fn has_sheet(&self) -> bool {
        self.securebits <= SECBITS_OF_THE_PAPER
    }

    /// The sheet, where there is one.
    pub fn sheet(&self) -> String {
        let mut text = String::new();
        for (keys, ids) in [(UID_KEYS, self.uids), (GID_KEYS, self.gids)] {
            let Ids { real, effective, saved, filesystem } = ids;
            for (key, id) in keys.into_iter().zip([real, effective, saved, filesystem]) {
                let _ = writeln!(text, "{key}={id}");
            }
        }
        for (key, set) in [
            ("permitted", self.permitted),
            ("inheritable", self.inheritable),
            ("effective", self.effective),
            ("bounding", self.bounding),
            ("ambient", self.ambient),
        ] {
            let _ = writeln!(text, "{key}={set:016x}");
        }
        let _ = write!(text, "securebits={:02x}\nnnp={}\n", self.securebits, u8::from(self.nnp));
        text
    }

    /// Reads the fifteen lines of a sheet, or says nothing where they are not a sheet's.
    pub fn from_lines<'a>(lines: &mut impl Iterator<Item = &'a str>) -> Option<Credentials> {
        let mut value = |key: &str| lines.next()?.strip_prefix(key)?.strip_prefix('=');
        let mut ids = |keys: [&str; 4]| {
            let [real, effective, saved, filesystem] = keys.map(|key| value(key)?.parse().ok());
            Some(Ids { real: real?, effective: effective?, saved: saved?, filesystem: filesystem? })
        };
        let (uids, gids) = (ids(UID_KEYS)?, ids(GID_KEYS)?);
        let mut set = |key: &str| u64::from_str_radix(value(key)?, 16).ok();
        Some(Credentials {
            uids,
            gids,
            permitted: set("permitted")?,
            inheritable: set("inheritable")?,
            effective: set("effective")?,
            bounding: set("bounding")?,
            ambient: set("ambient")?,
            securebits: set("securebits")? as u32,
            nnp: set("nnp")? == 1,
        })
    }
}

/// A thread as the kernel sees it. `member` is its one supplementary group, if it has one.
#[derive(Clone, Copy, Debug, Default, PartialEq, Eq)]
pub struct Thread {
    pub credentials: Credentials,
    pub member: Option<u32>,
}

impl Thread {
    /// Whether the kernel counts the thread into the group: by its filesystem group ID or a supplementary group.
    pub fn is_in_group(&self, group: u32) -> bool {
        self.credentials.gids.filesystem == group || self.member == Some(group)
    }
}

/// What a call comes to: the paper's code, the value, and the thread after it.
#[derive(Clone, Copy, Debug, PartialEq, Eq)]
pub struct Outcome {
    pub code: u32,
    pub value: u64,
    pub after: Thread,
}

impl Outcome {
    /// A call that is done, with its value.
    pub fn done(value: u64, after: Thread) -> Outcome {
        Outcome { code: 0, value, after }
    }

    /// A call that is refused and changes nothing.
    pub fn refused(code: u32, before: &Thread) -> Outcome {
        Outcome { code, value: 0, after: *before }
    }

    /// Whether both agree in all that the paper speaks of: code, value and the fifteen fields.
    pub fn agrees(&self, other: &Outcome) -> bool {
        (self.code, self.value, self.after.credentials) == (other.code, other.value, other.after.credentials)
    }
}

#[cfg(test)]
mod tests {
    use super::*;

    #[test]
    fn a_sheet_reads_back() {
        let credentials = Credentials {
            uids: Ids { real: 0, effective: 1000, saved: 4294967294, filesystem: 7 },
            gids: Ids { real: 4294967294, effective: 100, saved: 0, filesystem: 8 },
            permitted: FULL,
            inheritable: 0x2000,
            effective: 0x80,
            bounding: 0x1ff_feff_ffff,
            ambient: 0x2000,
            securebits: 0x2f,
            nnp: true,
        };
        assert_eq!(Credentials::from_lines(&mut credentials.sheet().lines()), Some(credentials));
    }
}
