//! "Launching", a to f, with rule d as "Ambient lost too easily" has it.

mod ambient;
mod groups;
mod root;
mod rows;

use super::attribute::{read, File, Reading};
use super::family::Family;
use super::moment::{is_within, NOROOT};
use second::{Credentials, Step};

pub use rows::rows;

// The flags of call 1.
pub const SET_USER_ID: u64 = 1;
pub const SET_GROUP_ID: u64 = 2;
pub const NOSUID: u64 = 4;
pub const TRACED: u64 = 8;
const NO_FILE_CAPS: u64 = 16;

/// Why set-ID bits or an attribute are ignored.
#[derive(Clone, Copy, PartialEq, Eq)]
pub enum Reason {
    NoNewPrivs,
    Nosuid,
    Traced,
    NoFileCaps,
}

/// What a launch goes by: told from the credentials before it and its operands.
pub struct Launch {
    reasons: Vec<Reason>,
    set_user_id: bool,
    set_group_id: bool,
    owner: u32,
    group: u32,
    reading: Reading,
    /// The attribute that is attached and not ignored.
    pub file: Option<File>,
    /// Whether its own permitted set is not all granted, by f.
    falls_short: bool,
    real: u32,
    /// The effective user ID after b.
    effective: u32,
    /// The effective group ID after b.
    effective_group: u32,
    /// Whether b makes one of the two another.
    changes_effective: bool,
    noroot: bool,
}

impl Launch {
    /// The launch of a step with call 1 and operands in range.
    pub fn of(before: &Credentials, step: &Step) -> Launch {
        let flags = [
            (Reason::NoNewPrivs, before.nnp),
            (Reason::Nosuid, step.b & NOSUID != 0),
            (Reason::Traced, step.b & TRACED != 0),
            (Reason::NoFileCaps, step.b & NO_FILE_CAPS != 0),
        ];
        let mut launch = Launch {
            reasons: flags.into_iter().filter(|(_, given)| *given).map(|(reason, _)| reason).collect(),
            set_user_id: step.b & SET_USER_ID != 0,
            set_group_id: step.b & SET_GROUP_ID != 0,
            owner: step.a as u32,
            group: step.c as u32,
            reading: read(&step.attr),
            file: None,
            falls_short: false,
            real: before.ruid,
            effective: before.euid,
            effective_group: before.egid,
            changes_effective: false,
            noroot: before.securebits & NOROOT != 0,
        };
        if let Reading::File(file) = launch.reading {
            launch.falls_short = falls_short_of(before, &file);
            launch.file = (!launch.attribute_is_ignored()).then_some(file);
        }
        if launch.is_in_force(Family::Users) {
            launch.effective = launch.owner;
        }
        if launch.is_in_force(Family::Groups) {
            launch.effective_group = launch.group;
        }
        launch.changes_effective = launch.effective != before.euid || launch.effective_group != before.egid;
        launch
    }

    /// a: by three of the reasons.
    fn set_ids_are_ignored(&self) -> bool {
        self.reasons.iter().any(|reason| *reason != Reason::NoFileCaps)
    }

    /// a: by any of the reasons.
    pub fn attribute_is_ignored(&self) -> bool {
        !self.reasons.is_empty()
    }

    /// Whether the file has the family's set-ID bit.
    fn has_bit_of(&self, family: Family) -> bool {
        match family {
            Family::Users => self.set_user_id,
            Family::Groups => self.set_group_id,
        }
    }

    /// Whether that bit is there and not ignored.
    fn is_in_force(&self, family: Family) -> bool {
        self.has_bit_of(family) && !self.set_ids_are_ignored()
    }

    /// The file's ID in that family: its owner or its group.
    fn file_id(&self, family: Family) -> u32 {
        match family {
            Family::Users => self.owner,
            Family::Groups => self.group,
        }
    }

    fn is_only_by(&self, reason: Reason) -> bool {
        self.reasons == [reason]
    }

    /// f: its own bit is on and its own permitted set is not all granted.
    pub fn is_refused(&self) -> bool {
        self.file.is_some_and(|file| file.effective) && self.falls_short
    }

    /// 60 comes before that.
    pub fn is_unreadable(&self) -> bool {
        self.reading == Reading::Unreadable && !self.attribute_is_ignored()
    }

    fn is_done(&self) -> bool {
        !self.is_unreadable() && !self.is_refused()
    }

    fn bit(&self) -> bool {
        self.file.is_some_and(|file| file.effective)
    }

    /// d: by an attribute that is not ignored, or by a set-ID bit in force that makes its effective ID another.
    fn is_privileged(&self) -> bool {
        self.file.is_some() || self.changes_effective
    }
}

/// Whether the file's own permitted set is not all granted.
pub fn falls_short_of(before: &Credentials, file: &File) -> bool {
    !is_within(file.permitted, own_gain(before, file))
}

/// What the file's own sets grant, not counting what c makes of them.
fn own_gain(before: &Credentials, file: &File) -> u64 {
    (before.inheritable & file.inheritable) | (file.permitted & before.bounding)
}
