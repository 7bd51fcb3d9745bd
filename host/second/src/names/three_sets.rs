//! The three sets that a text in names stands for, and what a clause does to them.

use crate::capability::bit;

/// Some of the flags e, i and p.
#[derive(Clone, Copy, Debug, PartialEq, Eq)]
pub(super) struct Flags {
    pub(super) effective: bool,
    pub(super) inheritable: bool,
    pub(super) permitted: bool,
}

impl Flags {
    pub(super) const NONE: Flags = Flags { effective: false, inheritable: false, permitted: false };
    pub(super) const ALL: Flags = Flags { effective: true, inheritable: true, permitted: true };
}

/// Three sets of capabilities; the default, three empty ones, is what a text without a clause stands for.
#[derive(Clone, Copy, Debug, Default, PartialEq, Eq)]
pub(super) struct ThreeSets {
    pub(super) permitted: u64,
    pub(super) inheritable: u64,
    pub(super) effective: u64,
}

impl ThreeSets {
    /// "`=` first takes its capabilities out of all three and then gives the flags named."
    pub(super) fn set(&mut self, capabilities: u64, flags: Flags) {
        self.take(capabilities, Flags::ALL);
        self.give(capabilities, flags);
    }

    /// "`+` gives."
    pub(super) fn give(&mut self, capabilities: u64, flags: Flags) {
        if flags.permitted {
            self.permitted |= capabilities;
        }
        if flags.inheritable {
            self.inheritable |= capabilities;
        }
        if flags.effective {
            self.effective |= capabilities;
        }
    }

    /// "`-` takes."
    pub(super) fn take(&mut self, capabilities: u64, flags: Flags) {
        if flags.permitted {
            self.permitted &= !capabilities;
        }
        if flags.inheritable {
            self.inheritable &= !capabilities;
        }
        if flags.effective {
            self.effective &= !capabilities;
        }
    }

    /// The flags that a capability has: one for each of the sets that it is in.
    pub(super) fn flags_of(&self, capability: u32) -> Flags {
        Flags {
            effective: self.effective & bit(capability) != 0,
            inheritable: self.inheritable & bit(capability) != 0,
            permitted: self.permitted & bit(capability) != 0,
        }
    }
}

#[cfg(test)]
mod tests {
    use super::*;

    const BEFORE: ThreeSets = ThreeSets { permitted: 0b0011, inheritable: 0b0101, effective: 0b0110 };
    const E: Flags = Flags { effective: true, ..Flags::NONE };
    const I: Flags = Flags { inheritable: true, ..Flags::NONE };
    const P: Flags = Flags { permitted: true, ..Flags::NONE };

    #[test]
    fn each_flag_gives_to_its_set_alone() {
        for (flags, after) in [
            (Flags::NONE, BEFORE),
            (E, ThreeSets { effective: 0b1111, ..BEFORE }),
            (I, ThreeSets { inheritable: 0b1101, ..BEFORE }),
            (P, ThreeSets { permitted: 0b1011, ..BEFORE }),
            (Flags::ALL, ThreeSets { permitted: 0b1011, inheritable: 0b1101, effective: 0b1111 }),
        ] {
            let mut sets = BEFORE;
            sets.give(0b1001, flags);
            assert_eq!(sets, after, "{flags:?}");
        }
    }

    #[test]
    fn each_flag_takes_from_its_set_alone() {
        for (flags, after) in [
            (Flags::NONE, BEFORE),
            (E, ThreeSets { effective: 0b0010, ..BEFORE }),
            (I, ThreeSets { inheritable: 0b0001, ..BEFORE }),
            (P, ThreeSets { permitted: 0b0011, ..BEFORE }),
            (Flags::ALL, ThreeSets { permitted: 0b0011, inheritable: 0b0001, effective: 0b0010 }),
        ] {
            let mut sets = BEFORE;
            sets.take(0b1100, flags);
            assert_eq!(sets, after, "{flags:?}");
        }
    }

    #[test]
    fn to_set_takes_all_three_flags_first() {
        for (flags, after) in [
            (Flags::NONE, ThreeSets { permitted: 0b0010, inheritable: 0b0100, effective: 0b0110 }),
            (E, ThreeSets { permitted: 0b0010, inheritable: 0b0100, effective: 0b1111 }),
            (I, ThreeSets { permitted: 0b0010, inheritable: 0b1101, effective: 0b0110 }),
            (P, ThreeSets { permitted: 0b1011, inheritable: 0b0100, effective: 0b0110 }),
            (Flags::ALL, ThreeSets { permitted: 0b1011, inheritable: 0b1101, effective: 0b1111 }),
        ] {
            let mut sets = BEFORE;
            sets.set(0b1001, flags);
            assert_eq!(sets, after, "{flags:?}");
        }
    }

    #[test]
    fn a_capability_has_a_flag_for_each_set_that_it_is_in() {
        assert_eq!(BEFORE.flags_of(0), Flags { effective: false, ..Flags::ALL });
        assert_eq!(BEFORE.flags_of(1), Flags { inheritable: false, ..Flags::ALL });
        assert_eq!(BEFORE.flags_of(2), Flags { permitted: false, ..Flags::ALL });
        assert_eq!(BEFORE.flags_of(3), Flags::NONE);
        assert_eq!(BEFORE.flags_of(40), Flags::NONE);
    }
}
