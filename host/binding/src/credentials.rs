//! Credentials, as the values of a sheet.

/// How many values a sheet has, one to a line.
pub const SHEET_VALUES: usize = 15;

/// What a thread holds: the fifteen values of a sheet, in the order of its lines. In a set, bit n is capability n.
///
/// Credentials are valid if no user ID and no group ID is above 4294967294, no set has a bit above 40, `effective` is within `permitted`, `ambient`
/// is within `permitted` and within `inheritable`, and `securebits` is at most 255.
#[derive(Clone, Copy, Debug, PartialEq, Eq)]
pub struct Credentials {
    /// The real user ID.
    pub ruid: u64,
    /// The effective user ID.
    pub euid: u64,
    /// The saved user ID.
    pub suid: u64,
    /// The filesystem user ID.
    pub fsuid: u64,
    /// The real group ID.
    pub rgid: u64,
    /// The effective group ID.
    pub egid: u64,
    /// The saved group ID.
    pub sgid: u64,
    /// The filesystem group ID.
    pub fsgid: u64,
    /// The permitted set.
    pub permitted: u64,
    /// The inheritable set.
    pub inheritable: u64,
    /// The effective set.
    pub effective: u64,
    /// The bounding set.
    pub bounding: u64,
    /// The ambient set.
    pub ambient: u64,
    /// The securebits, flags and locks.
    pub securebits: u64,
    /// No-new-privs.
    pub nnp: bool,
}

impl Credentials {
    pub(crate) fn from_values(values: [u64; SHEET_VALUES]) -> Credentials {
        let [ruid, euid, suid, fsuid, rgid, egid, sgid, fsgid, sets_and_flags @ ..] = values;
        let [permitted, inheritable, effective, bounding, ambient, securebits, nnp] = sets_and_flags;
        Credentials {
            ruid,
            euid,
            suid,
            fsuid,
            rgid,
            egid,
            sgid,
            fsgid,
            permitted,
            inheritable,
            effective,
            bounding,
            ambient,
            securebits,
            nnp: nnp != 0,
        }
    }

    pub(crate) fn values(&self) -> [u64; SHEET_VALUES] {
        [
            self.ruid,
            self.euid,
            self.suid,
            self.fsuid,
            self.rgid,
            self.egid,
            self.sgid,
            self.fsgid,
            self.permitted,
            self.inheritable,
            self.effective,
            self.bounding,
            self.ambient,
            self.securebits,
            u64::from(self.nnp),
        ]
    }
}

#[cfg(test)]
mod tests {
    use super::{Credentials, SHEET_VALUES};

    // All different, so that no two places can be exchanged unseen.
    const VALUES: [u64; SHEET_VALUES] = [2, 3, 4, 5, 6, 7, 8, 9, 10, 11, 12, 13, 14, 15, 1];

    const CREDENTIALS: Credentials = Credentials {
        ruid: 2,
        euid: 3,
        suid: 4,
        fsuid: 5,
        rgid: 6,
        egid: 7,
        sgid: 8,
        fsgid: 9,
        permitted: 10,
        inheritable: 11,
        effective: 12,
        bounding: 13,
        ambient: 14,
        securebits: 15,
        nnp: true,
    };

    #[test]
    fn values_stand_in_the_order_of_the_lines() {
        assert_eq!(Credentials::from_values(VALUES), CREDENTIALS);
        assert_eq!(CREDENTIALS.values(), VALUES);
        let mut values = VALUES;
        values[14] = 0;
        let credentials = Credentials { nnp: false, ..CREDENTIALS };
        assert_eq!(Credentials::from_values(values), credentials);
        assert_eq!(credentials.values(), values);
    }
}
