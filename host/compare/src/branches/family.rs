//! The two families of IDs: user IDs, with calls 15 to 18, and group IDs, whose calls 19 to 22 have the same rules.

use super::moment::{CAP_SETGID, CAP_SETUID};
use super::Moment;
use second::Credentials;

/// The operand that leaves an ID as it is.
pub const LEAVE: u64 = 4_294_967_295;

// The calls of a family, by their place in it.
pub const SETUID: usize = 0;
pub const SETREUID: usize = 1;
pub const SETRESUID: usize = 2;
pub const SETFSUID: usize = 3;

// The IDs of a family, by their place in it.
pub const REAL: usize = 0;
pub const EFFECTIVE: usize = 1;
pub const SAVED: usize = 2;
pub const FILESYSTEM: usize = 3;

/// Real, effective, saved and filesystem ID.
pub type Ids = [u64; 4];

/// One of the two families.
#[derive(Clone, Copy, PartialEq, Eq)]
pub enum Family {
    Users,
    Groups,
}

impl Family {
    /// The other one.
    pub fn other(self) -> Family {
        match self {
            Family::Users => Family::Groups,
            Family::Groups => Family::Users,
        }
    }

    /// What the IDs are called.
    pub fn ids_name(self) -> &'static str {
        match self {
            Family::Users => "user IDs",
            Family::Groups => "group IDs",
        }
    }

    /// The names of its calls.
    pub fn names(self) -> [&'static str; 4] {
        match self {
            Family::Users => ["setuid", "setreuid", "setresuid", "setfsuid"],
            Family::Groups => ["setgid", "setregid", "setresgid", "setfsgid"],
        }
    }

    /// The numbers of its calls.
    pub fn calls(self) -> [u8; 4] {
        match self {
            Family::Users => [15, 16, 17, 18],
            Family::Groups => [19, 20, 21, 22],
        }
    }

    /// The capability that allows any ID.
    pub fn capability(self) -> u64 {
        match self {
            Family::Users => CAP_SETUID,
            Family::Groups => CAP_SETGID,
        }
    }

    /// That capability's name.
    pub fn capability_name(self) -> &'static str {
        match self {
            Family::Users => "SETUID",
            Family::Groups => "SETGID",
        }
    }

    /// The IDs before a call.
    pub fn before(self, m: &Moment) -> Ids {
        self.ids(&m.before).map(u64::from)
    }

    /// The IDs after it.
    pub fn after(self, m: &Moment) -> Ids {
        self.ids(&m.answer.after).map(u64::from)
    }

    /// The IDs that credentials have.
    pub fn ids(self, credentials: &Credentials) -> [u32; 4] {
        let c = credentials;
        match self {
            Family::Users => [c.ruid, c.euid, c.suid, c.fsuid],
            Family::Groups => [c.rgid, c.egid, c.sgid, c.fsgid],
        }
    }

    /// The IDs that one of its calls leaves; none if it is refused.
    pub fn new_ids(self, m: &Moment) -> Option<Ids> {
        let [real, effective, saved, filesystem] = self.before(m);
        let privileged = m.has(self.capability());
        let (a, b, c) = (m.step.a, m.step.b, m.step.c);
        let may = |operand: u64, to: &[u64]| privileged || operand == LEAVE || to.contains(&operand);
        let set = |operand: u64, old: u64| if operand == LEAVE { old } else { operand };
        match self.calls().into_iter().position(|call| call == m.step.call)? {
            SETUID if privileged => Some([a, a, a, a]),
            SETUID => (a == real || a == saved).then_some([real, a, saved, a]),
            SETREUID if may(a, &[real, effective]) && may(b, &[real, effective, saved]) => {
                let effective = set(b, effective);
                let moves = a != LEAVE || (b != LEAVE && b != real);
                Some([set(a, real), effective, if moves { effective } else { saved }, effective])
            }
            SETRESUID if [a, b, c].iter().all(|operand| may(*operand, &[real, effective, saved])) => {
                Some([set(a, real), set(b, effective), set(c, saved), set(b, effective)])
            }
            SETFSUID if a != LEAVE && may(a, &[real, effective, saved, filesystem]) => {
                Some([real, effective, saved, a])
            }
            SETFSUID => Some([real, effective, saved, filesystem]),
            _ => None,
        }
    }

    /// Whether the IDs after the call are those that it leaves, and what it has no part in is as it was: the other family's IDs, the securebits,
    /// no-new-privs, I and B; after a group call P, E and A too.
    pub fn are_set(self, m: &Moment) -> bool {
        let after = &m.answer.after;
        let mut expected = m.before.clone();
        match self {
            Family::Users => {
                (expected.ruid, expected.euid, expected.suid, expected.fsuid) =
                    (after.ruid, after.euid, after.suid, after.fsuid);
                (expected.permitted, expected.effective, expected.ambient) =
                    (after.permitted, after.effective, after.ambient);
            }
            Family::Groups => {
                (expected.rgid, expected.egid, expected.sgid, expected.fsgid) =
                    (after.rgid, after.egid, after.sgid, after.fsgid);
            }
        }
        Some(self.after(m)) == self.new_ids(m) && *after == expected
    }

    /// Whether one of real, effective and saved was 0 and none is after the call.
    pub fn leaves_0(self, m: &Moment) -> bool {
        self.new_ids(m).is_some_and(|ids| self.before(m)[..3].contains(&0) && !ids[..3].contains(&0))
    }

    /// Whether the ID at that place is so, 0 or not, before the call and after it.
    pub fn goes(self, m: &Moment, place: usize, from_0: bool, to_0: bool) -> bool {
        self.new_ids(m).is_some_and(|ids| (self.before(m)[place] == 0) == from_0 && (ids[place] == 0) == to_0)
    }
}

#[cfg(test)]
mod tests {
    use super::*;
    use second::{Answer, Step};

    // User IDs 1 to 4 and group IDs 5 to 8, with that effective set, before a call.
    fn asked(effective: u64, call: u8, operands: [u64; 3]) -> Moment {
        let before = Credentials {
            ruid: 1,
            euid: 2,
            suid: 3,
            fsuid: 4,
            rgid: 5,
            egid: 6,
            sgid: 7,
            fsgid: 8,
            permitted: effective,
            inheritable: 0,
            effective,
            bounding: 0,
            ambient: 0,
            securebits: 0,
            nnp: false,
        };
        let [a, b, c] = operands;
        let answer = Answer { code: 0, value: 0, cause: 0, after: before.clone() };
        Moment::new(before, Step { call, a, b, c, attr: Vec::new() }, answer)
    }

    #[test]
    fn each_family_has_its_own_calls_ids_and_capability() {
        assert_eq!(Family::Users.new_ids(&asked(CAP_SETUID, 15, [9, 0, 0])), Some([9; 4]));
        assert_eq!(Family::Groups.new_ids(&asked(CAP_SETGID, 19, [9, 0, 0])), Some([9; 4]));
        assert_eq!(Family::Groups.new_ids(&asked(CAP_SETUID, 19, [9, 0, 0])), None);
        assert_eq!(Family::Groups.new_ids(&asked(CAP_SETGID, 15, [9, 0, 0])), None);
        assert_eq!(Family::Groups.new_ids(&asked(0, 19, [7, 0, 0])), Some([5, 7, 7, 7]));
        assert_eq!(Family::Groups.new_ids(&asked(0, 19, [3, 0, 0])), None);
    }

    #[test]
    fn the_rules_are_the_same() {
        assert_eq!(Family::Users.new_ids(&asked(0, 16, [LEAVE, 3, 0])), Some([1, 3, 3, 3]));
        assert_eq!(Family::Groups.new_ids(&asked(0, 20, [LEAVE, 7, 0])), Some([5, 7, 7, 7]));
        assert_eq!(Family::Groups.new_ids(&asked(0, 20, [LEAVE, 5, 0])), Some([5, 5, 7, 5]));
        assert_eq!(Family::Groups.new_ids(&asked(0, 21, [LEAVE, LEAVE, LEAVE])), Some([5, 6, 7, 6]));
        assert_eq!(Family::Groups.new_ids(&asked(0, 22, [9, 0, 0])), Some([5, 6, 7, 8]));
        assert_eq!(Family::Groups.new_ids(&asked(0, 22, [7, 0, 0])), Some([5, 6, 7, 7]));
    }

    #[test]
    fn what_a_call_has_no_part_in_stays() {
        let mut moment = asked(CAP_SETGID, 19, [9, 0, 0]);
        let after = &mut moment.answer.after;
        (after.rgid, after.egid, after.sgid, after.fsgid) = (9, 9, 9, 9);
        assert!(Family::Groups.are_set(&moment));
        moment.answer.after.euid = 9;
        assert!(!Family::Groups.are_set(&moment));
        moment.answer.after.euid = 2;
        moment.answer.after.effective = 0;
        assert!(!Family::Groups.are_set(&moment));
    }
}
