//! Credentials to start from: valid ones of every kind, and ones that are invalid in one chosen way.

use crate::random::Random;
use crate::sets;
use second::Credentials;

/// The largest ID; one more is no ID and stands for "leave" in some calls.
pub(crate) const LARGEST_ID: u32 = 4_294_967_294;
pub(crate) const NO_ID: u32 = 4_294_967_295;
/// The least number of ten digits.
const TEN_DIGITS: u32 = 1_000_000_000;

/// User IDs or group IDs.
#[derive(Clone, Copy, Debug, PartialEq, Eq)]
pub(crate) enum Family {
    Users,
    Groups,
}

impl Family {
    /// The other of the two.
    pub(crate) fn other(self) -> Family {
        match self {
            Family::Users => Family::Groups,
            Family::Groups => Family::Users,
        }
    }

    /// The credentials' real, effective, saved and filesystem ID.
    pub(crate) fn ids(self, credentials: &Credentials) -> [u32; 4] {
        self.ids_mut(&mut credentials.clone()).map(|id| *id)
    }

    /// The same, to be changed.
    pub(crate) fn ids_mut(self, credentials: &mut Credentials) -> [&mut u32; 4] {
        let Credentials { ruid, euid, suid, fsuid, rgid, egid, sgid, fsgid, .. } = credentials;
        match self {
            Family::Users => [ruid, euid, suid, fsuid],
            Family::Groups => [rgid, egid, sgid, fsgid],
        }
    }
}

/// One way in which credentials can be invalid ("What a thread carries").
#[derive(Clone, Copy, Debug, PartialEq, Eq)]
pub(crate) enum Flaw {
    /// The effective set has a capability that the permitted set lacks.
    EffectiveOutsidePermitted,
    /// The ambient set has a capability that the permitted set lacks and the inheritable set has.
    AmbientOutsidePermitted,
    /// The ambient set has a capability that the inheritable set lacks and the permitted set has.
    AmbientOutsideInheritable,
    /// A bit above 40 in the permitted set.
    PermittedBit,
    /// A bit above 40 in the inheritable set.
    InheritableBit,
    /// A bit above 40 in the effective set, and in the permitted set for it to be within.
    EffectiveBit,
    /// A bit above 40 in the bounding set.
    BoundingBit,
    /// A bit above 40 in the ambient set, and in the permitted and inheritable sets for it to be within.
    AmbientBit,
    /// The real, effective, saved or filesystem ID, by its place, is 4294967295.
    Id(Family, usize),
}

impl Flaw {
    /// All of them.
    pub(crate) const ALL: [Flaw; 16] = [
        Flaw::EffectiveOutsidePermitted,
        Flaw::AmbientOutsidePermitted,
        Flaw::AmbientOutsideInheritable,
        Flaw::PermittedBit,
        Flaw::InheritableBit,
        Flaw::EffectiveBit,
        Flaw::BoundingBit,
        Flaw::AmbientBit,
        Flaw::Id(Family::Users, 0),
        Flaw::Id(Family::Users, 1),
        Flaw::Id(Family::Users, 2),
        Flaw::Id(Family::Users, 3),
        Flaw::Id(Family::Groups, 0),
        Flaw::Id(Family::Groups, 1),
        Flaw::Id(Family::Groups, 2),
        Flaw::Id(Family::Groups, 3),
    ];
}

/// Valid credentials.
pub(crate) fn valid(random: &mut Random) -> Credentials {
    let [ruid, euid, suid, fsuid] = ids(random, Family::Users);
    let [rgid, egid, sgid, fsgid] = ids(random, Family::Groups);
    let permitted = permitted(random);
    let inheritable = inheritable(random, permitted);
    let effective = if random.one_in(3) { permitted } else { sets::within(random, permitted) };
    let ambient = sets::within(random, permitted & inheritable);
    Credentials {
        ruid,
        euid,
        suid,
        fsuid,
        rgid,
        egid,
        sgid,
        fsgid,
        permitted,
        inheritable,
        effective,
        bounding: bounding(random),
        ambient,
        securebits: securebits(random),
        nnp: random.one_in(6),
    }
}

/// Credentials that have that flaw and no other.
pub(crate) fn flawed(random: &mut Random, flaw: Flaw) -> Credentials {
    let mut start = valid(random);
    let capability = 1 << sets::capability(random);
    let above = sets::bit_above_40(random);
    match flaw {
        Flaw::EffectiveOutsidePermitted => {
            start.permitted &= !capability;
            start.ambient &= !capability;
            start.effective = (start.effective & start.permitted) | capability;
        }
        Flaw::AmbientOutsidePermitted => {
            start.permitted &= !capability;
            start.effective &= !capability;
            start.inheritable |= capability;
            start.ambient |= capability;
        }
        Flaw::AmbientOutsideInheritable => {
            start.permitted |= capability;
            start.inheritable &= !capability;
            start.ambient |= capability;
        }
        Flaw::PermittedBit => start.permitted |= above,
        Flaw::InheritableBit => start.inheritable |= above,
        Flaw::EffectiveBit => {
            start.permitted |= above;
            start.effective |= above;
        }
        Flaw::BoundingBit => start.bounding |= above,
        Flaw::AmbientBit => {
            start.permitted |= above;
            start.inheritable |= above;
            start.ambient |= above;
        }
        Flaw::Id(family, place) => *family.ids_mut(&mut start)[place] = NO_ID,
    }
    start
}

/// A user ID: root, two users, the largest, or any. A group ID likewise: 0, two groups, one of them with a user's number, the largest, or any.
pub(crate) fn id(random: &mut Random, family: Family) -> u32 {
    let [one, other] = match family {
        Family::Users => [1000, 1001],
        Family::Groups => [100, 1000],
    };
    match random.below(16) {
        0..=5 => 0,
        6..=9 => one,
        10..=12 => other,
        13 => LARGEST_ID,
        14 => random.pick(&[1, 99, 65_534, 65_535, 65_536, 2_147_483_647, 2_147_483_648, 4_294_967_293]),
        _ => (random.number() as u32).min(LARGEST_ID),
    }
}

/// IDs of ten digits each.
pub(crate) fn ids_of_ten_digits(random: &mut Random, family: Family, credentials: &mut Credentials) {
    for id in family.ids_mut(credentials) {
        *id = number_of_ten_digits(random).min(LARGEST_ID);
    }
}

/// A number of ten digits, 4294967295 and the least more often.
pub(crate) fn number_of_ten_digits(random: &mut Random) -> u32 {
    match random.below(4) {
        0 => NO_ID,
        1 => TEN_DIGITS,
        _ => TEN_DIGITS + random.below((NO_ID - TEN_DIGITS) as usize) as u32,
    }
}

// Real, effective, saved, filesystem: one user or group throughout, two, or each by itself.
fn ids(random: &mut Random, family: Family) -> [u32; 4] {
    let one = id(random, family);
    let other = id(random, family);
    match random.below(11) {
        0..=2 => [one; 4],
        3 => [one, other, other, other],
        4 => [other, one, other, one],
        5 => [other, other, one, other],
        6 | 7 => [other, other, other, one],
        8 => [one, other, one, other],
        _ => [one, other, id(random, family), id(random, family)],
    }
}

// The three capabilities that the calls ask for are permitted more often than others; of the two for IDs now and then one without the other.
fn permitted(random: &mut Random) -> u64 {
    let set = sets::any(random);
    match random.below(12) {
        0 => set | sets::SETUID,
        1 => set | sets::SETGID,
        2 | 3 => set | sets::SETPCAP,
        4 => set & !sets::SETGID | sets::SETUID,
        5 => set & !sets::SETUID | sets::SETGID,
        6 => set & !(sets::SETUID | sets::SETGID),
        7 | 8 => set & !sets::SETPCAP,
        _ => set,
    }
}

fn inheritable(random: &mut Random, permitted: u64) -> u64 {
    match random.below(5) {
        0 => permitted,
        1 | 2 => sets::near(random, permitted),
        3 => 0,
        _ => sets::any(random),
    }
}

fn bounding(random: &mut Random) -> u64 {
    match random.below(3) {
        0 => sets::FULL,
        1 => sets::FULL & !sets::single(random),
        _ => sets::any(random),
    }
}

/// Securebits: none, one flag with or without its lock, a lock alone, all the locks, or any of the 256 values.
pub(crate) fn securebits(random: &mut Random) -> u8 {
    let flag = random.pick(&[1, 4, 4, 16, 16, 64]);
    match random.below(11) {
        0..=2 => 0,
        3..=5 => flag,
        6 | 7 => flag * 3,
        8 => flag * 2,
        9 => random.byte() | 0xaa,
        _ => random.byte(),
    }
}
