//! Why the rules refuse a step.

use core::fmt;

/// Why the rules refuse a step, code 1. Where several reasons hold at once, the one with the lowest number is told.
#[derive(Clone, Copy, Debug, PartialEq, Eq, PartialOrd, Ord, Hash)]
pub enum Cause {
    /// A capability that the call needs is not effective.
    CapabilityNotEffective = 1,
    /// capset, without `CAP_SETPCAP`: the new inheritable set goes beyond the inheritable and the permitted set together.
    InheritableBeyondPermitted = 2,
    /// capset: the new inheritable set goes beyond the inheritable and the bounding set together.
    InheritableBeyondBounding = 3,
    /// capset: the new permitted set goes beyond the permitted set.
    PermittedGrows = 4,
    /// capset: the new effective set goes beyond the new permitted set.
    EffectiveBeyondPermitted = 5,
    /// Ambient raise: the capability is not in both the permitted and the inheritable set.
    NotInPermittedAndInheritable = 6,
    /// Ambient raise: `SECBIT_NO_CAP_AMBIENT_RAISE` is set.
    AmbientRaiseForbidden = 7,
    /// A lock of the securebits would be undone.
    LockUndone = 8,
    /// A locked flag of the securebits would be changed; keep-caps by its own call also where it would stay as it is.
    LockedFlagChanged = 9,
    /// An ID is not among those that the thread may take.
    IdNotAllowed = 10,
    /// A launch does not give the whole of the file's permitted set, and the file's effective bit is on.
    LaunchFallsShort = 11,
}

impl Cause {
    /// All of them, in the order of their numbers.
    pub const ALL: [Cause; 11] = [
        Cause::CapabilityNotEffective,
        Cause::InheritableBeyondPermitted,
        Cause::InheritableBeyondBounding,
        Cause::PermittedGrows,
        Cause::EffectiveBeyondPermitted,
        Cause::NotInPermittedAndInheritable,
        Cause::AmbientRaiseForbidden,
        Cause::LockUndone,
        Cause::LockedFlagChanged,
        Cause::IdNotAllowed,
        Cause::LaunchFallsShort,
    ];

    /// The number that a report has for it, 1 to 11.
    ///
    /// ```
    /// assert_eq!(urrezkalu::Cause::IdNotAllowed.number(), 10);
    /// ```
    #[must_use]
    pub const fn number(self) -> u32 {
        self as u32
    }

    /// The cause of a number; 0, which a report has where there is no cause, is none.
    ///
    /// ```
    /// use urrezkalu::Cause;
    ///
    /// assert_eq!(Cause::from_number(8), Some(Cause::LockUndone));
    /// assert_eq!(Cause::from_number(0), None);
    /// ```
    #[must_use]
    pub fn from_number(number: u32) -> Option<Cause> {
        Cause::ALL.into_iter().find(|cause| cause.number() == number)
    }
}

/// In words, as after `refused: ` in a message.
///
/// ```
/// assert_eq!(urrezkalu::Cause::IdNotAllowed.to_string(), "an ID is not among those allowed");
/// ```
impl fmt::Display for Cause {
    fn fmt(&self, f: &mut fmt::Formatter<'_>) -> fmt::Result {
        f.write_str(match self {
            Cause::CapabilityNotEffective => "a needed capability is not effective",
            Cause::InheritableBeyondPermitted => {
                "the new inheritable set goes beyond the inheritable and permitted sets, and CAP_SETPCAP is not effective"
            }
            Cause::InheritableBeyondBounding => "the new inheritable set goes beyond the inheritable and bounding sets",
            Cause::PermittedGrows => "the new permitted set goes beyond the permitted set",
            Cause::EffectiveBeyondPermitted => "the new effective set goes beyond the new permitted set",
            Cause::NotInPermittedAndInheritable => "the capability is not in both the permitted and the inheritable set",
            Cause::AmbientRaiseForbidden => "SECBIT_NO_CAP_AMBIENT_RAISE forbids to raise an ambient capability",
            Cause::LockUndone => "a lock of the securebits would be undone",
            Cause::LockedFlagChanged => "a locked flag of the securebits would be set or cleared",
            Cause::IdNotAllowed => "an ID is not among those allowed",
            Cause::LaunchFallsShort => "the launch falls short of the file's permitted set",
        })
    }
}

#[cfg(test)]
mod tests {
    use super::Cause;

    #[test]
    fn numbers_are_1_to_11_in_their_order() {
        for (cause, number) in Cause::ALL.into_iter().zip(1..) {
            assert_eq!(cause.number(), number);
            assert_eq!(Cause::from_number(number), Some(cause));
        }
        for number in [0, 12, 256 + 1, u32::MAX] {
            assert_eq!(Cause::from_number(number), None);
        }
    }
}
