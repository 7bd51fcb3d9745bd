//! Why the rules of a call do not allow it ("Why it was refused").

/// What is wrong with a call that is not permitted. The cases stand in the order of their numbers. A call makes its
/// tests in that order, so where several fail at once the lowest number is answered.
#[derive(Clone, Copy, Debug, PartialEq, Eq)]
pub(crate) enum Cause {
    /// A capability that the call needs is not effective.
    CapabilityNotEffective,
    /// Without CAP_SETPCAP, the new inheritable set is not within the inheritable and permitted sets together.
    InheritableOutsidePermitted,
    /// The new inheritable set is not within the inheritable and bounding sets together.
    InheritableOutsideBounding,
    /// The new permitted set is not within the permitted set.
    PermittedRaised,
    /// The new effective set is not within the new permitted set.
    EffectiveOutsidePermitted,
    /// A capability to be raised in the ambient set is not in both the permitted and the inheritable set.
    NotBothPermittedAndInheritable,
    /// A securebits flag forbids to raise a capability in the ambient set.
    AmbientRaiseForbidden,
    /// A securebits lock is undone.
    LockUndone,
    /// A locked securebits flag is changed.
    LockedFlagChanged,
    /// A user or group ID is not among those allowed.
    IdNotAllowed,
    /// An execve falls short of the file's permitted set.
    FilePermittedNotObtained,
}

impl Cause {
    /// The number that an answer carries.
    pub(crate) fn number(self) -> u32 {
        match self {
            Cause::CapabilityNotEffective => 1,
            Cause::InheritableOutsidePermitted => 2,
            Cause::InheritableOutsideBounding => 3,
            Cause::PermittedRaised => 4,
            Cause::EffectiveOutsidePermitted => 5,
            Cause::NotBothPermittedAndInheritable => 6,
            Cause::AmbientRaiseForbidden => 7,
            Cause::LockUndone => 8,
            Cause::LockedFlagChanged => 9,
            Cause::IdNotAllowed => 10,
            Cause::FilePermittedNotObtained => 11,
        }
    }
}
