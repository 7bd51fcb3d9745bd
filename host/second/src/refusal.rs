//! Why a step, a reader or a writer is refused.

use crate::cause::Cause;

/// The refusals. Those of a step stand in the order in which they are looked for, but that a slot which is out of its
/// range is told first of all; the last five are not for steps.
#[derive(Clone, Copy, Debug, PartialEq, Eq)]
pub(crate) enum Refusal {
    /// The slot is not in use.
    SlotNotInUse,
    /// The credentials given are not valid.
    InvalidCredentials,
    /// There is no such call, or a slot, an operand, a set or the attribute is out of its range.
    BadOperand,
    /// The file's capability attribute counts but cannot be read.
    UnreadableAttribute,
    /// The rules of the call do not allow it (EPERM), and this is the cause.
    NotPermitted(Cause),
    /// A fork finds no slot that is free.
    NoFreeSlot,
    /// The text of a sheet is malformed.
    Malformed {
        /// One more than the complete correct lines before the fault.
        line: u32,
    },
    /// The text in names is malformed.
    MalformedAt {
        /// The length of its longest beginning that well-formed text can have.
        place: usize,
    },
    /// The captured status is malformed.
    MalformedStatus {
        /// The line of its first fault.
        line: usize,
    },
    /// The sheet of the predicted credentials is malformed.
    MalformedPrediction,
    /// The buffer is too short for what would go into it.
    NoRoom,
}

impl Refusal {
    /// The number that an answer carries.
    pub(crate) fn code(self) -> u32 {
        match self {
            Refusal::SlotNotInUse => 3,
            Refusal::InvalidCredentials => 72,
            Refusal::BadOperand => 22,
            Refusal::UnreadableAttribute => 60,
            Refusal::NotPermitted(_) => 1,
            Refusal::NoFreeSlot => 11,
            Refusal::Malformed { .. }
            | Refusal::MalformedAt { .. }
            | Refusal::MalformedStatus { .. }
            | Refusal::MalformedPrediction => 70,
            Refusal::NoRoom => 28,
        }
    }

    /// The number of the cause; 0 for a refusal that has none.
    pub(crate) fn cause(self) -> u32 {
        match self {
            Refusal::NotPermitted(cause) => cause.number(),
            _ => 0,
        }
    }
}
