//! From a step's numbers to a call with operands in range; whatever is out of range is refused with 22.

use crate::capability::{is_within, CAP_LAST_CAP, FULL_SET};
use crate::credentials::MAX_ID;
use crate::launch::ALL_FLAGS;
use crate::refusal::Refusal;

/// The operand that leaves an ID as it is.
const NO_ID: u64 = u32::MAX as u64;

/// One step of a plan, or of a slot plan once its slot is told.
#[derive(Clone, Debug, PartialEq, Eq)]
pub struct Step {
    /// The call's number; 1 to 22 are calls, and in a slot 30 is fork and 31 exit.
    pub call: u8,
    /// First operand; 0 where the call does not use it, as with the other two.
    pub a: u64,
    /// Second operand.
    pub b: u64,
    /// Third operand.
    pub c: u64,
    /// The file's attribute bytes; empty in every call but 1.
    pub attr: Vec<u8>,
}

/// A call, its operands checked.
pub(crate) enum Call<'s> {
    Execve { owner: u32, group: u32, flags: u64, attribute: &'s [u8] },
    Capset { permitted: u64, inheritable: u64, effective: u64 },
    DropBounding(u32),
    ReadBounding(u32),
    RaiseAmbient(u32),
    LowerAmbient(u32),
    IsAmbientSet(u32),
    ClearAmbient,
    SetSecurebits(u8),
    GetSecurebits,
    SetKeepCaps(bool),
    GetKeepCaps,
    SetNoNewPrivs,
    GetNoNewPrivs,
    Setuid(u32),
    Setreuid(Option<u32>, Option<u32>),
    Setresuid(Option<u32>, Option<u32>, Option<u32>),
    Setfsuid(Option<u32>),
    Setgid(u32),
    Setregid(Option<u32>, Option<u32>),
    Setresgid(Option<u32>, Option<u32>, Option<u32>),
    Setfsgid(Option<u32>),
}

/// The call of a step, or the refusal that its numbers earn before anything is tried.
pub(crate) fn decode(step: &Step) -> Result<Call<'_>, Refusal> {
    check_unused(step)?;
    let &Step { a, b, c, .. } = step;
    Ok(match step.call {
        1 => Call::Execve { owner: id(a)?, group: id(c)?, flags: launch_flags(b)?, attribute: &step.attr },
        2 => Call::Capset {
            permitted: capability_set(a)?,
            inheritable: capability_set(b)?,
            effective: capability_set(c)?,
        },
        3 => Call::DropBounding(capability(a)?),
        4 => Call::ReadBounding(capability(a)?),
        5 => Call::RaiseAmbient(capability(a)?),
        6 => Call::LowerAmbient(capability(a)?),
        7 => Call::IsAmbientSet(capability(a)?),
        8 => Call::ClearAmbient,
        9 => Call::SetSecurebits(u8::try_from(a).map_err(|_| Refusal::BadOperand)?),
        10 => Call::GetSecurebits,
        11 => Call::SetKeepCaps(switch(a)?),
        12 => Call::GetKeepCaps,
        13 if a == 1 => Call::SetNoNewPrivs,
        14 => Call::GetNoNewPrivs,
        15 => Call::Setuid(id(a)?),
        16 => Call::Setreuid(optional_id(a)?, optional_id(b)?),
        17 => Call::Setresuid(optional_id(a)?, optional_id(b)?, optional_id(c)?),
        18 => Call::Setfsuid(optional_id(a)?),
        19 => Call::Setgid(id(a)?),
        20 => Call::Setregid(optional_id(a)?, optional_id(b)?),
        21 => Call::Setresgid(optional_id(a)?, optional_id(b)?, optional_id(c)?),
        22 => Call::Setfsgid(optional_id(a)?),
        _ => return Err(Refusal::BadOperand),
    })
}

/// The operands that a call does not use are 0, and only execve has an attribute.
fn check_unused(step: &Step) -> Result<(), Refusal> {
    let used = match step.call {
        8 | 10 | 12 | 14 => 0,
        16 | 20 => 2,
        1 | 2 | 17 | 21 => 3,
        _ => 1,
    };
    let unused_are_zero = [step.a, step.b, step.c].iter().skip(used).all(|&operand| operand == 0);
    if unused_are_zero && (step.call == 1 || step.attr.is_empty()) {
        Ok(())
    } else {
        Err(Refusal::BadOperand)
    }
}

fn launch_flags(operand: u64) -> Result<u64, Refusal> {
    if operand <= ALL_FLAGS {
        Ok(operand)
    } else {
        Err(Refusal::BadOperand)
    }
}

/// A set of capabilities that there are.
pub(crate) fn capability_set(operand: u64) -> Result<u64, Refusal> {
    if is_within(operand, FULL_SET) {
        Ok(operand)
    } else {
        Err(Refusal::BadOperand)
    }
}

fn capability(operand: u64) -> Result<u32, Refusal> {
    match u32::try_from(operand) {
        Ok(number) if number <= CAP_LAST_CAP => Ok(number),
        _ => Err(Refusal::BadOperand),
    }
}

/// Off for 0 and on for 1.
pub(crate) fn switch(operand: u64) -> Result<bool, Refusal> {
    match operand {
        0 => Ok(false),
        1 => Ok(true),
        _ => Err(Refusal::BadOperand),
    }
}

/// A user or group ID.
fn id(operand: u64) -> Result<u32, Refusal> {
    match u32::try_from(operand) {
        Ok(id) if id <= MAX_ID => Ok(id),
        _ => Err(Refusal::BadOperand),
    }
}

fn optional_id(operand: u64) -> Result<Option<u32>, Refusal> {
    if operand == NO_ID {
        Ok(None)
    } else {
        id(operand).map(Some)
    }
}
