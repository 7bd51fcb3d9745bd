//! Securebits by their names in linux/securebits.h, and the two calls that change them.

use crate::capability::CAP_SETPCAP;
use crate::cause::Cause;
use crate::credentials::Credentials;
use crate::refusal::Refusal;

pub(crate) const SECBIT_NOROOT: u8 = 1;
pub(crate) const SECBIT_NO_SETUID_FIXUP: u8 = 4;
pub(crate) const SECBIT_KEEP_CAPS: u8 = 16;
pub(crate) const SECBIT_NO_CAP_AMBIENT_RAISE: u8 = 64;

const SECBIT_KEEP_CAPS_LOCKED: u8 = SECBIT_KEEP_CAPS << 1;
const SECURE_ALL_BITS: u8 = SECBIT_NOROOT | SECBIT_NO_SETUID_FIXUP | SECBIT_KEEP_CAPS | SECBIT_NO_CAP_AMBIENT_RAISE;
const SECURE_ALL_LOCKS: u8 = SECURE_ALL_BITS << 1;

/// Call 9: takes CAP_SETPCAP, keeps every lock that is set and leaves every locked flag as it is.
pub(crate) fn set_securebits(before: &Credentials, securebits: u8) -> Result<Credentials, Refusal> {
    let locks = before.securebits & SECURE_ALL_LOCKS;
    let locked_flags = locks >> 1;
    let changed = before.securebits ^ securebits;
    if !before.has(CAP_SETPCAP) {
        return Err(Refusal::NotPermitted(Cause::CapabilityNotEffective));
    }
    if changed & locks != 0 {
        return Err(Refusal::NotPermitted(Cause::LockUndone));
    }
    if changed & locked_flags != 0 {
        return Err(Refusal::NotPermitted(Cause::LockedFlagChanged));
    }
    Ok(Credentials { securebits, ..before.clone() })
}

/// Call 11: takes no capability, but the flag's lock stops it, even where nothing would change.
pub(crate) fn set_keep_caps(before: &Credentials, keep: bool) -> Result<Credentials, Refusal> {
    if before.securebits & SECBIT_KEEP_CAPS_LOCKED != 0 {
        return Err(Refusal::NotPermitted(Cause::LockedFlagChanged));
    }
    let mut after = before.clone();
    if keep {
        after.securebits |= SECBIT_KEEP_CAPS;
    } else {
        after.securebits &= !SECBIT_KEEP_CAPS;
    }
    Ok(after)
}
