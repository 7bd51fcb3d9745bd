//! The calls that change capability sets directly: capset, bounding drop and the ambient calls.

use crate::capability::{bit, is_within, CAP_SETPCAP};
use crate::cause::Cause;
use crate::credentials::Credentials;
use crate::refusal::Refusal;
use crate::securebits::SECBIT_NO_CAP_AMBIENT_RAISE;

/// Call 2. The lack of CAP_SETPCAP is no cause by itself: it is one half of the first test.
pub(crate) fn capset(
    before: &Credentials,
    permitted: u64,
    inheritable: u64,
    effective: u64,
) -> Result<Credentials, Refusal> {
    if !before.has(CAP_SETPCAP) && !is_within(inheritable, before.inheritable | before.permitted) {
        return Err(Refusal::NotPermitted(Cause::InheritableOutsidePermitted));
    }
    if !is_within(inheritable, before.inheritable | before.bounding) {
        return Err(Refusal::NotPermitted(Cause::InheritableOutsideBounding));
    }
    if !is_within(permitted, before.permitted) {
        return Err(Refusal::NotPermitted(Cause::PermittedRaised));
    }
    if !is_within(effective, permitted) {
        return Err(Refusal::NotPermitted(Cause::EffectiveOutsidePermitted));
    }
    let ambient = before.ambient & permitted & inheritable;
    Ok(Credentials { permitted, inheritable, effective, ambient, ..before.clone() })
}

/// Call 3: the other sets keep the capability.
pub(crate) fn drop_bounding(before: &Credentials, capability: u32) -> Result<Credentials, Refusal> {
    if !before.has(CAP_SETPCAP) {
        return Err(Refusal::NotPermitted(Cause::CapabilityNotEffective));
    }
    Ok(Credentials { bounding: before.bounding & !bit(capability), ..before.clone() })
}

/// Call 5.
pub(crate) fn raise_ambient(before: &Credentials, capability: u32) -> Result<Credentials, Refusal> {
    let added = bit(capability);
    if !is_within(added, before.permitted & before.inheritable) {
        return Err(Refusal::NotPermitted(Cause::NotBothPermittedAndInheritable));
    }
    if before.is_secure(SECBIT_NO_CAP_AMBIENT_RAISE) {
        return Err(Refusal::NotPermitted(Cause::AmbientRaiseForbidden));
    }
    Ok(Credentials { ambient: before.ambient | added, ..before.clone() })
}

/// Call 6.
pub(crate) fn lower_ambient(before: &Credentials, capability: u32) -> Credentials {
    Credentials { ambient: before.ambient & !bit(capability), ..before.clone() }
}

/// Call 8.
pub(crate) fn clear_ambient(before: &Credentials) -> Credentials {
    Credentials { ambient: 0, ..before.clone() }
}
