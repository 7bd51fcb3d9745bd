//! The ID calls on four IDs, of users or of groups: the IDs that a call gives, or nothing where it is refused. `any` says that the thread may take any
//! ID, having SETUID for users or SETGID for groups.

use crate::credentials::{Ids, LEAVE};

/// setuid and setgid.
pub fn set(old: Ids, any: bool, id: u32) -> Option<Ids> {
    if any {
        return Some(Ids::all(id));
    }
    let is_allowed = id == old.real || id == old.saved;
    is_allowed.then_some(Ids { effective: id, filesystem: id, ..old })
}

/// setreuid and setregid.
pub fn set_two(old: Ids, any: bool, real: u32, effective: u32) -> Option<Ids> {
    let real_refused = real != LEAVE && real != old.real && real != old.effective;
    let effective_refused = effective != LEAVE && !old.has(effective);
    if (real_refused || effective_refused) && !any {
        return None;
    }
    let mut new = Ids { real: given(real, old.real), effective: given(effective, old.effective), ..old };
    if real != LEAVE || effective != LEAVE && effective != old.real {
        new.saved = new.effective;
    }
    new.filesystem = new.effective;
    Some(new)
}

/// setresuid and setresgid. With `asks_for_change` a call without a change does nothing, as in the kernel.
pub fn set_three(old: Ids, any: bool, [real, effective, saved]: [u32; 3], asks_for_change: bool) -> Option<Ids> {
    let is_refused = [real, effective, saved].into_iter().any(|id| id != LEAVE && !old.has(id));
    if is_refused && !any {
        return None;
    }
    let mut new = old;
    new.real = given(real, old.real);
    new.effective = given(effective, old.effective);
    new.saved = given(saved, old.saved);
    // An effective ID that is given and is not the filesystem ID is a change to the kernel.
    let changes = new != old || effective != LEAVE && effective != old.filesystem;
    if changes || !asks_for_change {
        new.filesystem = new.effective;
    }
    Some(new)
}

/// setfsuid and setfsgid, which are never refused: what is not allowed changes nothing.
pub fn set_filesystem(old: Ids, any: bool, id: u32) -> Ids {
    let is_allowed = id != LEAVE && (any || old.has(id));
    Ids { filesystem: if is_allowed { id } else { old.filesystem }, ..old }
}

fn given(operand: u32, old: u32) -> u32 {
    if operand == LEAVE {
        old
    } else {
        operand
    }
}
