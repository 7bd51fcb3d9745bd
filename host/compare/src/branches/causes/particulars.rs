//! What single calls have of causes: how the failing of one test comes about, and which others do not count.

use super::failing;
use crate::branches::ambient::is_in;
use crate::branches::capset::is_beyond_permitted;
use crate::branches::moment::{lacks_setpcap, refused, KEEP_CAPS, NO_CAP_AMBIENT_RAISE};
use crate::branches::securebits::{keep_caps_is_locked, lock_is_undone, locked_flag_is_changed, FLAGS};
use crate::branches::{Moment, Row};

/// The rows of one call.
pub fn rows(call: u8) -> Vec<Row<Moment>> {
    match call {
        2 => capset(),
        5 => ambient_raise(),
        9 => FLAGS.into_iter().flat_map(|(flag, name)| securebits(flag, name)).collect(),
        11 => keep_caps(),
        _ => Vec::new(),
    }
}

// Whether SETPCAP is there or not, the first test alone asks for it.
fn capset() -> Vec<Row<Moment>> {
    let mut rows = Vec::new();
    for cause in [3, 4, 5] {
        let alone = move |m: &Moment| m.calls(2) && failing(m) == 1 << cause;
        rows.push(refused(format!("Causes: call 2, {cause} without SETPCAP"), cause, move |m| {
            alone(m) && lacks_setpcap(m)
        }));
        let name = format!("Causes: call 2, {cause} and not 2, new I beyond I and P by SETPCAP");
        rows.push(refused(name, cause, move |m| alone(m) && !lacks_setpcap(m) && is_beyond_permitted(m)));
    }
    rows
}

// Where the capability is, and whether the flag is set.
fn ambient_raise() -> Vec<Row<Moment>> {
    let at = |m: &Moment, permitted: bool, inheritable: bool, flag: bool| {
        m.calls(5)
            && is_in(m, m.before.permitted) == permitted
            && is_in(m, m.before.inheritable) == inheritable
            && m.secure(NO_CAP_AMBIENT_RAISE) == flag
    };
    vec![
        refused("Causes: call 5, 6 for neither P nor I", 6, move |m| at(m, false, false, false)),
        refused("Causes: call 5, 6 for neither P nor I, the flag set", 6, move |m| at(m, false, false, true)),
        refused("Causes: call 5, 6 for P alone, the flag set", 6, move |m| at(m, true, false, true)),
        refused("Causes: call 5, 6 for I alone, the flag set", 6, move |m| at(m, false, true, true)),
        refused("Causes: call 5, 7 for the flag unlocked", 7, move |m| at(m, true, true, true) && !m.secure(128)),
        refused("Causes: call 5, 7 for the flag locked", 7, move |m| at(m, true, true, true) && m.secure(128)),
        refused("Causes: call 5, 6 for the lock without the flag", 6, move |m| {
            m.calls(5) && failing(m) == 1 << 6 && m.secure(128)
        }),
    ]
}

// The flags whose locks call 9 undoes, and the locked flags that it changes.
fn broken(m: &Moment) -> (u8, u8) {
    let flags = || FLAGS.into_iter().map(|(flag, _)| flag);
    let undone = flags().filter(|flag| lock_is_undone(m, *flag)).sum();
    let changed = flags().filter(|flag| locked_flag_is_changed(m, *flag)).sum();
    (undone, changed)
}

// A row of call 9, with SETPCAP or without, by what is broken.
fn breaking(
    name: String,
    cause: u32,
    with_setpcap: bool,
    when: impl Fn(u8, u8) -> bool + Send + Sync + 'static,
) -> Row<Moment> {
    refused(format!("Causes: call 9, {cause} for {name}"), cause, move |m| {
        let (locks, flags) = broken(m);
        m.calls(9) && lacks_setpcap(m) != with_setpcap && when(locks, flags)
    })
}

// The locks and locked flags of call 9, one by one, and each with itself and with others.
fn securebits(flag: u8, name: &str) -> Vec<Row<Moment>> {
    let is_another = move |flags: u8| flags != 0 && flags & flag == 0;
    let lock = format!("the lock of {name} undone");
    let change = format!("{name} changed while locked");
    vec![
        breaking(lock.clone(), 8, true, move |locks, flags| (locks, flags) == (flag, 0)),
        breaking(change.clone(), 9, true, move |locks, flags| (locks, flags) == (0, flag)),
        breaking(format!("{lock}, without SETPCAP"), 1, false, move |locks, flags| (locks, flags) == (flag, 0)),
        breaking(format!("{change}, without SETPCAP"), 1, false, move |locks, flags| (locks, flags) == (0, flag)),
        breaking(format!("{lock}, itself changed"), 8, true, move |locks, flags| (locks, flags) == (flag, flag)),
        breaking(format!("{lock}, another changed while locked"), 8, true, move |locks, flags| {
            locks == flag && is_another(flags)
        }),
        breaking(format!("{change}, another's lock undone"), 8, true, move |locks, flags| {
            flags == flag && is_another(locks)
        }),
    ]
}

// The lock refuses whatever is asked and whoever asks.
fn keep_caps() -> Vec<Row<Moment>> {
    let locked = |m: &Moment, given: u64, is_set: bool| {
        m.calls(11) && keep_caps_is_locked(m) && m.step.a == given && m.secure(KEEP_CAPS) == is_set
    };
    vec![
        refused("Causes: call 11, 9 though it is clear and would be cleared", 9, move |m| locked(m, 0, false)),
        refused("Causes: call 11, 9 though it is set and would be set", 9, move |m| locked(m, 1, true)),
        refused("Causes: call 11, 9 without SETPCAP", 9, move |m| {
            m.calls(11) && keep_caps_is_locked(m) && lacks_setpcap(m)
        }),
        refused("Causes: call 11, 9 with SETPCAP", 9, move |m| {
            m.calls(11) && keep_caps_is_locked(m) && !lacks_setpcap(m)
        }),
    ]
}
