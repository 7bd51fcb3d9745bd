//! Children of the test in other credentials, which wait in them. What each then holds is worked out from what this process holds.

use std::ffi::{c_int, c_ulong, c_void};
use std::{fs, io};

use crate::values::Values;

extern "C" {
    fn fork() -> c_int;
    fn waitpid(process: c_int, status: *mut c_int, options: c_int) -> c_int;
    fn _exit(status: c_int) -> !;
    fn pipe(ends: *mut c_int) -> c_int;
    fn close(descriptor: c_int) -> c_int;
    fn read(descriptor: c_int, bytes: *mut c_void, length: usize) -> isize;
    fn write(descriptor: c_int, bytes: *const c_void, length: usize) -> isize;
    fn prctl(option: c_int, ...) -> c_int;
    fn capset(header: *const u32, words: *const u32) -> c_int;
    fn setresuid(real: u32, effective: u32, saved: u32) -> c_int;
    fn setfsuid(filesystem: u32) -> c_int;
}

/// Of linux/prctl.h and linux/capability.h.
const PR_SET_KEEPCAPS: c_int = 8;
const PR_CAPBSET_DROP: c_int = 24;
const PR_GET_SECUREBITS: c_int = 27;
const PR_SET_NO_NEW_PRIVS: c_int = 38;
const PR_CAP_AMBIENT: c_int = 47;
const PR_CAP_AMBIENT_RAISE: c_ulong = 2;
const CAPABILITY_VERSION_3: u32 = 0x2008_0522;

const SETUID: u64 = 1 << 7;
const SETPCAP: u64 = 1 << 8;

/// Those that setfsuid takes away and gives back.
const OF_FILES: u64 = 0x1_0800_021f;

/// A child to be made: what it does to itself, what this process needs for that, and what its values then are by those of this process.
pub struct Child {
    pub name: &'static str,
    /// The capabilities that have to be effective.
    needs: u64,
    /// The user IDs that it takes. Where it takes any, this process has to be root.
    takes: &'static [u64],
    /// Says whether all of it was done. Nothing may be allocated in it: another thread may have held a lock at the fork.
    act: fn(&Values) -> bool,
    pub predict: fn(&mut Values),
}

/// The last ID that is a user's.
const GREATEST: u64 = 4_294_967_294;

pub const CHILDREN: [Child; 11] = [
    Child { name: "unchanged", needs: 0, takes: &[], act: |_| true, predict: |_| () },
    Child {
        name: "no-new-privs",
        needs: 0,
        takes: &[],
        act: |_| control(PR_SET_NO_NEW_PRIVS, 1, 0),
        predict: |values| values.nnp = 1,
    },
    Child {
        name: "setresuid",
        needs: SETUID,
        takes: &[1, 2, 3],
        act: |_| set_ids(1, 2, 3),
        predict: |values| {
            // The filesystem ID follows the effective one.
            values.ids = [1, 2, 3, 2];
            away_from_root(values);
        },
    },
    Child {
        name: "setresuid to the greatest ID",
        needs: SETUID,
        takes: &[GREATEST],
        act: |_| set_ids(GREATEST, GREATEST, GREATEST),
        predict: |values| {
            values.ids = [GREATEST; 4];
            away_from_root(values);
        },
    },
    Child {
        name: "setresuid, the real ID stays 0",
        needs: SETUID,
        takes: &[2, 3],
        act: |_| set_ids(0, 2, 3),
        predict: |values| {
            // Rule 2 alone: the effective ID was 0.
            values.ids = [0, 2, 3, 2];
            values.effective = 0;
        },
    },
    Child {
        name: "setresuid under keep-caps",
        needs: SETUID,
        takes: &[1],
        act: |_| control(PR_SET_KEEPCAPS, 1, 0) && set_ids(1, 1, 1),
        predict: |values| {
            values.ids = [1; 4];
            (values.effective, values.ambient) = (0, 0);
        },
    },
    Child {
        name: "setfsuid",
        needs: SETUID,
        takes: &[7],
        // SAFETY: it looks at a number alone. It answers the old ID, done or not.
        act: |_| unsafe { setfsuid(7) == 0 },
        predict: |values| {
            values.ids[3] = 7;
            values.effective &= !OF_FILES;
        },
    },
    Child {
        name: "capset",
        needs: SETPCAP,
        takes: &[],
        act: |own| {
            let kept = own.permitted & !lowest(own.permitted);
            set_capabilities(kept, some(own), kept & !some(own))
        },
        predict: |values| {
            values.inheritable = some(values);
            values.permitted &= !lowest(values.permitted);
            values.effective = values.permitted & !values.inheritable;
            values.ambient &= values.permitted & values.inheritable;
        },
    },
    Child {
        name: "ambient raise",
        needs: SETPCAP,
        takes: &[],
        act: |own| set_capabilities(own.permitted, some(own), own.effective) && raise(lowest(some(own))),
        predict: |values| {
            values.inheritable = some(values);
            values.ambient = values.ambient & values.inheritable | lowest(values.inheritable);
        },
    },
    Child {
        name: "bounding drop",
        needs: SETPCAP,
        takes: &[],
        act: |own| drop_all(some(own)),
        predict: |values| values.bounding &= !some(values),
    },
    Child {
        name: "all of it",
        needs: SETUID | SETPCAP,
        takes: &[1, 2, 3],
        act: |own| {
            let some = some(own);
            set_capabilities(own.permitted, some, own.effective)
                && drop_all(some)
                && control(PR_SET_KEEPCAPS, 1, 0)
                && set_ids(1, 2, 3)
                && set_capabilities(some, some, lowest(some))
                && raise(lowest(some))
                && control(PR_SET_NO_NEW_PRIVS, 1, 0)
        },
        predict: |values| {
            let some = some(values);
            values.ids = [1, 2, 3, 2];
            (values.permitted, values.inheritable) = (some, some);
            (values.effective, values.ambient) = (lowest(some), lowest(some));
            values.bounding &= !some;
            values.nnp = 1;
        },
    },
];

/// An ID change from 0 to none: P, E and A are emptied, I and B stay.
fn away_from_root(values: &mut Values) {
    (values.permitted, values.effective, values.ambient) = (0, 0, 0);
}

/// Some of what is permitted and may be made inheritable: every third capability. SETUID and SETPCAP are not among them.
fn some(own: &Values) -> u64 {
    own.permitted & own.bounding & 0x92_4924_9249
}

fn lowest(set: u64) -> u64 {
    set & set.wrapping_neg()
}

fn control(option: c_int, a: c_ulong, b: c_ulong) -> bool {
    // SAFETY: these options look at numbers alone.
    unsafe { prctl(option, a, b, 0 as c_ulong, 0 as c_ulong) == 0 }
}

fn set_ids(real: u64, effective: u64, saved: u64) -> bool {
    // SAFETY: it looks at numbers alone.
    unsafe { setresuid(real as u32, effective as u32, saved as u32) == 0 }
}

fn set_capabilities(permitted: u64, inheritable: u64, effective: u64) -> bool {
    let header = [CAPABILITY_VERSION_3, 0];
    let low = [effective as u32, permitted as u32, inheritable as u32];
    let high = [(effective >> 32) as u32, (permitted >> 32) as u32, (inheritable >> 32) as u32];
    let words = [low, high];
    // SAFETY: two words of header and six of sets, as version 3 has them.
    unsafe { capset(header.as_ptr(), words.as_ptr().cast()) == 0 }
}

fn raise(capability: u64) -> bool {
    control(PR_CAP_AMBIENT, PR_CAP_AMBIENT_RAISE, capability.trailing_zeros().into())
}

fn drop_all(set: u64) -> bool {
    (0..=40).filter(|capability| set >> capability & 1 == 1).all(|capability| control(PR_CAPBSET_DROP, capability, 0))
}

/// Why this process may not make the child, if it may not.
pub fn why_not(child: &Child, own: &Values) -> Option<&'static str> {
    let map = fs::read_to_string("/proc/self/uid_map").expect("/proc/self/uid_map can be read");
    let is_user = |id: &u64| {
        map.lines().any(|line| {
            let numbers: Vec<u64> = line.split_whitespace().map(|number| number.parse().expect("a number")).collect();
            (numbers[0]..numbers[0] + numbers[2]).contains(id)
        })
    };
    // SAFETY: this option looks at nothing.
    let securebits = unsafe { prctl(PR_GET_SECUREBITS, 0 as c_ulong, 0 as c_ulong, 0 as c_ulong, 0 as c_ulong) };
    if child.needs & !own.effective != 0 {
        Some("a needed capability is not effective")
    } else if child.needs & SETPCAP != 0 && some(own) == 0 {
        Some("nothing is permitted that could be made inheritable")
    } else if child.needs != 0 && securebits != 0 {
        Some("securebits are set")
    } else if !child.takes.is_empty() && own.ids != [0; 4] {
        Some("this process is not root")
    } else if !child.takes.iter().all(is_user) {
        Some("an ID is no user's in this namespace")
    } else {
        None
    }
}

/// A child that waits in its credentials, until this process closes its end of a pipe or ends.
pub struct Waiting {
    pub process: c_int,
    held: c_int,
}

impl Drop for Waiting {
    fn drop(&mut self) {
        // SAFETY: the descriptor is this value's own, and the process is a child that has not been waited for.
        unsafe {
            close(self.held);
            waitpid(self.process, std::ptr::null_mut(), 0);
        }
    }
}

fn new_pipe() -> [c_int; 2] {
    let mut ends = [0; 2];
    // SAFETY: there is room for the two descriptors.
    assert_eq!(unsafe { pipe(ends.as_mut_ptr()) }, 0, "{}", io::Error::last_os_error());
    ends
}

/// Makes the child, and waits until it has said whether it could do what it was to do.
pub fn make(child: &Child, own: &Values) -> Waiting {
    let ([says, told], [waits, held]) = (new_pipe(), new_pipe());
    let mut byte = 0u8;
    // SAFETY: the byte is there to be read and written. After the fork the child calls nothing but what a signal handler may call.
    unsafe {
        let process = fork();
        if process == 0 {
            close(held);
            byte = u8::from((child.act)(own));
            write(told, (&raw const byte).cast(), 1);
            read(waits, (&raw mut byte).cast(), 1);
            _exit(0);
        }
        close(told);
        close(waits);
        assert_ne!(process, -1, "{}", io::Error::last_os_error());
        let waiting = Waiting { process, held };
        assert_eq!(read(says, (&raw mut byte).cast(), 1), 1, "{}: the child ended", child.name);
        close(says);
        assert_eq!(byte, 1, "{}: the kernel refuses what the child does", child.name);
        waiting
    }
}
