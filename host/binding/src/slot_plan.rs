//! Slot plans: a table of 96 threads, of which each step names one.

use crate::interface;
use crate::plan::{outcome, Outcome};

/// The most bytes that a well-formed slot plan has. A longer text is refused, and its first `LONGEST_SLOT_PLAN + 1` bytes decide the line.
pub const LONGEST_SLOT_PLAN: usize = 32_796;

/// The most bytes that a slot plan's report has: a buffer of this length is never too short.
pub const LONGEST_SLOT_REPORT: usize = 37_911;

/// How many slots there are: 0 to 95.
pub const SLOTS: usize = 96;

/// Runs the slot plan `plan` and writes its report at the front of `report`.
///
/// A slot plan is a sheet and 0 to 256 steps of six lines: `slot=`, and the five of a plan's step. At first slot 0 is in use, with the sheet's
/// credentials, and all others are free. Call 30 is fork: it copies all of the named slot's credentials to the lowest free slot, whose number is its
/// value. Call 31 is exit: it frees the named slot, and a later fork can take it again. Both use no operand and no attribute. Any other call is made
/// by the thread in the named slot, as in a plan, and changes no other slot.
///
/// A refused slot plan leaves every byte of `report` as it was, and the bytes past a report stay. One that would be refused for several reasons is
/// refused for the first of malformed, invalid, no room. A step that is refused does not refuse the slot plan: its code is in the report, which
/// [`results`](crate::results) takes apart, and after them [`slots`](crate::slots). A step is refused for the first of these: a slot above 95; a slot
/// that is not in use; what its call is refused for; and, of a fork, that no slot is free.
///
/// Here an init forks twice, the first child becomes user 1001, which empties its permitted set, and the second exits:
///
/// ```
/// use urrezkalu::{results, run_slot_plan, slots, Outcome, StepResult, LONGEST_SLOT_REPORT};
///
/// let plan = b"ruid=0\neuid=0\nsuid=0\nfsuid=0\nrgid=0\negid=0\nsgid=0\nfsgid=0\n\
///     permitted=000001ffffffffff\ninheritable=0000000000000000\neffective=000001ffffffffff\n\
///     bounding=000001ffffffffff\nambient=0000000000000000\nsecurebits=00\nnnp=0\n\
///     slot=0\ncall=30\na=0000000000000000\nb=0000000000000000\nc=0000000000000000\nattr=\n\
///     slot=0\ncall=30\na=0000000000000000\nb=0000000000000000\nc=0000000000000000\nattr=\n\
///     slot=1\ncall=15\na=00000000000003e9\nb=0000000000000000\nc=0000000000000000\nattr=\n\
///     slot=2\ncall=31\na=0000000000000000\nb=0000000000000000\nc=0000000000000000\nattr=\n\
///     slot=2\ncall=10\na=0000000000000000\nb=0000000000000000\nc=0000000000000000\nattr=\n";
/// let mut report = [0; LONGEST_SLOT_REPORT];
/// let Outcome::Report { length } = run_slot_plan(plan, &mut report) else { panic!("the slot plan is refused") };
///
/// let mut results = results(&report[..length]);
/// assert_eq!(results.next(), Some(StepResult::Done { value: 1 }));
/// assert_eq!(results.next(), Some(StepResult::Done { value: 2 }));
/// assert_eq!(results.next(), Some(StepResult::Done { value: 0 }));
/// assert_eq!(results.next(), Some(StepResult::Done { value: 0 }));
/// assert_eq!(results.next(), Some(StepResult::NoThread));
///
/// let mut slots = slots(&report[..length]);
/// let (slot, init) = slots.next().expect("slot 0 is in use");
/// assert_eq!((slot, init.euid, init.permitted), (0, 0, 0x1ff_ffff_ffff));
/// let (slot, helper) = slots.next().expect("slot 1 is in use");
/// assert_eq!((slot, helper.euid, helper.permitted), (1, 1001, 0));
/// assert_eq!(slots.next(), None);
/// ```
///
/// The two buffers cannot overlap, which the library asks for and C cannot promise:
///
/// ```compile_fail,E0502
/// let mut bytes = [0; 16];
/// let _ = urrezkalu::run_slot_plan(&bytes, &mut bytes);
/// ```
pub fn run_slot_plan(plan: &[u8], report: &mut [u8]) -> Outcome {
    outcome(interface::run_slot_plan(plan, report))
}
