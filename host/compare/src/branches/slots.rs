//! Slot plans ("The whole machine, not one thread"): the rows of their steps, by what a step is asked first, and those of their texts and reports.

mod calls;
mod exits;
mod forks;
mod moment;
mod past;
mod refused;
mod reports;
mod texts;
mod unused_operands;

pub use moment::{Before, SlotMoment};
pub use past::Past;
pub use texts::{End, SlotSight};

use super::{Counts, Group};
use moment::Asked;

/// The most bytes of a slot plan: a sheet of 284, and 256 steps of 127.
const LONGEST_PLAN: usize = 32_796;

/// The most bytes of its report: 95 forks of 38, 161 results of 39, and of each slot a sheet of 284 and a line of 7 or 8.
pub const LONGEST: usize = 37_911;

/// How many slots there are.
const SLOTS: u8 = 96;

/// The calls that fork and exit.
const FORK: u8 = 30;
const EXIT: u8 = 31;

/// All rows of slot plans.
pub struct Rows {
    refused: Group<SlotMoment>,
    forks: Group<SlotMoment>,
    exits: Group<SlotMoment>,
    calls: Group<SlotMoment>,
    texts: Group<SlotSight>,
}

impl Rows {
    /// The rows, their counts after those of that group.
    pub(super) fn after<M>(group: &Group<M>) -> Rows {
        let refused = group.followed_by(refused::rows());
        let forks = refused.followed_by(forks::rows());
        let exits = forks.followed_by(exits::rows());
        let calls = exits.followed_by(calls::rows());
        let texts = calls.followed_by(texts::rows());
        Rows { refused, forks, exits, calls, texts }
    }

    pub(super) fn end(&self) -> usize {
        self.texts.end()
    }

    pub(super) fn meet_step(&self, moment: &SlotMoment, counts: &mut Counts) -> Result<(), &str> {
        let group = match moment.asked() {
            Asked::OutOfRange | Asked::NotInUse => &self.refused,
            Asked::Fork => &self.forks,
            Asked::Exit => &self.exits,
            Asked::Call => &self.calls,
        };
        group.meet(moment, counts)
    }

    pub(super) fn meet_text(&self, sight: &SlotSight, counts: &mut Counts) -> Result<(), &str> {
        self.texts.meet(sight, counts)
    }

    pub(super) fn names(&self) -> impl Iterator<Item = &str> {
        let steps = [&self.refused, &self.forks, &self.exits, &self.calls];
        steps.into_iter().flat_map(Group::names).chain(self.texts.names())
    }
}

#[cfg(test)]
mod tests {
    use super::super::Table;
    use super::*;
    use plans::SlotStep;
    use second::{Credentials, SlotAnswer, Step, Threads};

    fn start() -> Credentials {
        Credentials {
            ruid: 1000,
            euid: 1001,
            suid: 1002,
            fsuid: 1003,
            rgid: 100,
            egid: 101,
            sgid: 102,
            fsgid: 103,
            permitted: 7,
            inheritable: 6,
            effective: 3,
            bounding: 15,
            ambient: 2,
            securebits: 5,
            nnp: false,
        }
    }

    fn bare(call: u8) -> Step {
        Step { call, a: 0, b: 0, c: 0, attr: Vec::new() }
    }

    // The table after those steps, each without operands but for call 13, which sets no-new-privs.
    fn after(steps: &[(u8, u8)]) -> Threads {
        let mut threads = Threads::new(start());
        for (slot, call) in steps {
            let step = Step { a: u64::from(*call == 13), ..bare(*call) };
            assert_eq!(threads.step(*slot, &step).code, 0);
        }
        threads
    }

    // Whether the table of branches takes that answer and that table after it, where the step before was a fork.
    fn is_met(
        before: &Threads,
        (slot, step): (u8, Step),
        (code, value, cause): (u32, u64, u32),
        after: &Threads,
    ) -> bool {
        let table = Table::new();
        let (start, past) = (start(), Past::new());
        let last = Some(SlotAnswer { code: 0, value: 1, cause: 0 });
        let before = Before { start: &start, past: &past, index: 1, last, threads: before.clone() };
        let answer = SlotAnswer { code, value, cause };
        let moment = SlotMoment::new(before, SlotStep { slot, step }, answer, after.clone());
        table.meet_slot_step(&moment, &mut table.counts()).is_ok()
    }

    const FORKED: [(u8, u8); 3] = [(0, FORK), (0, FORK), (0, FORK)];

    #[test]
    fn another_slot_than_the_lowest_is_told() {
        let before = after(&[&FORKED[..], &[(1, EXIT), (3, 13)]].concat());
        let into_1 = after(&[&FORKED[..], &[(1, EXIT), (3, 13), (3, FORK)]].concat());
        assert!(is_met(&before, (3, bare(FORK)), (0, 1, 0), &into_1));
        for (code, value, cause) in [(0, 4, 0), (0, 0, 0), (0, 1, 1), (11, 0, 0)] {
            assert!(!is_met(&before, (3, bare(FORK)), (code, value, cause), &into_1));
        }
        // Into slot 4, by another caller, not at all, and with a call beside it.
        let into_4 = after(&[&FORKED[..], &[(3, 13), (3, FORK), (1, EXIT)]].concat());
        assert!(!is_met(&before, (3, bare(FORK)), (0, 4, 0), &into_4));
        let of_slot_0 = after(&[&FORKED[..], &[(1, EXIT), (3, 13), (0, FORK)]].concat());
        assert!(!is_met(&before, (3, bare(FORK)), (0, 1, 0), &of_slot_0));
        assert!(!is_met(&before, (3, bare(FORK)), (0, 1, 0), &before));
        let beside = after(&[&FORKED[..], &[(1, EXIT), (3, 13), (3, FORK), (0, 13)]].concat());
        assert!(!is_met(&before, (3, bare(FORK)), (0, 1, 0), &beside));
    }

    #[test]
    fn another_slot_that_is_freed_is_told() {
        let before = after(&FORKED);
        let with_exit = |slot: u8| after(&[&FORKED[..], &[(slot, EXIT)]].concat());
        assert!(is_met(&before, (1, bare(EXIT)), (0, 0, 0), &with_exit(1)));
        assert!(!is_met(&before, (1, bare(EXIT)), (0, 1, 0), &with_exit(1)));
        for slot in [0, 2, 3] {
            assert!(!is_met(&before, (1, bare(EXIT)), (0, 0, 0), &with_exit(slot)));
        }
    }

    #[test]
    fn refusals_in_another_order_are_told() {
        let one = after(&[]);
        let spoiled = |call: u8| Step { b: 1, ..bare(call) };
        for (slot, step, code) in [
            (96, bare(FORK), 22),
            (99, bare(14), 22),
            (1, bare(FORK), 3),
            (1, spoiled(EXIT), 3),
            (95, bare(99), 3),
            (0, spoiled(FORK), 22),
            (0, spoiled(EXIT), 22),
            (0, bare(32), 22),
        ] {
            for other in [0, 1, 3, 11, 22, 60, 72] {
                let is_met = is_met(&one, (slot, step.clone()), (other, 0, 0), &one);
                assert_eq!(is_met, other == code, "slot {slot}, call {}, {other}", step.call);
            }
        }
        let full = after(&[(0, FORK); 95]);
        assert!(
            is_met(&full, (95, bare(FORK)), (11, 0, 0), &full) && !is_met(&full, (95, bare(FORK)), (22, 0, 0), &full)
        );
        assert!(is_met(&full, (95, spoiled(FORK)), (22, 0, 0), &full));
        assert!(!is_met(&full, (95, spoiled(FORK)), (11, 0, 0), &full));
    }

    #[test]
    fn a_call_in_another_slot_is_told() {
        let before = after(&FORKED);
        let step = || Step { a: 1, ..bare(13) };
        let with_call = |slot: u8| after(&[&FORKED[..], &[(slot, 13)]].concat());
        assert!(is_met(&before, (2, step()), (0, 0, 0), &with_call(2)));
        for slot in [0, 1, 3] {
            assert!(!is_met(&before, (2, step()), (0, 0, 0), &with_call(slot)));
        }
        assert!(!is_met(&before, (2, step()), (0, 0, 0), &before));
        assert!(!is_met(&before, (2, step()), (0, 0, 1), &with_call(2)));
    }
}
