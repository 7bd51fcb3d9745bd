//! A family of threads ("The whole machine, not one thread"): a table of 96 slots, fork and exit.

use crate::calls::{perform, Answer};
use crate::credentials::Credentials;
use crate::decode::Step;
use crate::refusal::Refusal;

const SLOTS: usize = 96;

const FORK: u8 = 30;
const EXIT: u8 = 31;

/// The table of threads. A slot is free, or in use and holds a thread's credentials.
#[derive(Clone, Debug, PartialEq, Eq)]
pub struct Threads {
    slots: [Option<Credentials>; SLOTS],
}

/// What a step in a slot comes to. The credentials after it are in the table.
#[derive(Clone, Copy, Debug, PartialEq, Eq)]
pub struct SlotAnswer {
    /// 0 for a step that is done, else the number of its refusal.
    pub code: u32,
    /// The new slot for a fork that is done, 0 for an exit, and for a call as in [`Answer`].
    pub value: u64,
    /// Where the code is 1, what is wrong, as in [`Answer`]; else 0.
    pub cause: u32,
}

impl Threads {
    /// A fresh table: slot 0 is in use with these credentials, valid or not, and every other slot is free.
    pub fn new(sheet: Credentials) -> Threads {
        let mut slots = [const { None }; SLOTS];
        slots[0] = Some(sheet);
        Threads { slots }
    }

    /// What the slot holds; none where it is free or above 95.
    pub fn held(&self, slot: u8) -> Option<&Credentials> {
        self.slots.get(usize::from(slot))?.as_ref()
    }

    /// The slots in use, lowest first, and what they hold.
    pub(crate) fn in_use(&self) -> impl Iterator<Item = (usize, &Credentials)> {
        self.slots.iter().enumerate().filter_map(|(slot, held)| Some((slot, held.as_ref()?)))
    }

    /// Takes one step in any slot: 30 forks, 31 exits, every other number is a call on what the slot holds. Refusals
    /// are looked for in the order 22 (a slot above 95), 3 (a slot that is not in use), 72 (the slot's credentials are
    /// not valid), 22 (no such call, or an operand out of range), 60 (attribute unreadable), 1 (not permitted), 11
    /// (a fork, and no slot is free). A refused step leaves every slot as it was.
    pub fn step(&mut self, slot: u8, step: &Step) -> SlotAnswer {
        match self.attempt(slot, step) {
            Ok(answer) => answer,
            Err(refusal) => SlotAnswer { code: refusal.code(), value: 0, cause: refusal.cause() },
        }
    }

    fn attempt(&mut self, slot: u8, step: &Step) -> Result<SlotAnswer, Refusal> {
        let place = self.slots.get_mut(usize::from(slot)).ok_or(Refusal::BadOperand)?;
        let thread = place.as_mut().ok_or(Refusal::SlotNotInUse)?;
        match step.call {
            FORK => {
                check_fork_or_exit(thread, step)?;
                let copy = thread.clone();
                let value = self.put_in_lowest_free(copy)?;
                Ok(SlotAnswer { code: 0, value, cause: 0 })
            }
            EXIT => {
                check_fork_or_exit(thread, step)?;
                *place = None;
                Ok(SlotAnswer { code: 0, value: 0, cause: 0 })
            }
            _ => Ok(call(thread, step)),
        }
    }

    /// Takes the lowest free slot for these credentials, and gives its number.
    fn put_in_lowest_free(&mut self, credentials: Credentials) -> Result<u64, Refusal> {
        let mut numbered = (0..).zip(&mut self.slots);
        let (number, free) = numbered.find(|(_, held)| held.is_none()).ok_or(Refusal::NoFreeSlot)?;
        *free = Some(credentials);
        Ok(number)
    }
}

impl SlotAnswer {
    /// The same answer without the credentials.
    pub(crate) fn of_call(answer: &Answer) -> SlotAnswer {
        SlotAnswer { code: answer.code, value: answer.value, cause: answer.cause }
    }
}

/// One of the twenty-two calls, or a number that is none, on what a slot holds.
fn call(thread: &mut Credentials, step: &Step) -> SlotAnswer {
    let answer = perform(thread, step);
    let told = SlotAnswer::of_call(&answer);
    *thread = answer.after;
    told
}

/// What fork and exit ask before anything else: valid credentials, no operand and no attribute.
fn check_fork_or_exit(thread: &Credentials, step: &Step) -> Result<(), Refusal> {
    if !thread.is_valid() {
        return Err(Refusal::InvalidCredentials);
    }
    let operands_are_zero = [step.a, step.b, step.c] == [0; 3];
    if operands_are_zero && step.attr.is_empty() {
        Ok(())
    } else {
        Err(Refusal::BadOperand)
    }
}

#[cfg(test)]
mod tests {
    use super::*;

    fn valid() -> Credentials {
        Credentials {
            ruid: 1000,
            euid: 1000,
            suid: 1000,
            fsuid: 1000,
            rgid: 1000,
            egid: 1000,
            sgid: 1000,
            fsgid: 1000,
            permitted: 0,
            inheritable: 0,
            effective: 0,
            bounding: 0,
            ambient: 0,
            securebits: 0,
            nnp: false,
        }
    }

    fn invalid() -> Credentials {
        Credentials { effective: 1, ..valid() }
    }

    fn step(call: u8, a: u64) -> Step {
        Step { call, a, b: 0, c: 0, attr: Vec::new() }
    }

    #[track_caller]
    fn assert_refused(threads: &Threads, slot: u8, step: &Step, code: u32) {
        let mut after = threads.clone();
        assert_eq!(after.step(slot, step), SlotAnswer { code, value: 0, cause: 0 });
        assert_eq!(&after, threads);
    }

    // No step makes valid credentials invalid, and none copies invalid ones: only here can two slots differ in that.

    #[test]
    fn refusal_72_is_asked_of_the_named_slot_alone() {
        let mut threads = Threads::new(invalid());
        threads.slots[1] = Some(valid());
        for call in [FORK, EXIT, 14, 99] {
            assert_refused(&threads, 0, &step(call, 0), 72);
            assert_refused(&threads, 0, &step(call, 1), 72);
            assert_refused(&threads, 2, &step(call, 0), 3);
            assert_refused(&threads, 96, &step(call, 0), 22);
        }
        assert_eq!(threads.step(1, &step(FORK, 0)), SlotAnswer { code: 0, value: 2, cause: 0 });
        assert_eq!(threads.step(1, &step(14, 0)), SlotAnswer { code: 0, value: 0, cause: 0 });
        assert_eq!(threads.step(1, &step(EXIT, 0)), SlotAnswer { code: 0, value: 0, cause: 0 });
        assert_eq!(threads.held(0), Some(&invalid()));
        assert_eq!(threads.held(1), None);
        assert_eq!(threads.held(2), Some(&valid()));
    }

    #[test]
    fn refusal_72_comes_before_22_and_11_where_no_slot_is_free() {
        let mut threads = Threads::new(valid());
        threads.slots.fill(Some(valid()));
        threads.slots[95] = Some(invalid());
        assert_refused(&threads, 95, &step(FORK, 0), 72);
        assert_refused(&threads, 95, &step(FORK, 1), 72);
        assert_refused(&threads, 95, &step(EXIT, 0), 72);
        assert_refused(&threads, 94, &step(FORK, 0), 11);
        assert_refused(&threads, 94, &step(FORK, 1), 22);
        assert_refused(&threads, 96, &step(FORK, 0), 22);
    }
}
