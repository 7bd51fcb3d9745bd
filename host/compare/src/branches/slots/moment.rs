//! One step of a slot plan, as the rows of the table see it.

use super::past::{Past, Slot};
use super::{EXIT, FORK, SLOTS};
use crate::branches::Row;
use plans::SlotStep;
use second::{Answer, Credentials, SlotAnswer, Step, Threads};

/// Some slots: bit n is slot n.
pub type Slots = u128;

const ALL: Slots = (1 << SLOTS) - 1;

/// What decides about a step first.
#[derive(Clone, Copy, Debug, PartialEq, Eq)]
pub enum Asked {
    /// The slot is above 95.
    OutOfRange,
    /// The slot is not in use.
    NotInUse,
    /// A fork by a slot in use, whatever its operands.
    Fork,
    /// An exit of a slot in use, whatever its operands.
    Exit,
    /// Any other number in a slot in use.
    Call,
}

/// What there is before a step.
pub struct Before<'p> {
    /// The sheet's credentials.
    pub start: &'p Credentials,
    /// What has become of the slots.
    pub past: &'p Past,
    /// Which step comes, counted from 0.
    pub index: usize,
    /// What came back for the one before it, if there is one.
    pub last: Option<SlotAnswer>,
    /// The slots.
    pub threads: Threads,
}

/// The table before a step, the step, what came back, and the table after it.
pub struct SlotMoment {
    /// Which step it is, counted from 0.
    pub index: usize,
    /// The slot that it names.
    pub slot: u8,
    /// The call.
    pub step: Step,
    /// What came back.
    pub answer: SlotAnswer,
    /// The slots before.
    pub before: Threads,
    /// The slots after.
    pub after: Threads,
    /// What came back for the step before.
    pub last: Option<SlotAnswer>,
    /// The slots in use before.
    pub in_use: Slots,
    // The slots that hold something else after it, or are in use or free since.
    changed: Slots,
    /// The sheet's credentials.
    pub start: Credentials,
    /// The past of the named slot.
    pub past: Slot,
    /// What the lowest free slot held when it was freed, if it ever was.
    pub left_in_free: Option<Credentials>,
    /// The slot that was freed last.
    pub last_freed: Option<u8>,
    /// What the call comes to by the named slot's credentials alone; none for a fork and an exit, and none where the slot is not in use.
    pub alone: Option<Answer>,
    /// What the call would come to by slot 0's, where it names another that is in use.
    pub in_slot_0: Option<Answer>,
}

impl SlotMoment {
    /// The moment of a step that was taken.
    pub fn new(before: Before, SlotStep { slot, step }: SlotStep, answer: SlotAnswer, after: Threads) -> SlotMoment {
        let Before { start, past, index, last, threads: before } = before;
        let mut moment = SlotMoment {
            in_use: some_of_all(|slot| before.held(slot).is_some()),
            changed: some_of_all(|slot| before.held(slot) != after.held(slot)),
            start: start.clone(),
            past: past.of(slot),
            last_freed: past.last_freed(),
            left_in_free: None,
            alone: None,
            in_slot_0: None,
            index,
            last,
            slot,
            step,
            answer,
            before,
            after,
        };
        moment.left_in_free = moment.lowest_free().and_then(|free| past.of(free).left);
        if moment.asked() == Asked::Call {
            moment.alone = moment.would_be(slot);
            moment.in_slot_0 = if slot == 0 { None } else { moment.would_be(0) };
        }
        moment
    }

    /// What the call comes to by that slot's credentials, if it is in use.
    pub fn would_be(&self, slot: u8) -> Option<Answer> {
        self.before.held(slot).map(|held| second::perform(held, &self.step))
    }

    /// What decides about it first.
    pub fn asked(&self) -> Asked {
        match self.step.call {
            _ if self.slot >= SLOTS => Asked::OutOfRange,
            _ if !self.uses(self.slot) => Asked::NotInUse,
            FORK => Asked::Fork,
            EXIT => Asked::Exit,
            _ => Asked::Call,
        }
    }

    /// Whether that slot is in use before.
    pub fn uses(&self, slot: u8) -> bool {
        self.in_use >> slot & 1 == 1
    }

    /// How many slots are in use before.
    pub fn size(&self) -> u32 {
        self.in_use.count_ones()
    }

    /// The slots that are free before.
    pub fn free(&self) -> Slots {
        ALL & !self.in_use
    }

    pub fn is_full(&self) -> bool {
        self.free() == 0
    }

    /// The lowest of them.
    pub fn lowest_free(&self) -> Option<u8> {
        lowest(self.free())
    }

    /// The highest slot in use before.
    pub fn highest_in_use(&self) -> Option<u8> {
        self.in_use.checked_ilog2().map(|slot| slot as u8)
    }

    /// Whether the step has no operand and no attribute, as fork and exit demand.
    pub fn is_bare(&self) -> bool {
        [self.step.a, self.step.b, self.step.c] == [0; 3] && self.step.attr.is_empty()
    }

    /// What the named slot holds before.
    pub fn held(&self) -> Option<&Credentials> {
        self.before.held(self.slot)
    }

    /// Whether the step before was refused for some cause.
    pub fn follows_a_cause(&self) -> bool {
        self.last.is_some_and(|last| last.cause != 0)
    }

    /// Whether the step before gave a value.
    pub fn follows_a_value(&self) -> bool {
        self.last.is_some_and(|last| last.value != 0)
    }

    /// Whether it was refused with that code, which has no cause, and no slot changed.
    pub fn is_refused(&self, code: u32) -> bool {
        self.answer == SlotAnswer { code, value: 0, cause: 0 } && self.is_unchanged()
    }

    /// Whether every slot is as before.
    pub fn is_unchanged(&self) -> bool {
        self.changed == 0
    }

    /// Whether it was done with that value.
    pub fn is_done(&self, value: u64) -> bool {
        self.answer == SlotAnswer { code: 0, value, cause: 0 }
    }

    /// Whether every slot but that one is as before.
    pub fn changes_only(&self, slot: u8) -> bool {
        self.changed & !(1 << slot) == 0
    }

    /// Whether another slot in use holds before what the named one does.
    pub fn is_shared(&self) -> bool {
        let others = self.in_use & !(1 << self.slot);
        (0..SLOTS).any(|slot| others >> slot & 1 == 1 && self.before.held(slot) == self.held())
    }
}

// Those of the 96 slots of which that is true.
fn some_of_all(is_so: impl Fn(u8) -> bool) -> Slots {
    (0..SLOTS).filter(|slot| is_so(*slot)).fold(0, |slots, slot| slots | 1 << slot)
}

/// The lowest of some slots.
pub fn lowest(slots: Slots) -> Option<u8> {
    (slots != 0).then(|| slots.trailing_zeros() as u8)
}

/// A row of steps.
pub fn row(
    name: impl std::fmt::Display,
    when: impl Fn(&SlotMoment) -> bool + Send + Sync + 'static,
    then: impl Fn(&SlotMoment) -> bool + Send + Sync + 'static,
) -> Row<SlotMoment> {
    Row::new(format!("Slots, {name}"), when, then)
}

/// A row whose step is refused with that code.
pub fn refused(
    name: impl std::fmt::Display,
    code: u32,
    when: impl Fn(&SlotMoment) -> bool + Send + Sync + 'static,
) -> Row<SlotMoment> {
    row(format!("{code}: {name}"), when, move |m| m.is_refused(code))
}

/// The kinds of threads that a fork, an exit and a refusal 11 could look at and do not.
pub const KINDS_OF_THREADS: [(&str, fn(&Credentials) -> bool); 6] = [
    ("a thread without effective capabilities", |held| held.effective == 0),
    ("a thread with effective capabilities", |held| held.effective != 0),
    ("a thread under no-new-privs", |held| held.nnp),
    ("a thread with locked securebits", |held| held.securebits & 0xaa != 0),
    ("a thread of effective user ID 0", |held| held.euid == 0),
    ("a thread of another effective user ID", |held| held.euid != 0),
];

/// Where in a plan a step stands, which changes nothing.
pub const PLACES: [(&str, fn(&SlotMoment) -> bool); 4] = [
    ("as the first step", |m| m.index == 0),
    ("as step 256", |m| m.index == 255),
    ("after a refusal with a cause", SlotMoment::follows_a_cause),
    ("after a step that gave a value", SlotMoment::follows_a_value),
];
