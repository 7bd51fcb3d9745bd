//! A family of threads as the maker of its steps guesses it: which slots are in use, and about what each thread holds.

use super::{bare, stray, SlotStep, EXIT, FORK};
use crate::random::Random;
use crate::steps::Maker;
use second::{Credentials, Step};

/// How many slots there are.
pub(super) const SLOTS: usize = 96;

/// Some slots: bit n is slot n.
type Slots = u128;

const ALL: Slots = (1 << SLOTS) - 1;

/// The slots, and a maker of steps for each. One that is free keeps the maker of the thread that was there, one that never was in use has the start's.
pub(super) struct Family {
    makers: Vec<Maker>,
    in_use: Slots,
    was_in_use: Slots,
    newest: u8,
}

impl Family {
    pub(super) fn new(start: &Credentials) -> Family {
        Family { makers: vec![Maker::new(start); SLOTS], in_use: 1, was_in_use: 1, newest: 0 }
    }

    /// How many slots are in use.
    pub(super) fn size(&self) -> u32 {
        self.in_use.count_ones()
    }

    /// Whether a slot is free.
    pub(super) fn has_room(&self) -> bool {
        self.free() != 0
    }

    /// Whether every slot is in use or was.
    pub(super) fn has_taken_all(&self) -> bool {
        self.was_in_use == ALL
    }

    fn free(&self) -> Slots {
        ALL & !self.in_use
    }

    /// The slot that was taken last; another member where that has exited.
    pub(super) fn newest(&self, random: &mut Random) -> u8 {
        if self.in_use >> self.newest & 1 == 1 {
            self.newest
        } else {
            self.member(random)
        }
    }

    /// A slot in use: the lowest, the highest, or any. Any at all where none is in use.
    pub(super) fn member(&self, random: &mut Random) -> u8 {
        match random.below(8) {
            0 if self.in_use != 0 => self.in_use.trailing_zeros() as u8,
            1 if self.in_use != 0 => self.in_use.ilog2() as u8,
            _ => one_of(random, self.in_use).unwrap_or_else(|| random.below(SLOTS) as u8),
        }
    }

    /// A slot that is free, those that were in use more often; or one in use where all are.
    pub(super) fn free_slot(&self, random: &mut Random) -> u8 {
        let freed = self.free() & self.was_in_use;
        let some = match random.below(4) {
            0 => one_of(random, self.free()),
            1 => Some(self.free().trailing_zeros() as u8).filter(|_| self.has_room()),
            2 => Some(SLOTS as u8 - 1).filter(|slot| self.free() >> slot & 1 == 1),
            _ => one_of(random, freed),
        };
        some.or_else(|| one_of(random, self.free())).unwrap_or_else(|| self.member(random))
    }

    /// A fork by that slot.
    pub(super) fn fork(&mut self, slot: u8) -> SlotStep {
        self.taken(slot, bare(FORK))
    }

    /// An exit of that slot.
    pub(super) fn exit(&mut self, slot: u8) -> SlotStep {
        self.taken(slot, bare(EXIT))
    }

    /// A call by that slot, now and then with something wrong, or one that another slot would choose; a number that is no call may fork or exit.
    pub(super) fn call(&mut self, random: &mut Random, slot: u8) -> SlotStep {
        let other = if random.one_in(2) { 0 } else { self.member(random) };
        let mut other = self.maker(other).clone();
        let step = match random.below(24) {
            0 => self.maker(slot).launch_apart(random, &other),
            1..=5 => other.any(random),
            _ => self.maker(slot).any(random),
        };
        self.taken(slot, step)
    }

    /// A call by that slot with its operands in range.
    pub(super) fn decent_call(&mut self, random: &mut Random, slot: u8) -> SlotStep {
        let step = self.maker(slot).decent(random);
        self.taken(slot, step)
    }

    /// A step that is refused before its call is looked at, or a fork or an exit with something wrong, or no call.
    pub(super) fn stray(&mut self, random: &mut Random) -> SlotStep {
        let (slot, step) = stray::step(random, self);
        self.taken(slot, step)
    }

    /// What that slot makes steps with; slots above 95 have slot 0's.
    pub(super) fn maker(&mut self, slot: u8) -> &mut Maker {
        let at = if usize::from(slot) < SLOTS { usize::from(slot) } else { 0 };
        &mut self.makers[at]
    }

    /// The step, after which the slots in use are others if it forks or exits.
    pub(super) fn taken(&mut self, slot: u8, step: Step) -> SlotStep {
        let is_in_use = usize::from(slot) < SLOTS && self.in_use >> slot & 1 == 1;
        if is_in_use && step == bare(FORK) && self.has_room() {
            let new = self.free().trailing_zeros() as u8;
            self.makers[usize::from(new)] = self.makers[usize::from(slot)].clone();
            self.in_use |= 1 << new;
            self.was_in_use |= 1 << new;
            self.newest = new;
        } else if is_in_use && step == bare(EXIT) {
            self.in_use &= !(1 << slot);
        }
        SlotStep { slot, step }
    }
}

// One of those slots, if there is one.
fn one_of(random: &mut Random, slots: Slots) -> Option<u8> {
    if slots == 0 {
        return None;
    }
    let mut rest = slots;
    for _ in 0..random.below(slots.count_ones() as usize) {
        rest &= rest - 1;
    }
    Some(rest.trailing_zeros() as u8)
}
