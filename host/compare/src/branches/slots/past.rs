//! What has become of each slot in the steps before.

use super::moment::{Asked, SlotMoment};
use super::SLOTS;
use second::Credentials;

/// A thread, whichever slot it is in.
#[derive(Clone, Copy, PartialEq, Eq)]
struct Thread {
    number: usize,
    parent: Option<usize>,
    /// 0 for the sheet's thread, 1 for its children, and so on.
    generation: usize,
}

/// The threads by their slots, and what those that exited have left.
pub struct Past {
    threads: Vec<Option<Thread>>,
    left: Vec<Option<Credentials>>,
    // How many threads each slot has had.
    taken: Vec<usize>,
    last_freed: Option<u8>,
    born: usize,
}

/// What the past says of a slot.
#[derive(Clone, Default)]
pub struct Slot {
    /// What it held when it was freed, if it ever was.
    pub left: Option<Credentials>,
    /// How many threads it has had.
    pub taken: usize,
    /// 0 for the sheet's thread, 1 for its children; 0 too where it is free.
    pub generation: usize,
    /// Whether a child of its thread is in use.
    pub has_child: bool,
    /// Whether its thread's parent is in use.
    pub has_parent: bool,
    /// Whether another child of its thread's parent is in use.
    pub has_sibling: bool,
}

impl Past {
    /// Before the first step.
    pub fn new() -> Past {
        let slots = usize::from(SLOTS);
        let mut past = Past {
            threads: vec![None; slots],
            left: vec![None; slots],
            taken: vec![0; slots],
            last_freed: None,
            born: 0,
        };
        past.put(0, None);
        past
    }

    fn put(&mut self, slot: u8, parent: Option<Thread>) {
        let number = self.born;
        let generation = parent.map_or(0, |parent| parent.generation + 1);
        let parent = parent.map(|parent| parent.number);
        self.threads[usize::from(slot)] = Some(Thread { number, parent, generation });
        self.taken[usize::from(slot)] += 1;
        self.born += 1;
    }

    /// What it says of that slot; nothing of one above 95.
    pub fn of(&self, slot: u8) -> Slot {
        if slot >= SLOTS {
            return Slot::default();
        }
        let at = usize::from(slot);
        let mut told = Slot { left: self.left[at].clone(), taken: self.taken[at], ..Slot::default() };
        if let Some(own) = self.threads[at] {
            let others = || self.threads.iter().flatten().filter(|thread| thread.number != own.number);
            told.generation = own.generation;
            told.has_child = others().any(|thread| thread.parent == Some(own.number));
            told.has_parent = others().any(|thread| own.parent == Some(thread.number));
            told.has_sibling = others().any(|thread| own.parent.is_some() && thread.parent == own.parent);
        }
        told
    }

    /// The slot that was freed last.
    pub fn last_freed(&self) -> Option<u8> {
        self.last_freed
    }

    /// Goes on by a step: forks and exits that are to be done are done.
    pub fn follow(&mut self, moment: &SlotMoment) {
        if !moment.is_bare() {
            return;
        }
        let at = usize::from(moment.slot);
        match (moment.asked(), moment.lowest_free()) {
            (Asked::Fork, Some(free)) => self.put(free, self.threads[at]),
            (Asked::Exit, _) => {
                self.threads[at] = None;
                self.left[at] = moment.before.held(moment.slot).cloned();
                self.last_freed = Some(moment.slot);
            }
            _ => {}
        }
    }
}
