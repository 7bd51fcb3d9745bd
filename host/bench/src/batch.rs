//! The plans and slot plans that are measured.

use plans::{measured, measured_slots, MeasuredSlots, SlotPlan};
use std::fmt;
use urrezkalu::{run_plan, run_slot_plan, Outcome, LONGEST_SLOT_REPORT};

/// The numbers of steps for which there is a batch.
pub const STEPS: [usize; 5] = [0, 1, 16, 64, 256];

/// A batch has about this many bytes of text, but at least `FEWEST` plans.
const BATCH_BYTES: usize = 1 << 19;

const FEWEST: usize = 32;

/// How much longer than the report a buffer is.
const SPARE: usize = 32;

#[derive(Clone, Copy)]
pub enum Kind {
    WellFormed,
    /// One byte, anywhere in the text, is changed to one that can stand nowhere.
    Broken,
}

impl fmt::Display for Kind {
    fn fmt(&self, f: &mut fmt::Formatter<'_>) -> fmt::Result {
        f.write_str(match self {
            Kind::WellFormed => "well-formed",
            Kind::Broken => "broken",
        })
    }
}

/// Different plans or slot plans of one number of steps, and how long each one's buffer is.
pub struct Batch {
    pub kind: Kind,
    pub steps: usize,
    pub plans: Vec<Vec<u8>>,
    pub rooms: Vec<usize>,
}

type Runner = fn(&[u8], &mut [u8]) -> Outcome;

impl Batch {
    /// Plans.
    pub fn new(kind: Kind, steps: usize) -> Batch {
        Batch::made(kind, steps, run_plan, |seed| measured(seed, steps).text())
    }

    /// Slot plans.
    pub fn of_slots(kind: Kind, steps: usize, slots: MeasuredSlots) -> Batch {
        Batch::made(kind, steps, run_slot_plan, |seed| measured_slots(seed, steps, slots).text())
    }

    fn made(kind: Kind, steps: usize, run: Runner, text: impl Fn(u64) -> Vec<u8>) -> Batch {
        let mut batch = Batch { kind, steps, plans: Vec::new(), rooms: Vec::new() };
        let mut bytes = 0;
        let mut seed = first_seed(steps);
        while batch.plans.len() < FEWEST || bytes < BATCH_BYTES {
            let text = text(seed);
            bytes += text.len();
            batch.add(text, run, seed);
            seed += 1;
        }
        batch
    }

    /// As many plans that run, as slot plans whose calls are all made in slot 0.
    pub fn in_slot_0(&self) -> Batch {
        let mut batch = Batch { kind: Kind::WellFormed, steps: self.steps, plans: Vec::new(), rooms: Vec::new() };
        for seed in (first_seed(self.steps)..).take(self.plans.len()) {
            let plan = SlotPlan::in_slot_0(measured(seed, self.steps));
            batch.add(plan.text(), run_slot_plan, seed);
        }
        batch
    }

    fn add(&mut self, mut text: Vec<u8>, run: Runner, seed: u64) {
        let mut report = [0; LONGEST_SLOT_REPORT];
        let Outcome::Report { length } = run(&text, &mut report) else {
            panic!("a plan that is to be measured is refused");
        };
        if let Kind::Broken = self.kind {
            // A place that follows from the seed and looks like any other.
            let place = (seed.wrapping_mul(0x9e37_79b9_7f4a_7c15) >> 16) as usize % text.len();
            text[place] = b'!';
        }
        self.plans.push(text);
        self.rooms.push(length + SPARE);
    }

    /// How many bytes a plan has on average.
    pub fn bytes_a_plan(&self) -> f64 {
        self.plans.iter().map(Vec::len).sum::<usize>() as f64 / self.plans.len() as f64
    }
}

fn first_seed(steps: usize) -> u64 {
    steps as u64 * 0x1_0000 + 1
}
