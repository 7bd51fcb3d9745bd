//! Random slot plans. The calls are those of random plans, chosen about what the named thread holds at that step, which the model of the kernel says.

use super::parents::Parents;
use super::table::{perform, Table};
use super::{SlotPlan, SlotStep, SLOTS};
use crate::attribute::version_2;
use crate::departures::Switches;
use crate::generator::Generator;
use crate::step::{Step, Tracer, EXIT, FORK, GET_SECUREBITS};

const LONGEST: u64 = 24;

/// Above so many threads forks are made less often.
const MANY: usize = 8;

/// How often a call is chosen anew that the kernel would not answer as the paper does.
const TRIES: usize = 20;

/// What is known at a step of the slot plan that is being made.
struct Stage {
    table: Table,
    parents: Parents,
    /// Whether every step is one on which the kernel keeps to the paper.
    keeps: bool,
}

impl Generator<'_> {
    /// A slot plan of one to twenty-four steps. In about one of two the kernel keeps to the paper in every step, so that the whole of it can be laid
    /// beside the library's run.
    pub fn slot_plan(&mut self, name: String) -> SlotPlan {
        let start = self.start();
        let keeps = self.random.chance(50);
        let mut stage = Stage { table: Table::new(start), parents: Parents::default(), keeps };
        let mut steps = Vec::new();
        for _ in 0..1 + self.random.below(LONGEST) {
            // Once every thread has exited there is nothing more to ask.
            if stage.table.0.is_empty() && self.random.chance(50) {
                break;
            }
            let step = self.slot_step(&stage);
            if step.not_run().is_none() {
                let outcome = perform(Switches::EVERY, &stage.table, &step);
                stage.parents.note(&step, &outcome);
                stage.table = outcome.after;
            }
            steps.push(step);
        }
        SlotPlan { name, start, steps }
    }

    fn slot_step(&mut self, stage: &Stage) -> SlotStep {
        let slot = self.slot(&stage.table);
        for _ in 0..TRIES {
            let step = SlotStep::new(slot, self.step_of(stage, slot));
            let [paper, kernel] =
                [Switches::NONE, Switches::EVERY].map(|switches| perform(switches, &stage.table, &step));
            if !stage.keeps || paper == kernel {
                return step;
            }
        }
        SlotStep::new(slot, Step::new(GET_SECUREBITS))
    }

    // Mostly one in use; now and then a free one or none.
    fn slot(&mut self, table: &Table) -> usize {
        let used: Vec<usize> = table.0.keys().copied().collect();
        match self.random.below(100) {
            0..=3 => self.random.below(SLOTS as u64) as usize,
            4 => SLOTS + self.random.below(4) as usize,
            5 | 6 => table.lowest_free().unwrap_or(0),
            _ if used.is_empty() => 0,
            _ => self.random.pick(&used),
        }
    }

    fn step_of(&mut self, stage: &Stage, slot: usize) -> Step {
        let threads = stage.table.0.len();
        let forks = if threads < MANY { 25 } else { 5 };
        let exits = if threads > 1 { 7 } else { 1 };
        let mut step = match (self.random.below(100), stage.table.0.get(&slot)) {
            (choice, Some(thread)) if choice >= forks + exits => self.step(thread),
            (choice, _) if choice < forks => Step::new(FORK),
            (_, Some(_)) => Step::new(EXIT),
            (_, None) => Step::new(self.random.pick(&[EXIT, GET_SECUREBITS])),
        };
        match self.random.below(100) {
            _ if !matches!(step.call, FORK | EXIT) => {}
            0 => step.attribute = version_2(0, 0, false),
            1..=4 => {
                let spoilt = self.random.pick(&[0, 1, 2]);
                *[&mut step.a, &mut step.b, &mut step.c][spoilt] = 1 + self.random.below(3);
            }
            _ => {}
        }
        if stage.parents.has(slot) {
            step.setting.tracer = Tracer::Seized;
        }
        step
    }
}
