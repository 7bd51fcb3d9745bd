//! Two programs over batches of plans or slot plans, in turns.

use measured::batch::Batch;
use std::time::Instant;

/// An answer as numbers, so that two programs' can be compared: code, line of a fault, length of the report.
pub type Answer = (u32, u32, usize);

pub type Program = fn(&[u8], &mut [u8]) -> Answer;

pub fn library(plan: &[u8], report: &mut [u8]) -> Answer {
    told(urrezkalu::run_plan(plan, report))
}

pub fn library_in_slots(plan: &[u8], report: &mut [u8]) -> Answer {
    told(urrezkalu::run_slot_plan(plan, report))
}

fn told(outcome: urrezkalu::Outcome) -> Answer {
    match outcome {
        urrezkalu::Outcome::Report { length } => (0, 0, length),
        urrezkalu::Outcome::Malformed { line } => (70, line, 0),
        urrezkalu::Outcome::Invalid => (72, 0, 0),
        urrezkalu::Outcome::NoRoom => (28, 0, 0),
    }
}

pub fn second(plan: &[u8], report: &mut [u8]) -> Answer {
    told_by_second(second::run_plan(plan, report))
}

pub fn second_in_slots(plan: &[u8], report: &mut [u8]) -> Answer {
    told_by_second(second::run_slot_plan(plan, report))
}

fn told_by_second(outcome: second::Outcome) -> Answer {
    match outcome {
        second::Outcome::Report { length } => (0, 0, length),
        second::Outcome::Malformed { line } => (70, line, 0),
        second::Outcome::Invalid => (72, 0, 0),
        second::Outcome::NoRoom => (28, 0, 0),
    }
}

/// One program's buffers and answers for a batch.
pub struct Bench<'b> {
    program: Program,
    batch: &'b Batch,
    pub buffers: Vec<Vec<u8>>,
    pub answers: Vec<Answer>,
}

impl Bench<'_> {
    pub fn new(program: Program, batch: &Batch) -> Bench<'_> {
        let buffers = batch.rooms.iter().map(|&room| vec![0; room]).collect();
        Bench { program, batch, buffers, answers: vec![(0, 0, 0); batch.plans.len()] }
    }

    fn clear(&mut self) {
        for buffer in &mut self.buffers {
            buffer.fill(0);
        }
    }

    /// Runs every plan once and gives the nanoseconds a plan.
    fn time(&mut self) -> f64 {
        let start = Instant::now();
        for ((plan, buffer), answer) in self.batch.plans.iter().zip(&mut self.buffers).zip(&mut self.answers) {
            *answer = (self.program)(plan, buffer);
        }
        start.elapsed().as_nanos() as f64 / self.batch.plans.len() as f64
    }

    /// What the report of a plan is.
    pub fn report(&self, plan: usize) -> &[u8] {
        &self.buffers[plan][..self.answers[plan].2]
    }
}

/// The nanoseconds a plan that each takes in each round, in an order that turns; or the first plan on which they do not agree.
pub fn in_turns(
    [one, other]: &mut [Bench<'_>; 2],
    rounds: usize,
    agree: fn(&Bench, &Bench, usize) -> bool,
) -> Result<[Vec<f64>; 2], usize> {
    let mut times = [Vec::new(), Vec::new()];
    for round in 0..rounds + 1 {
        one.clear();
        other.clear();
        let (a, b) = if round % 2 == 0 {
            let a = one.time();
            (a, other.time())
        } else {
            let b = other.time();
            (one.time(), b)
        };
        if let Some(plan) = (0..one.answers.len()).find(|&plan| !agree(one, other, plan)) {
            return Err(plan);
        }
        // The first round only fills the caches.
        if round > 0 {
            times[0].push(a);
            times[1].push(b);
        }
    }
    Ok(times)
}

/// The times of two programs on one batch, which have to give the same answer and leave the same in every byte of every buffer; or that they do not.
pub fn measure(batch: &Batch, programs: [Program; 2], rounds: usize) -> Result<[Vec<f64>; 2], String> {
    let agree = |one: &Bench, other: &Bench, plan: usize| {
        one.answers[plan] == other.answers[plan] && one.buffers[plan] == other.buffers[plan]
    };
    let mut benches = programs.map(|program| Bench::new(program, batch));
    in_turns(&mut benches, rounds, agree)
        .map_err(|plan| format!("the two programs differ on this plan:\n{}", batch.plans[plan].escape_ascii()))
}
