//! Plans, inputs, names, status texts and slot plans through both programs.

mod functions;
mod input;
mod names;
mod plan;
mod slots;
mod status;

pub use input::{InputChecker, FUNCTIONS};
pub use names::{NamesChecker, NAME_FUNCTIONS};
pub use plan::PlanChecker;
pub use slots::SlotChecker;
pub use status::StatusChecker;

use crate::branches::Counts;
use crate::difference::Checked;

/// What checks one seed after the other, and counts what they reach.
pub trait Check {
    /// Checks what that seed makes.
    fn check(&mut self, seed: u64) -> Checked<()>;

    /// How often each row of the table applied.
    fn counts(&self) -> &Counts;

    /// How often both programs were run.
    fn runs(&self) -> u64;
}

/// How much a reader or a writer was asked.
#[derive(Clone, Copy, Default)]
pub struct Tally {
    /// How many inputs it was given.
    pub inputs: u64,
    /// How often both programs were run on them, and back again.
    pub runs: u64,
}

impl Tally {
    // Adds an input on which both programs were run so often.
    fn add(&mut self, runs: u64) {
        self.inputs += 1;
        self.runs += runs;
    }
}

// What is wrong where what came back is not what a row of the table demands.
fn against_the_table(row: &str) -> String {
    format!("both programs agree, but not with the table of branches: {row}")
}

// A number that looks like any other, from a seed.
fn scattered(seed: u64) -> u64 {
    seed.wrapping_add(1).wrapping_mul(0x9e37_79b9_7f4a_7c15) >> 33
}
