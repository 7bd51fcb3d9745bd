//! The times of a batch, as a row of a table.

use crate::runs::{library, measure, second};
use measured::batch::{Batch, Kind};
use measured::times::{quantile, ratios, spread};
use std::fmt;

/// The nanoseconds a plan of each round, and what a row needs besides.
pub struct Figures {
    kind: Kind,
    steps: usize,
    plans: usize,
    bytes: f64,
    library: Vec<f64>,
    second: Vec<f64>,
}

impl Figures {
    pub const HEADING: &str = "\
| plans | steps | bytes a plan | program | plans/s | ns a plan | ns a step | ns a byte | second/library |
|---|---|---|---|---|---|---|---|---|";

    /// The times of both programs on a batch of plans, or the plan on which they differ.
    pub fn of(batch: &Batch, rounds: usize) -> Result<Figures, String> {
        let [library, second] = measure(batch, [library, second], rounds)?;
        Ok(Figures {
            kind: batch.kind,
            steps: batch.steps,
            plans: batch.plans.len(),
            bytes: batch.bytes_a_plan(),
            library,
            second,
        })
    }

    /// A program's columns: plans a second, and the time a plan, a step and a byte. A broken plan is not read to its end, so that a step and a byte
    /// of it have no time.
    fn columns(&self, times: &[f64]) -> String {
        let time = quantile(times, 0.5);
        let spread = spread(times, 0);
        let (step, byte) = match self.kind {
            Kind::Broken => ("".into(), "".into()),
            Kind::WellFormed if self.steps == 0 => ("".into(), format!("{:.2}", time / self.bytes)),
            Kind::WellFormed => (format!("{:.1}", time / self.steps as f64), format!("{:.2}", time / self.bytes)),
        };
        format!("{:.0} | {spread} | {step} | {byte}", 1e9 / time)
    }
}

impl fmt::Display for Figures {
    fn fmt(&self, f: &mut fmt::Formatter<'_>) -> fmt::Result {
        let Figures { kind, steps, plans, bytes, .. } = self;
        writeln!(f, "| {plans} {kind} | {steps} | {bytes:.0} | library | {} | |", self.columns(&self.library))?;
        let ratio = spread(&ratios(&self.second, &self.library), 2);
        write!(f, "| | | | second | {} | {ratio} |", self.columns(&self.second))
    }
}
