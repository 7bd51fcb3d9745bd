//! What is counted over the slot plans of a run, and the summary of it.

use super::comparison::FamilyComparison;
use super::planted::PLANTED;
use super::SlotPlan;
use crate::harness::{FamilyObservation, FamilySeen};
use crate::tally::Tally;
use std::fmt;

/// The counts of a run's slot plans.
#[derive(Default)]
pub struct FamilyTally {
    pub counts: Tally,
    /// Threads after a step that was made: those that the library's run of the whole slot plan predicts, and those that have parted from it.
    predicted: u64,
    parted: u64,
    /// The most threads that there were at once.
    most: usize,
    /// The planted wrong predictions that were not caught.
    pub missed: Vec<&'static str>,
}

impl FamilyTally {
    /// Counts a slot plan that was run.
    pub fn slot_plan(&mut self, plan: &SlotPlan, seen: &FamilyObservation, comparison: &FamilyComparison) {
        let FamilyComparison { verdicts, statuses, listing, predicted, parted } = comparison;
        self.predicted += predicted;
        self.parted += parted;
        self.counts.status_files(*statuses, *listing);
        verdicts.iter().filter_map(|verdict| verdict.err()).for_each(|reason| self.counts.not_run(reason));
        let outcome =
            |seen: &Option<FamilySeen>| seen.as_ref().map(|seen| (seen.outcome.code, seen.outcome.after.0.len()));
        self.most = seen.steps.iter().filter_map(outcome).map(|(_, threads)| threads).fold(self.most, usize::max);
        let steps = plan.steps.iter().zip(&seen.steps).zip(verdicts);
        let asked = steps.filter_map(|((step, seen), verdict)| Some((&step.step, outcome(seen)?.0, (*verdict).ok()?)));
        self.counts.plan(asked);
    }
}

impl fmt::Display for FamilyTally {
    fn fmt(&self, f: &mut fmt::Formatter<'_>) -> fmt::Result {
        let FamilyTally { counts, predicted, parted, most, missed } = self;
        let Tally { plans, plans_agreed, starts_cut, .. } = counts;
        write!(f, "{plans} slot plans, {plans_agreed} agreed in every step that the kernel could be asked, ")?;
        writeln!(f, "the others up to the first difference in each slot")?;
        writeln!(f, "{starts_cut} of the fixed slot plans with their start cut to the machine's sets")?;
        write!(f, "{predicted} threads after a step are as the library's run of the whole slot plan says, ")?;
        writeln!(f, "{parted} come after a difference; {most} threads at once at most")?;
        writeln!(f, "{} planted wrong predictions, {} not caught", PLANTED.len(), missed.len())?;
        counts.write_steps(f)
    }
}
