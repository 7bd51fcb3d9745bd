//! What is counted over a run, and the summary at its end.

use crate::comparison::Verdict;
use crate::departures::{Switches, ALL};
use crate::step::{call_name, Step, EXECVE};
use std::collections::BTreeMap;
use std::fmt;

/// The counts of a run, of plans or of slot plans.
#[derive(Default)]
pub struct Tally {
    pub plans: u64,
    pub plans_agreed: u64,
    pub starts_cut: u64,
    pub steps: u64,
    pub agreed: u64,
    pub explained: u64,
    /// Plans with a step that is not explained.
    pub unexplained: u64,
    pub unreadable: u64,
    /// Status files, and those of them that list something beside the library's prediction.
    pub statuses: u64,
    pub statuses_listing: u64,
    by_call: BTreeMap<u32, [u64; 3]>,
    by_flags: BTreeMap<u64, u64>,
    by_departure: [u64; ALL.len()],
    not_run: BTreeMap<&'static str, u64>,
}

impl Tally {
    /// Counts a plan that was run: its steps with the code of each and the verdict on it.
    pub fn plan<'a>(&mut self, steps: impl Iterator<Item = (&'a Step, u32, Verdict)>) {
        let mut is_agreed = true;
        for (step, code, verdict) in steps {
            is_agreed &= verdict == Verdict::Agreed;
            self.step(step, code, verdict);
        }
        self.plans += 1;
        self.plans_agreed += u64::from(is_agreed);
    }

    fn step(&mut self, step: &Step, code: u32, verdict: Verdict) {
        match verdict {
            Verdict::Agreed => self.agreed += 1,
            Verdict::Explained(switches) => self.explain(switches),
            Verdict::NoSheet => {
                return self
                    .not_run("a step from securebits above ff, which have no sheet: compared with the model alone")
            }
        }
        self.steps += 1;
        let [all, done, differ] = self.by_call.entry(step.call).or_default();
        *all += 1;
        *done += u64::from(code == 0);
        *differ += u64::from(verdict != Verdict::Agreed);
        if step.call == EXECVE {
            *self.by_flags.entry(step.b).or_default() += 1;
            self.unreadable += u64::from(code == 60);
        }
    }

    fn explain(&mut self, switches: Switches) {
        self.explained += 1;
        switches.departures().for_each(|departure| self.by_departure[departure as usize] += 1);
    }

    /// Counts status files.
    pub fn status_files(&mut self, read: u64, listing: u64) {
        self.statuses += read;
        self.statuses_listing += listing;
    }

    /// Counts what is not run, by its reason.
    pub fn not_run(&mut self, reason: &'static str) {
        *self.not_run.entry(reason).or_default() += 1;
    }

    /// The departures that were never seen: one that is claimed has to show.
    pub fn never_seen(&self) -> impl Iterator<Item = &'static str> + '_ {
        ALL.iter().zip(&self.by_departure).filter(|(_, &count)| count == 0).map(|(departure, _)| departure.name())
    }

    /// Writes what is counted of steps and status files, and what was not run.
    pub fn write_steps(&self, f: &mut fmt::Formatter<'_>) -> fmt::Result {
        let Tally { steps, agreed, explained, unexplained, unreadable, statuses, statuses_listing, .. } = self;
        writeln!(f, "{steps} steps: {agreed} agreed, {explained} explained; {unexplained} plans unexplained")?;
        writeln!(f, "{unreadable} launches refused with EINVAL, which stands for 60")?;
        write!(f, "{statuses} status files read: beside the prediction {statuses_listing} list just the keys that ")?;
        writeln!(f, "differ, the others the last line alone\n")?;
        writeln!(f, "{:<20}{:>9}{:>9}{:>9}{:>9}", "call", "steps", "done", "refused", "differ")?;
        for (&call, [all, done, differ]) in &self.by_call {
            writeln!(f, "{:<20}{all:>9}{done:>9}{:>9}{differ:>9}", call_name(call), all - done)?;
        }
        write!(f, "\nlaunches by flags:")?;
        for (flags, count) in &self.by_flags {
            write!(f, " {flags}: {count}")?;
        }
        writeln!(
            f,
            "\n\ndepartures of the kernel from the paper (docs/KERNEL.md), with the steps that they help to explain"
        )?;
        for (departure, count) in ALL.iter().zip(&self.by_departure) {
            writeln!(f, "{count:>8}  {}", departure.name())?;
        }
        writeln!(f, "\nnot run, or not compared with the library")?;
        for (reason, count) in &self.not_run {
            writeln!(f, "{count:>8}  {reason}")?;
        }
        Ok(())
    }
}

impl fmt::Display for Tally {
    fn fmt(&self, f: &mut fmt::Formatter<'_>) -> fmt::Result {
        let Tally { plans, plans_agreed, starts_cut, .. } = self;
        writeln!(f, "{plans} plans, {plans_agreed} agreed in every step, the others up to their first difference")?;
        writeln!(f, "{starts_cut} of the fixed plans with their start cut to the machine's sets")?;
        self.write_steps(f)
    }
}
