//! Runs plans and slot plans on the kernel, compares them and counts them. Faults are printed.

use crate::comparison::{compare, Fault, Verdict};
use crate::credentials::Thread;
use crate::departures::{Departure, Switches};
use crate::family::tally::FamilyTally;
use crate::family::{self, planted, prediction, SlotPlan};
use crate::harness::Harness;
use crate::step::Plan;
use crate::tally::Tally;
use std::fmt::Debug;
use std::io;

/// Faults are printed up to this many of plans and of slot plans, and then only counted.
const PRINTED: u64 = 5;

/// A harness at work and what it came to.
pub struct Runner {
    pub harness: Harness,
    pub known: Switches,
    pub verbose: bool,
    pub plans: Tally,
    pub families: FamilyTally,
}

impl Runner {
    /// Runs one plan, without the steps that cannot be run, and counts it.
    pub fn plan(&mut self, mut plan: Plan) -> io::Result<()> {
        plan.steps.retain(|step| {
            let reason = step.not_run();
            reason.into_iter().for_each(|reason| self.plans.not_run(reason));
            reason.is_none()
        });
        let seen = self.harness.run(&plan)?;
        match compare(self.known, &plan, &seen) {
            Ok(comparison) => {
                let verdicts = comparison.verdicts.iter().copied();
                self.print_explained(&plan.name, verdicts.clone().map(Ok));
                let codes = seen.outcomes.iter().map(|seen| seen.outcome.code);
                self.plans.status_files(comparison.statuses, comparison.listing);
                self.plans.plan(
                    plan.steps.iter().zip(codes).zip(verdicts).map(|((step, code), verdict)| (step, code, verdict)),
                );
            }
            Err(fault) => unexplained(&mut self.plans, &plan.name, &plan.start, &plan.steps, &fault),
        }
        Ok(())
    }

    /// Runs one slot plan, without the steps that cannot be run whatever threads there are, and counts it.
    pub fn slot_plan(&mut self, mut plan: SlotPlan) -> io::Result<()> {
        plan.steps.retain(|step| {
            let reason = step.not_run();
            reason.into_iter().for_each(|reason| self.families.counts.not_run(reason));
            reason.is_none()
        });
        let seen = self.harness.run_family(&plan)?;
        match family::comparison::compare(self.known, &prediction::report, &plan, &seen) {
            Ok(comparison) => {
                self.print_explained(&plan.name, comparison.verdicts.iter().copied());
                self.families.slot_plan(&plan, &seen, &comparison);
            }
            Err(fault) => unexplained(&mut self.families.counts, &plan.name, &plan.start, &plan.steps, &fault),
        }
        Ok(())
    }

    /// Has a family do what each planted wrong prediction is wrong about.
    pub fn planted(&mut self, plan: &SlotPlan) -> io::Result<()> {
        let seen = self.harness.run_family(plan)?;
        self.families.missed = planted::missed(self.known, plan, &seen);
        Ok(())
    }

    fn print_explained(&self, name: &str, verdicts: impl Iterator<Item = Result<Verdict, &'static str>>) {
        for (place, verdict) in verdicts.enumerate().filter(|_| self.verbose) {
            if let Ok(Verdict::Explained(switches)) = verdict {
                let names: Vec<&str> = switches.departures().map(Departure::name).collect();
                println!("{name}, step {}: {}", place + 1, names.join(", "));
            }
        }
    }
}

// Counts a plan with a step that is not explained, and prints it.
fn unexplained(tally: &mut Tally, name: &str, start: &Thread, steps: &[impl Debug], fault: &Fault) {
    tally.unexplained += 1;
    if tally.unexplained > PRINTED {
        return;
    }
    println!("FAILED: {name}: {}", fault.what);
    println!("start: {start:x?}");
    let upto = fault.place.map_or(steps.len(), |place| place + 1);
    for step in &steps[..upto] {
        println!("step: {step:x?}");
    }
    for (name, outcome) in &fault.outcomes {
        println!("{name}: {outcome}");
    }
    for (name, list) in &fault.lists {
        println!("{name}:\n{list}");
    }
    println!();
}
