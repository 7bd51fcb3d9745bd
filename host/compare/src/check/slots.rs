//! Slot plans: each through both programs, in buffers of several lengths, and step by step.

use super::functions::{see, Fault, RunSlotPlan};
use super::{against_the_table, scattered, Check, Tally};
use crate::branches::{Before, Counts, End, Moment, Past, SlotMoment, SlotSight, Table, LONGEST_SLOT_REPORT};
use crate::buffers::Buffers;
use crate::difference::{self, both, Checked, Difference};
use plans::{write_result, write_sheet, write_slot, write_slot_step, SlotKind, SlotPlan, SlotStep};
use second::{Answer, SlotAnswer, Threads};
use urrezkalu::interface;

const SLOTS: u8 = 96;

/// Room for any report and some bytes more.
const ROOMY: usize = LONGEST_SLOT_REPORT + 64;

/// Checks slot plans one after the other.
pub struct SlotChecker<'a> {
    table: &'a Table,
    counts: Counts,
    // Calls in slots are held against the rows of calls, which plans have to reach by themselves.
    of_calls: Counts,
    /// How much was asked.
    pub tally: Tally,
    bytes: Buffers<u8>,
}

impl Check for SlotChecker<'_> {
    fn check(&mut self, seed: u64) -> Checked<()> {
        let runs_before = self.runs();
        self.run(seed).map_err(|Fault { what, more }| {
            let what = format!("run_slot_plan: {what}");
            let given = difference::text("the slot plan", &plans::slot_text(seed).text);
            Box::new(Difference { seed, what, given, more })
        })?;
        self.tally.add(self.runs() - runs_before);
        Ok(())
    }

    fn counts(&self) -> &Counts {
        &self.counts
    }

    fn runs(&self) -> u64 {
        self.bytes.runs()
    }
}

impl<'a> SlotChecker<'a> {
    /// A checker that has checked nothing yet.
    pub fn new(table: &'a Table) -> SlotChecker<'a> {
        SlotChecker {
            table,
            counts: table.counts(),
            of_calls: table.counts(),
            tally: Tally::default(),
            bytes: Buffers::of_bytes(ROOMY),
        }
    }

    fn run(&mut self, seed: u64) -> Result<(), Fault> {
        let slot_text = plans::slot_text(seed);
        let seen = see(&RunSlotPlan(&slot_text.text), &mut self.bytes, seed)?;
        let end = match &slot_text.kind {
            SlotKind::Runs(plan) => Some(self.step_through(seed, plan)?),
            _ => None,
        };
        let sight = SlotSight::new(slot_text, seen, end);
        let met = self.table.meet_slot_text(&sight, &mut self.counts);
        met.map_err(|row| Fault { what: against_the_table(row), more: sight.seen.told() })
    }

    // Takes the steps one by one, each from the slots that the last left, and gives what they come to. The report of the first steps has to be theirs.
    fn step_through(&mut self, seed: u64, plan: &SlotPlan) -> Result<End, Fault> {
        let stop_after = scattered(seed) as usize % (plan.steps.len() + 1);
        let mut threads = Threads::new(plan.start.clone());
        let mut past = Past::new();
        let mut last = None;
        let mut results = Vec::new();
        for (index, slot_step) in plan.steps.iter().enumerate() {
            let before = Before { start: &plan.start, past: &past, index, last, threads: threads.clone() };
            let answer = threads.step(slot_step.slot, &slot_step.step);
            write_result(&mut results, answer.code, answer.value, answer.cause);
            let moment = SlotMoment::new(before, slot_step.clone(), answer, threads);
            self.meet(&moment).map_err(|what| Fault { what: against_the_table(&what), more: told(&moment) })?;
            past.follow(&moment);
            last = Some(answer);
            threads = moment.after;
            if index + 1 == stop_after {
                let expected = [results.as_slice(), &slots_in_use(&threads)].concat();
                self.expect_report(&plan.start, &plan.steps[..stop_after], &expected)?;
            }
        }
        let slots = slots_in_use(&threads);
        Ok(End { threads, results, slots })
    }

    // Holds a step against what is true of every step, against the rows of steps, and a call against those of calls too.
    fn meet(&mut self, moment: &SlotMoment) -> Result<(), String> {
        if let Some(fault) = fault_of_any_step(moment) {
            return Err(fault.to_string());
        }
        self.table.meet_slot_step(moment, &mut self.counts)?;
        let call = moment.held().zip(moment.after.held(moment.slot)).filter(|_| moment.alone.is_some());
        if let Some((before, after)) = call {
            let SlotAnswer { code, value, cause } = moment.answer;
            let answer = Answer { code, value, cause, after: after.clone() };
            let call = Moment::new(before.clone(), moment.step.clone(), answer);
            self.table.meet_call(&call, &mut self.of_calls)?;
        }
        Ok(())
    }

    // The proved library's report of the first steps has to be that.
    fn expect_report(&mut self, start: &second::Credentials, steps: &[SlotStep], expected: &[u8]) -> Result<(), Fault> {
        let mut text = Vec::new();
        write_sheet(&mut text, start);
        for step in steps {
            write_slot_step(&mut text, step);
        }
        let number = interface::run_slot_plan(&text, &mut self.bytes.proved);
        let report = &self.bytes.proved[..(number as usize).min(LONGEST_SLOT_REPORT)];
        if number != expected.len() as u64 || report != expected {
            let what = format!(
                "the report of the first {} steps is not that of the second program's, one by one",
                steps.len()
            );
            return Err(Fault { what, more: both((number, report), (expected.len() as u64, expected)) });
        }
        Ok(())
    }
}

// The end of a report: each slot in use and its sheet.
fn slots_in_use(threads: &Threads) -> Vec<u8> {
    let mut text = Vec::new();
    for (slot, held) in (0..SLOTS).filter_map(|slot| Some((slot, threads.held(slot)?))) {
        write_slot(&mut text, slot);
        write_sheet(&mut text, held);
    }
    text
}

// What is true of every step, where it is not.
fn fault_of_any_step(moment: &SlotMoment) -> Option<&'static str> {
    let SlotAnswer { code, value, cause } = moment.answer;
    let causes = if code == 1 { 1..=11 } else { 0..=0 };
    if code != 0 && (value != 0 || !moment.is_unchanged()) {
        return Some("a refused step has value 0 and changes no slot");
    }
    if !causes.contains(&cause) {
        return Some("refusal 1 has a cause from 1 to 11, and every other answer has 0");
    }
    let is_valid = |slot: u8| moment.after.held(slot).is_none_or(second::Credentials::is_valid);
    (!(0..SLOTS).all(is_valid)).then_some("what a slot in use holds is valid")
}

fn told(moment: &SlotMoment) -> String {
    let SlotMoment { index, slot, step, answer, .. } = moment;
    let held = moment.held();
    let after = moment.after.held(*slot);
    format!("step {}, in slot {slot}: {step:?}\nbefore: {held:?}\nanswer: {answer:?}\nafter: {after:?}\n", index + 1)
}

#[cfg(test)]
mod tests {
    use super::*;
    use second::Step;

    #[test]
    fn the_first_slot_plans_agree() {
        let table = Table::new();
        let mut checker = SlotChecker::new(&table);
        for seed in 0..400 {
            if let Err(difference) = checker.check(seed) {
                panic!("{}", difference.message());
            }
        }
        assert_eq!(checker.tally.inputs, 400);
        assert_eq!(checker.tally.runs, 5 * checker.tally.inputs);
        assert!(table.counted(&checker.counts).iter().filter(|(_, count)| *count > 0).count() > 500);
    }

    // Slot 1, which is free, is to exit; what if that came back, and the slots after it were those?
    fn fault_where_it_came_to(code: u32, value: u64, cause: u32, forks: usize) -> Option<&'static str> {
        let plans::SlotPlan { start, .. } = plans::measured_slots(1, 0, plans::MeasuredSlots::Forks);
        let (past, before) = (Past::new(), Threads::new(start.clone()));
        let step = |call: u8| Step { call, a: 0, b: 0, c: 0, attr: Vec::new() };
        let mut after = before.clone();
        (0..forks).for_each(|_| assert_eq!(after.step(0, &step(30)).code, 0));
        let before = Before { start: &start, past: &past, index: 0, last: None, threads: before };
        let slot_step = SlotStep { slot: 1, step: step(31) };
        fault_of_any_step(&SlotMoment::new(before, slot_step, SlotAnswer { code, value, cause }, after))
    }

    #[test]
    fn a_refused_step_changes_nothing_and_a_cause_comes_with_refusal_1_alone() {
        assert_eq!(fault_where_it_came_to(3, 0, 0, 0), None);
        let changes = Some("a refused step has value 0 and changes no slot");
        assert_eq!(fault_where_it_came_to(3, 1, 0, 0), changes);
        assert_eq!(fault_where_it_came_to(3, 0, 0, 1), changes);
        for (code, cause) in [(3, 1), (11, 1), (22, 12), (0, 1), (1, 0), (1, 12)] {
            let fault = fault_where_it_came_to(code, 0, cause, 0);
            assert!(fault.is_some_and(|fault| fault.contains("a cause from 1 to 11")), "{code}, {cause}");
        }
    }
}
