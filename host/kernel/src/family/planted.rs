//! Wrong predictions, planted so that the comparison can be seen to catch them: what the library says of a slot plan, bent in one point.

use super::comparison::compare;
use super::prediction::{report, SlotReport};
use super::{SlotPlan, SlotStep, SLOTS};
use crate::credentials::{Credentials, Ids, Thread};
use crate::departures::Switches;
use crate::harness::FamilyObservation;
use crate::step::{Step, AMBIENT_CLEAR, EXIT, FORK, SETUID};

/// Bends what is said of the last step.
pub type Bend = fn(&SlotStep, &mut SlotReport);

/// The wrong predictions, by what they get wrong.
pub const PLANTED: [(&str, Bend); 9] = [
    ("a child without no-new-privs", |step, report| child(step, report, |child| child.nnp = false)),
    ("a child without its ambient set", |step, report| child(step, report, |child| child.ambient = 0)),
    ("a child in another group", |step, report| child(step, report, |child| child.gids.saved += 1)),
    ("a fork into the highest free slot", fork_into_highest),
    ("an exit that leaves the thread", exit_of_none),
    ("an exit that frees the next slot", exit_of_next),
    ("a call that changes another slot", call_beside),
    ("a call that runs in slot 0", call_in_slot_0),
    ("a call of another code", call_of_another_code),
];

/// A slot plan on which each of them shows.
pub fn witness() -> SlotPlan {
    let net_raw = 1 << 13;
    let credentials = Credentials {
        uids: Ids::all(0),
        gids: Ids::all(100),
        permitted: net_raw,
        inheritable: net_raw,
        effective: net_raw,
        bounding: net_raw,
        ambient: net_raw,
        securebits: 0,
        nnp: true,
    };
    let steps = vec![
        SlotStep::fork(0),
        SlotStep::fork(1),
        SlotStep::new(1, Step::new(AMBIENT_CLEAR)),
        SlotStep::exit(1),
        SlotStep::new(2, Step::with(SETUID, 0, 0, 0)),
    ];
    let start = Thread { credentials, member: None };
    SlotPlan { name: "planted wrong predictions".to_owned(), start, steps }
}

// What the library says, bent where there are at least so many steps.
fn wrong(bend: Bend, least: usize, start: &Credentials, steps: &[SlotStep]) -> SlotReport {
    let mut report = report(start, steps);
    steps.last().filter(|_| steps.len() >= least).into_iter().for_each(|step| bend(step, &mut report));
    report
}

/// The wrong predictions that are not caught: by the steps one by one, and by the run of the whole slot plan, which alone asks for more than one step.
pub fn missed(known: Switches, plan: &SlotPlan, seen: &FamilyObservation) -> Vec<&'static str> {
    let is_missed = |bend: Bend, least: usize| {
        compare(known, &|start: &Credentials, steps: &[SlotStep]| wrong(bend, least, start, steps), plan, seen).is_ok()
    };
    let missed = PLANTED.iter().filter(|(_, bend)| is_missed(*bend, 1) || is_missed(*bend, 2));
    missed.map(|(name, _)| *name).collect()
}

// The child of a fork that is done.
fn child(step: &SlotStep, report: &mut SlotReport, change: impl Fn(&mut Credentials)) {
    if let (FORK, Some(&(0, slot))) = (step.step.call, report.results.last()) {
        report.slots.entry(slot as usize).and_modify(change);
    }
}

fn fork_into_highest(step: &SlotStep, report: &mut SlotReport) {
    if let (FORK, Some((0, slot))) = (step.step.call, report.results.last_mut()) {
        let child = report.slots.remove(&(*slot as usize));
        *slot = SLOTS as u64 - 1;
        report.slots.extend(child.map(|child| (SLOTS - 1, child)));
    }
}

fn exit_of_none(step: &SlotStep, report: &mut SlotReport) {
    if step.step.call == EXIT {
        let other = report.slots.values().next().copied();
        report.slots.extend(other.map(|other| (step.slot, other)));
    }
}

fn exit_of_next(step: &SlotStep, report: &mut SlotReport) {
    if step.step.call == EXIT {
        exit_of_none(step, report);
        report.slots.remove(&(step.slot + 1));
    }
}

fn call_beside(step: &SlotStep, report: &mut SlotReport) {
    if !matches!(step.step.call, FORK | EXIT) {
        let other = report.slots.iter_mut().find(|(&slot, _)| slot != step.slot);
        other.into_iter().for_each(|(_, other)| other.ambient = 0);
    }
}

// Of the last step alone, so that nothing else tells it.
fn call_of_another_code(step: &SlotStep, report: &mut SlotReport) {
    let last = report.results.last_mut().filter(|_| step.step.call == SETUID);
    last.into_iter().for_each(|(code, _)| *code ^= 1);
}

// The two threads were alike before the call.
fn call_in_slot_0(step: &SlotStep, report: &mut SlotReport) {
    if step.step.call == AMBIENT_CLEAR {
        let changed = report.slots.insert(step.slot, report.slots[&0]);
        report.slots.extend(changed.map(|changed| (0, changed)));
    }
}
