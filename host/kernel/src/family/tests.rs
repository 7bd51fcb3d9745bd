//! Families without a machine: with every switch off the model of the table is the proved library; and what the model says of the kernel, handed over
//! as if it had been observed, compares as it should, right and wrong.

use super::comparison::{compare, FamilyComparison};
use super::planted::{self, witness};
use super::prediction::{report, SlotReport};
use super::table::{perform, Table, TableOutcome};
use super::{fixed, parse, SlotPlan, SlotStep, SLOTS};
use crate::comparison::{Fault, Verdict};
use crate::credentials::{Credentials, FULL};
use crate::departures::{Switches, ALL};
use crate::generator::Generator;
use crate::harness::{FamilyObservation, FamilySeen};
use crate::image::Image;
use crate::random::Random;
use crate::step::*;
use crate::tests::status_file;

const PLANS: u64 = 3_000;

fn for_each_plan(seed: u64, mut look: impl FnMut(SlotPlan)) {
    let image = Image::new([].iter());
    let mut generator = Generator { random: Random::new(seed), image: &image, permitted: FULL, bounding: FULL };
    (0..PLANS).for_each(|number| look(generator.slot_plan(format!("slot plan {number}"))));
    fixed::all().into_iter().for_each(look);
}

fn seen(outcome: TableOutcome) -> FamilySeen {
    let statuses = outcome.after.0.iter().map(|(&slot, thread)| (slot, status_file(&thread.credentials).into_bytes()));
    FamilySeen { statuses: statuses.collect(), outcome }
}

// What the model says of the kernel, as if it had been observed.
fn observe(plan: &SlotPlan) -> FamilyObservation {
    let mut before = Table::new(plan.start);
    let start = seen(TableOutcome { code: 0, value: 0, after: before.clone() });
    let mut steps = Vec::new();
    for step in &plan.steps {
        let outcome = step.not_asked(&before).is_none().then(|| perform(Switches::EVERY, &before, step));
        before = outcome.as_ref().map_or(before, |outcome| outcome.after.clone());
        steps.push(outcome.map(seen));
    }
    FamilyObservation { start, steps }
}

fn compared(plan: &SlotPlan, seen: &FamilyObservation) -> Result<FamilyComparison, Fault> {
    compare(Switches::EVERY, &report, plan, seen)
}

#[test]
fn with_every_switch_off_the_table_is_the_library() {
    for_each_plan(11, |plan| {
        let (mut table, mut results) = (Table::new(plan.start), Vec::new());
        for step in &plan.steps {
            let outcome = perform(Switches::NONE, &table, step);
            results.push((outcome.code, outcome.value));
            table = outcome.after;
        }
        let slots = table.0.iter().map(|(&slot, thread)| (slot, thread.credentials)).collect();
        assert_eq!(report(&plan.start.credentials, &plan.steps), SlotReport { results, slots }, "{plan:x?}");
    });
}

#[test]
fn what_the_model_says_of_the_kernel_is_explained() {
    let mut departures = [false; ALL.len()];
    for_each_plan(12, |mut plan| {
        plan.steps.retain(|step| step.not_run().is_none());
        let comparison = compared(&plan, &observe(&plan)).unwrap_or_else(|fault| panic!("{plan:x?}\n{fault:?}"));
        for verdict in comparison.verdicts {
            if let Ok(Verdict::Explained(switches)) = verdict {
                switches.departures().for_each(|departure| departures[departure as usize] = true);
            }
        }
    });
    for departure in ALL {
        assert!(departures[departure as usize], "{}", departure.name());
    }
}

#[test]
fn planted_wrong_predictions_are_caught() {
    let (plan, observed) = (witness(), observe(&witness()));
    let comparison = compared(&plan, &observed).expect("the library's own prediction stands");
    assert!(comparison.verdicts.iter().all(|&verdict| verdict == Ok(Verdict::Agreed)));
    assert_eq!(comparison.parted, 0);
    assert_eq!(planted::missed(Switches::EVERY, &plan, &observed), [""; 0]);
}

fn credentials(outcome: &mut TableOutcome, slot: usize) -> &mut Credentials {
    &mut outcome.after.0.get_mut(&slot).expect("the slot is in use").credentials
}

#[test]
fn what_no_kernel_may_do_is_caught() {
    let spoil: [(usize, fn(&mut TableOutcome)); 6] = [
        (0, |outcome| credentials(outcome, 1).ambient = 0),
        (0, |outcome| credentials(outcome, 1).nnp = false),
        (1, |outcome| outcome.value = 95),
        (2, |outcome| credentials(outcome, 0).ambient = 0),
        (3, |outcome| outcome.after.0.retain(|&slot, _| slot != 2)),
        (4, |outcome| outcome.code = 1),
    ];
    for (number, (place, spoil)) in spoil.into_iter().enumerate() {
        let mut observed = observe(&witness());
        let mut outcome = observed.steps[place].take().expect("every step is asked").outcome;
        spoil(&mut outcome);
        observed.steps[place] = Some(seen(outcome));
        let fault = compared(&witness(), &observed).expect_err("a wrong kernel");
        assert_eq!((fault.what, fault.place), ("what the kernel did is not explained", Some(place)), "{number}");
    }
}

#[test]
fn a_step_that_no_thread_can_make_is_not_asked() {
    let mut plan = witness();
    plan.steps = vec![SlotStep::fork(7), SlotStep::new(96, Step::new(99)), SlotStep::exit(0), SlotStep::fork(0)];
    let mut observed = observe(&plan);
    let verdicts = compared(&plan, &observed).expect("nothing differs").verdicts;
    let asked: Vec<bool> = verdicts.iter().map(Result::is_ok).collect();
    assert_eq!(asked, [false, false, true, false]);
    observed.steps[0] = Some(seen(perform(Switches::EVERY, &Table::new(plan.start), &plan.steps[0])));
    let fault = compared(&plan, &observed).expect_err("a thread in a free slot");
    assert_eq!((fault.what, fault.place), ("the harness has a thread where none is, or none where one is", Some(0)));
}

// A thread that met a departure, its child, and the slot that either leaves to another's child.
#[test]
fn a_difference_stays_in_its_slot() {
    let departs = Step::with(SET_SECUREBITS, 0x100, 0, 0);
    let mut plan = witness();
    plan.steps = vec![
        SlotStep::fork(0),
        SlotStep::new(1, departs),
        SlotStep::fork(1),
        SlotStep::new(0, Step::new(AMBIENT_CLEAR)),
        SlotStep::exit(1),
        SlotStep::fork(0),
    ];
    let comparison = compared(&plan, &observe(&plan)).expect("the difference is explained");
    // As predicted are slots 0 and 1, 0, 0, 0, 0, 0 and 1; the others are 1, 1 and 2, 1 and 2, 2, 2.
    assert_eq!((comparison.predicted, comparison.parted), (8, 7));
}

#[test]
fn refusals_have_the_papers_order() {
    let thread = witness().start;
    let full = Table((0..SLOTS).map(|slot| (slot, thread)).collect());
    let attached = Step { attribute: vec![0], ..Step::new(FORK) };
    let spoilt = |call: u32| Step::with(call, 0, 0, 1);
    for (table, slot, step, code) in [
        (Table::default(), 96, Step::new(FORK), 22),
        (Table::default(), 95, Step::new(FORK), 3),
        (Table::default(), 0, spoilt(EXIT), 3),
        (Table::default(), 0, Step::new(99), 3),
        (full.clone(), 95, spoilt(FORK), 22),
        (full.clone(), 95, attached, 22),
        (full.clone(), 95, spoilt(EXIT), 22),
        (full.clone(), 95, Step::new(99), 22),
        (full.clone(), 95, Step::new(FORK), 11),
    ] {
        let step = SlotStep::new(slot, step);
        let refused = TableOutcome { code, value: 0, after: table.clone() };
        assert_eq!(perform(Switches::NONE, &table, &step), refused, "{step:?}");
    }
    let freed = perform(Switches::NONE, &full, &SlotStep::exit(95));
    assert_eq!((freed.code, freed.value, freed.after.lowest_free()), (0, 0, Some(95)));
    let forked = perform(Switches::NONE, &freed.after, &SlotStep::fork(0));
    assert_eq!((forked.code, forked.value, forked.after), (0, 95, full));
}

#[test]
fn a_slot_plan_reads_back() {
    for_each_plan(13, |plan| {
        let steps: String = plan.steps.iter().map(SlotStep::lines).collect();
        let text = plan.start.credentials.sheet() + &steps;
        let (start, steps) = parse(&text).expect("it is a slot plan");
        assert_eq!(start, plan.start.credentials);
        assert!(steps.iter().map(SlotStep::lines).eq(plan.steps.iter().map(SlotStep::lines)), "{text}");
        assert_eq!(parse(&text[1..]), None);
    });
}

// The first thread, and the others once their parents have exited.
#[test]
fn a_child_of_the_harness_asks_to_be_traced() {
    let launch = |slot: usize| SlotStep::new(slot, Step::launch(0, TRACED, &[]));
    let mut plan = witness();
    plan.steps = vec![launch(0), SlotStep::fork(0), SlotStep::fork(1), launch(0), launch(1), launch(2)];
    plan.steps.extend([SlotStep::exit(0), launch(1), launch(2), SlotStep::fork(2), launch(0)]);
    plan.steps.extend([SlotStep::exit(1), launch(2), launch(0), SlotStep::exit(2), launch(0)]);
    plan.seize();
    let launches = plan.steps.iter().filter(|step| step.step.call == EXECVE);
    let asks: Vec<bool> = launches.map(|step| step.step.setting.tracer == Tracer::Asked).collect();
    assert_eq!(asks, [true, true, false, false, true, false, false, true, false, true]);
}
