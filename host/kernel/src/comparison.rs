//! Lays what the kernel did beside what the proved library says, step by step, and names every difference.

use crate::calls::perform;
use crate::credentials::{Credentials, Outcome, Thread};
use crate::departures::Switches;
use crate::harness::{Observation, Seen};
use crate::prediction;
use crate::status::{self, LAST_LINE};
use crate::step::{Plan, Step};

/// How one step compares.
#[derive(Clone, Copy, Debug, PartialEq, Eq)]
pub enum Verdict {
    /// The kernel did what the library says.
    Agreed,
    /// It did something else, and these departures say exactly what.
    Explained(Switches),
    /// The step begins with securebits above ff, which no sheet can say.
    NoSheet,
}

/// How a plan compares.
#[derive(Debug, PartialEq, Eq)]
pub struct Comparison {
    /// The verdict on each step.
    pub verdicts: Vec<Verdict>,
    /// How many status files were read, and how many of them list something beside the library's prediction.
    pub statuses: u64,
    pub listing: u64,
}

/// What is wrong: the run fails. The outcomes, in words, are those that should be the same, and so are the lists.
#[derive(Debug)]
pub struct Fault {
    pub what: &'static str,
    pub place: Option<usize>,
    pub outcomes: Vec<(String, String)>,
    pub lists: Vec<(&'static str, String)>,
}

impl Fault {
    /// Says what is wrong, and what shows it.
    pub fn new(what: &'static str, outcomes: Vec<(String, String)>) -> Fault {
        Fault { what, place: None, outcomes, lists: Vec::new() }
    }

    fn of_thread(what: &'static str, outcomes: &[(&str, Option<Outcome>)]) -> Fault {
        let said = outcomes.iter().filter_map(|(name, outcome)| Some((name, outcome.as_ref()?)));
        Fault::new(what, said.map(|(name, outcome)| (name.to_string(), format!("{outcome:x?}"))).collect())
    }
}

/// The verdict on each step, and whether the library's run of the whole plan is the kernel's up to the first difference, as it has to be. `known` are
/// the departures that may explain a difference.
pub fn compare(known: Switches, plan: &Plan, seen: &Observation) -> Result<Comparison, Fault> {
    let Seen { outcome: start, status } = &seen.start;
    if start.after != plan.start {
        return Err(Fault::of_thread("the thread could not be put into the start", &[("kernel", Some(*start))]));
    }
    lists(&plan.start.credentials, status, LAST_LINE)?;
    let mut before = &start.after;
    let mut comparison = Comparison { verdicts: Vec::with_capacity(plan.steps.len()), statuses: 1, listing: 0 };
    for (place, (step, observed)) in plan.steps.iter().zip(&seen.outcomes).enumerate() {
        let (verdict, is_listing) =
            compare_step(known, before, step, observed).map_err(|fault| Fault { place: Some(place), ..fault })?;
        comparison.verdicts.push(verdict);
        comparison.statuses += 1;
        comparison.listing += u64::from(is_listing);
        before = &observed.outcome.after;
    }
    whole(plan, seen, &comparison.verdicts)?;
    Ok(comparison)
}

/// The library's list of the status file beside the credentials has to be this one.
pub fn lists(predicted: &Credentials, status: &[u8], expected: &str) -> Result<(), Fault> {
    let list = status::list(predicted, status);
    if list == expected {
        return Ok(());
    }
    let what = "the library does not list just what differs in the status file";
    let lists = vec![
        ("listed", list),
        ("expected", expected.to_owned()),
        ("beside", predicted.sheet()),
        ("status file", String::from_utf8_lossy(status).into_owned()),
    ];
    Err(Fault { lists, ..Fault::new(what, Vec::new()) })
}

// The library is asked about the state that was observed before the step, so that a departure does not follow the plan around. The status file lists
// nothing beside what the model says of the kernel, and beside what the library says just where the two part; whether it does so is told with the
// verdict.
fn compare_step(known: Switches, before: &Thread, step: &Step, seen: &Seen) -> Result<(Verdict, bool), Fault> {
    let Seen { outcome: observed, status } = seen;
    let library = before.credentials.has_sheet().then(|| prediction::outcome(before, step));
    let fault = |what, model| {
        let outcomes = [("library", library), ("kernel", Some(*observed)), ("model", Some(model))];
        Err(Fault::of_thread(what, &outcomes))
    };
    let kernel = perform(known, before, step);
    if kernel != *observed {
        return fault("what the kernel did is not explained", kernel);
    }
    lists(&kernel.after.credentials, status, LAST_LINE)?;
    let Some(library) = library else { return Ok((Verdict::NoSheet, false)) };
    let paper = perform(Switches::NONE, before, step);
    if !paper.agrees(&library) {
        return fault("the model with every switch off is not what the library says", paper);
    }
    if observed.agrees(&library) {
        lists(&library.after.credentials, status, LAST_LINE)?;
        return Ok((Verdict::Agreed, false));
    }
    let expected = status::expected(&library.after.credentials, &kernel.after.credentials);
    lists(&library.after.credentials, status, &expected)?;
    let fewest = known.fewest(|fewer| perform(fewer, before, step).agrees(observed));
    Ok((Verdict::Explained(fewest), expected != LAST_LINE))
}

fn whole(plan: &Plan, seen: &Observation, verdicts: &[Verdict]) -> Result<(), Fault> {
    let agreed = verdicts.iter().take_while(|&&verdict| verdict == Verdict::Agreed).count();
    let report = prediction::report(&plan.start.credentials, &plan.steps[..agreed]);
    let outcomes = &seen.outcomes[..agreed];
    let results: Vec<(u32, u64)> = outcomes.iter().map(|seen| (seen.outcome.code, seen.outcome.value)).collect();
    let last = outcomes.last().unwrap_or(&seen.start).outcome.after.credentials;
    if report == (prediction::Report { results, last }) {
        return Ok(());
    }
    Err(Fault::new("the library's run of the whole plan is not what its steps come to", Vec::new()))
}
