//! Runs generated plans through the proved library and the second program, and demands that they agree on code, line, length and every byte
//! of the buffer; and inputs for the readers and writers of sheets and attributes, and of names, status texts beside sheets, and slot plans, likewise.
//!
//! The first plan on which they differ is printed, or else the first input, or else the first text in names or sets to be written in names, or
//! else the first status text, or else the first slot plan, and the program ends with 1. So it does if a run of at least 20,000 did not reach every
//! branch of the rules. Wrong arguments end it with 2.

mod arguments;
mod branches;
mod buffers;
mod check;
mod difference;
mod stream;

use arguments::{Arguments, Part};
use branches::{Counts, Table};
use check::{
    Check, InputChecker, NamesChecker, PlanChecker, SlotChecker, StatusChecker, Tally, FUNCTIONS, NAME_FUNCTIONS,
};
use difference::Difference;
use std::process::ExitCode;
use std::sync::atomic::{AtomicU64, Ordering};
use std::thread;

/// With so many plans, inputs and slot plans, and the names and status texts of so many seeds, every branch has to be reached.
const ENOUGH: u64 = 20_000;

fn main() -> ExitCode {
    let arguments = match arguments::read(std::env::args().skip(1)) {
        Ok(arguments) => arguments,
        Err(fault) => {
            eprintln!("compare: {fault}\n{}", arguments::USAGE);
            return ExitCode::from(2);
        }
    };
    let succeeded = match &arguments.stream {
        Some(name) => write_stream(name, &arguments),
        None => compare(&arguments),
    };
    if succeeded {
        ExitCode::SUCCESS
    } else {
        ExitCode::FAILURE
    }
}

fn write_stream(name: &str, arguments: &Arguments) -> bool {
    match stream::write(name, arguments.seed, arguments.count) {
        Ok(written) => {
            println!("compare: {} texts written to {name}, {} bytes", written.texts, written.bytes);
            true
        }
        Err(fault) => {
            eprintln!("compare: {name}: {fault}");
            false
        }
    }
}

fn compare(arguments: &Arguments) -> bool {
    let table = Table::new();
    let mut counts = table.counts();
    let parts = Part::ALL.map(|(_, part)| part).into_iter().cycle();
    let mut parts = parts.skip_while(|part| *part != arguments.first).take(Part::ALL.len());
    parts.all(|part| compare_part(part, arguments, &table, &mut counts).is_some())
        && report_branches(arguments, &table, &counts)
}

// Compares one part, and says how much was compared; or prints the first difference and gives none.
fn compare_part(part: Part, arguments: &Arguments, table: &Table, counts: &mut Counts) -> Option<()> {
    match part {
        Part::Plans => {
            let plans = checked(arguments, counts, "plan", || PlanChecker::new(table))?;
            let runs: u64 = plans.iter().map(Check::runs).sum();
            println!(
                "compare: {} plans from seed {}, {runs} runs of each program: no difference",
                arguments.count, arguments.seed
            );
        }
        Part::Inputs => {
            let inputs = checked(arguments, counts, "input", || InputChecker::new(table))?;
            for (function, name) in FUNCTIONS.iter().enumerate() {
                report_agreement("inputs", name, inputs.iter().map(|checker| checker.tallies[function]));
            }
        }
        Part::Names => {
            let names = checked(arguments, counts, "names", || NamesChecker::new(table))?;
            for (function, (name, what)) in NAME_FUNCTIONS.iter().enumerate() {
                report_agreement(what, name, names.iter().map(|checker| checker.tallies[function]));
            }
        }
        Part::Status => {
            let status = checked(arguments, counts, "status", || StatusChecker::new(table))?;
            report_agreement("status texts", "compare_status", status.iter().map(|checker| checker.tally));
        }
        Part::Slots => {
            let slots = checked(arguments, counts, "slots", || SlotChecker::new(table))?;
            report_agreement("slot plans", "run_slot_plan", slots.iter().map(|checker| checker.tally));
        }
    }
    Some(())
}

// Says of one of the readers and writers how much it was asked, by all threads.
fn report_agreement(what: &str, name: &str, tallies: impl Iterator<Item = Tally>) {
    let (inputs, runs) = tallies.fold((0, 0), |(inputs, runs), tally| (inputs + tally.inputs, runs + tally.runs));
    println!("compare: {inputs} {what} for {name}, {runs} runs of each program: no difference");
}

// Checks as many seeds as are asked for, with a checker to each thread, and adds up what they reach. Gives the checkers; or prints the first
// difference and gives none.
fn checked<C: Check + Send>(
    arguments: &Arguments,
    counts: &mut Counts,
    what: &str,
    new: impl Fn() -> C + Sync,
) -> Option<Vec<C>> {
    let first_difference = AtomicU64::new(u64::MAX);
    let shares: Vec<Share<C>> = thread::scope(|scope| {
        let share = |thread| {
            let (new, first_difference) = (&new, &first_difference);
            scope.spawn(move || check_share(arguments, thread, new(), first_difference))
        };
        let threads: Vec<_> = (0..arguments.threads).map(share).collect();
        threads.into_iter().map(|thread| thread.join().expect("a thread that checks does not panic")).collect()
    });
    let differences = shares.iter().filter_map(|share| share.difference.as_ref());
    if let Some((number, difference)) = differences.min_by_key(|(number, _)| *number) {
        println!("{}compare: found by {what} {} of {}", difference.message(), number + 1, arguments.count);
        return None;
    }
    let checkers: Vec<C> = shares.into_iter().map(|share| share.checker).collect();
    for checker in &checkers {
        counts.add(checker.counts());
    }
    Some(checkers)
}

/// What one thread has found.
struct Share<C> {
    checker: C,
    /// The first at fault among its own, and its number.
    difference: Option<(u64, Box<Difference>)>,
}

// Checks every so many seeds, up to the first at fault. Threads stop only past a fault that was found, so the first of all is found.
fn check_share<C: Check>(arguments: &Arguments, thread: u64, mut checker: C, first_difference: &AtomicU64) -> Share<C> {
    let mut difference = None;
    let mut number = thread;
    while number < arguments.count.min(first_difference.load(Ordering::Relaxed)) {
        if let Err(found) = checker.check(arguments.seed.wrapping_add(number)) {
            first_difference.fetch_min(number, Ordering::Relaxed);
            difference = Some((number, found));
            break;
        }
        number += arguments.threads;
    }
    Share { checker, difference }
}

// Says which branches were reached. True if all were, or if the run was too short to ask for them.
fn report_branches(arguments: &Arguments, table: &Table, counts: &Counts) -> bool {
    let counted = table.counted(counts);
    if arguments.table {
        for (name, count) in &counted {
            println!("{count:>10}  {name}");
        }
    }
    let missed: Vec<&str> = counted.iter().filter(|(_, count)| *count == 0).map(|(name, _)| *name).collect();
    let reached = counted.len() - missed.len();
    if missed.is_empty() {
        let (name, count) = counted.iter().min_by_key(|(_, count)| *count).expect("the table has rows");
        println!("compare: all {reached} branches reached; the rarest {count} times: {name}");
        return true;
    }
    println!("compare: {reached} of {} branches reached", counted.len());
    if arguments.count < ENOUGH {
        return true;
    }
    for name in missed {
        println!("compare: not reached: {name}");
    }
    false
}
