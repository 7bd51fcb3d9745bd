//! Times two builds of the library on equal inputs, in turns.
//!
//! ```text
//! turns BEFORE AFTER [ROUNDS [WORK]]
//! ```
//!
//! BEFORE and AFTER are folders with `libcapi.so` and `libdigits.so`, which host/bench/turns makes. Each row of the table is one piece of work, done by
//! both builds in every round, one after the other and the other way round in the next; answers and every byte that was written are compared after each
//! round. Clearing and comparing are not timed. Where the rules of the calls changed between the two builds, well-formed plans may come to other results:
//! the row then says how many do. Any other difference ends the run. With WORK only the rows are run that have it in their names.

mod library;
mod work;

use library::Library;
use measured::times::{ratios, spread};
use std::path::PathBuf;
use std::process::ExitCode;
use std::time::Instant;
use work::{Output, Work};

/// How many rounds are run where none is asked for.
const ROUNDS: usize = 1001;

/// The nanoseconds that a build takes for one unit of the work.
fn time(work: &Work, library: &Library, output: &mut Output) -> f64 {
    let start = Instant::now();
    (work.run)(library, output);
    start.elapsed().as_nanos() as f64 / work.units as f64
}

/// A row of the table, or that the two builds differ.
fn measure(work: &Work, before: &Library, after: &Library, rounds: usize) -> Result<String, String> {
    let (mut old, mut new) = (work.output.clone(), work.output.clone());
    let (mut earlier, mut later) = (Vec::new(), Vec::new());
    let mut differing = 0;
    for round in 0..rounds + 1 {
        old.clone_from(&work.output);
        new.clone_from(&work.output);
        let (a, b) = if round % 2 == 0 {
            let a = time(work, before, &mut old);
            (a, time(work, after, &mut new))
        } else {
            let b = time(work, after, &mut new);
            (time(work, before, &mut old), b)
        };
        let in_this_round = old.differing(&new);
        if in_this_round > 0 && !work.makes_calls || round > 0 && in_this_round != differing {
            return Err(format!("{}: the two builds differ", work.name));
        }
        differing = in_this_round;
        if new == work.output {
            return Err(format!("{}: nothing was done", work.name));
        }
        // The first round only fills the caches.
        if round > 0 {
            earlier.push(a);
            later.push(b);
        }
    }
    let digits = if work.units > 1000 { 1 } else { 0 };
    let ratio = spread(&ratios(&earlier, &later), 2);
    let other_results =
        if differing > 0 { format!(", {differing} of {} to other results", work.units) } else { String::new() };
    Ok(format!(
        "| {}{other_results} | {} | {} | {ratio} |",
        work.name,
        spread(&earlier, digits),
        spread(&later, digits)
    ))
}

fn run(arguments: &[String]) -> Result<(), String> {
    let usage = || "usage: turns BEFORE AFTER [ROUNDS [WORK]]".to_string();
    let [before, after, rest @ ..] = arguments else {
        return Err(usage());
    };
    let (rounds, wanted) = match rest {
        [] => (ROUNDS, ""),
        [rounds, wanted @ ..] if wanted.len() < 2 => {
            let rounds = rounds.parse().ok().filter(|&rounds| rounds > 0).ok_or_else(usage)?;
            (rounds, wanted.first().map_or("", String::as_str))
        }
        _ => return Err(usage()),
    };
    let before = Library::open(&PathBuf::from(before))?;
    let after = Library::open(&PathBuf::from(after))?;
    println!("{rounds} rounds; medians, with the first and third quartile of the rounds in brackets\n");
    println!("| work | ns before | ns after | before/after |\n|---|---|---|---|");
    for work in work::all().iter().filter(|work| work.name.contains(wanted)) {
        println!("{}", measure(work, &before, &after, rounds)?);
    }
    Ok(())
}

fn main() -> ExitCode {
    let arguments: Vec<String> = std::env::args().skip(1).collect();
    match run(&arguments) {
        Ok(()) => ExitCode::SUCCESS,
        Err(message) => {
            eprintln!("turns: {message}");
            ExitCode::from(2)
        }
    }
}
