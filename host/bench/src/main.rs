//! Times the proved library and the second program on equal plans and slot plans, side by side; these two and libcap on equal texts in names; and
//! these two on equal status texts.
//!
//! ```text
//! bench [ROUNDS]
//! ```
//!
//! For each number of steps there is a batch of different plans, well-formed ones and ones with a byte changed. A round runs both programs over the
//! batch, each plan into a buffer of its own that was cleared before, and then compares every answer and every byte of every buffer. Clearing and
//! comparing are not timed. Rounds of the two programs alternate, so that both see the same phases of the machine's clock. Slot plans likewise; besides,
//! the calls of plans are timed beside the same calls in slot 0 of slot plans. Texts in names and status texts have a fifth of the rounds; libcap is left
//! out where the system has none, and on texts that it does not read as the others do.

mod figures;
mod names;
mod runs;
mod slots;
mod status;

use figures::Figures;
use libcap::Libcap;
use measured::batch::{Batch, Kind, STEPS};
use std::process::ExitCode;

/// How many rounds are run where none is asked for.
const ROUNDS: usize = 101;

/// Of so many rounds one is run on texts in names and status texts, which take longer.
const PLANS_A_TEXT: usize = 5;

fn main() -> ExitCode {
    let rounds = match std::env::args().nth(1).map(|n| n.parse::<usize>()) {
        None => ROUNDS,
        Some(Ok(n)) if n > 0 => n,
        Some(_) => {
            eprintln!("usage: bench [ROUNDS]");
            return ExitCode::from(2);
        }
    };
    println!("{rounds} rounds; times are medians, with the first and third quartile of the rounds in brackets\n");
    let fewer = rounds.div_ceil(PLANS_A_TEXT);
    match plans(rounds).and_then(|()| slots(rounds)).and_then(|()| names(fewer)).and_then(|()| status(fewer)) {
        Ok(()) => ExitCode::SUCCESS,
        Err(difference) => {
            println!("{difference}");
            ExitCode::FAILURE
        }
    }
}

// Prints the table of plans, or gives the difference that was found.
fn plans(rounds: usize) -> Result<(), String> {
    println!("{}", Figures::HEADING);
    for kind in [Kind::WellFormed, Kind::Broken] {
        for steps in STEPS {
            let batch = Batch::new(kind, steps);
            println!("{}", Figures::of(&batch, rounds)?);
        }
    }
    Ok(())
}

// The same for slot plans, and for plans beside slot plans of the same calls.
fn slots(rounds: usize) -> Result<(), String> {
    println!("\n{rounds} rounds\n\n{}", slots::HEADING);
    slots::rows(rounds)?.iter().for_each(|row| println!("{row}"));
    println!("\n{rounds} rounds\n\n{}", slots::HEADING_BESIDE_PLANS);
    slots::rows_beside_plans(rounds)?.iter().for_each(|row| println!("{row}"));
    Ok(())
}

// The same for texts in names.
fn names(rounds: usize) -> Result<(), String> {
    let libcap = Libcap::load();
    if let Err(error) = &libcap {
        println!("\nwithout libcap: {error}");
    }
    println!("\n{rounds} rounds\n\n{}", names::HEADING);
    names::rows(libcap.as_ref().ok(), rounds)?.iter().for_each(|row| println!("{row}"));
    Ok(())
}

// The same for status texts.
fn status(rounds: usize) -> Result<(), String> {
    println!("\n{rounds} rounds\n\n{}", status::HEADING);
    status::rows(rounds)?.iter().for_each(|row| println!("{row}"));
    Ok(())
}
