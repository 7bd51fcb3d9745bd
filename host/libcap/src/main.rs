//! Lays what libcap reads and writes in names beside what the proved library does. Every difference has a name, or the run fails.
//!
//!     libcap [--count N] [--seed N] [--verbose] [--without DEPARTURE]
//!
//! For each of N seeds: a text as the comparison with the second program has them, well-formed or broken; a text of the forms that libcap takes
//! besides; what libcap writes of three sets, and what the library writes of them. `--verbose` names every difference; `--without` takes a departure
//! away, so that the run has to fail. Status 1: a text is not explained, a known departure was never seen. Status 2: it cannot be run here.

mod comparison;
mod model;
mod tally;

use comparison::{Asked, Comparison, Fault, Verdict};
use departures::Options;
use libcap::{Libcap, OBJECT};
use model::{Departure, Switches};
use plans::CAPABILITY_NAMES;
use std::env;
use std::process::ExitCode;
use tally::Tally;

const USAGE: &str = "libcap [--count N] [--seed N] [--verbose] [--without DEPARTURE]";

/// How many seeds are run where no number is given.
const COUNT: u64 = 100_000;

/// Faults are printed up to this many, and then only counted.
const PRINTED: u64 = 5;

fn main() -> ExitCode {
    let told = Options::read(env::args().skip(1), COUNT);
    let Some((options, known)) =
        told.and_then(|options| Switches::all_but(&options.without).map(|known| (options, known)))
    else {
        eprintln!("{USAGE}");
        return ExitCode::from(2);
    };
    let libcap = match Libcap::load() {
        Ok(libcap) => libcap,
        Err(error) => {
            eprintln!("libcap: this comparison needs {}, which cannot be loaded: {error}", OBJECT.to_string_lossy());
            return ExitCode::from(2);
        }
    };
    let capabilities = libcap.capabilities();
    if capabilities as usize != CAPABILITY_NAMES.len() {
        eprintln!("libcap: here it has {capabilities} capabilities, and not {}", CAPABILITY_NAMES.len());
        return ExitCode::from(2);
    }
    let tally = run(&options, Comparison::new(libcap, known));
    print!("{tally}");
    let never_seen: Vec<&str> = tally.never_seen().collect();
    never_seen.iter().for_each(|name| println!("FAILED: {name} was never seen"));
    ExitCode::from(u8::from(tally.unexplained() != 0 || !never_seen.is_empty()))
}

fn run(options: &Options, comparison: Comparison) -> Tally {
    let mut tally = Tally::default();
    for number in 0..options.count {
        let seed = options.seed.wrapping_add(number);
        for asked in comparison.asked(seed) {
            let verdict = comparison.compare(&asked);
            match &verdict {
                Ok(Verdict::Explained(switches)) if options.verbose => {
                    let names: Vec<&str> = switches.departures().map(Departure::name).collect();
                    println!("seed {seed}: {}: {}", asked.text.escape_ascii(), names.join(", "));
                }
                Err(fault) if tally.unexplained() < PRINTED => print_fault(seed, &asked, fault),
                _ => {}
            }
            tally.add(&asked, &verdict);
        }
    }
    tally
}

fn print_fault(seed: u64, asked: &Asked, fault: &Fault) {
    println!("FAILED: seed {seed}: {}: {}", asked.source.name(), fault.what);
    println!("text: {}", asked.text.escape_ascii());
    for (name, sets) in &fault.readings {
        match sets {
            Some([permitted, inheritable, effective]) => {
                println!("{name}: permitted {permitted:x}, inheritable {inheritable:x}, effective {effective:x}");
            }
            None => println!("{name}: refused"),
        }
    }
    println!();
}
