//! Runs plans and slot plans on the kernel and lays what it did beside what the proved library says. Every difference has a name, or the run fails.
//!
//!     kernel HARNESS EXAMPLES [--count N] [--seed N] [--verbose] [--without DEPARTURE]
//!
//! HARNESS is the C program of `harness/`, EXAMPLES a directory of plans and slot plans. Needs root. N random plans are run, and as many slot plans.
//! `--verbose` names every difference; `--without` takes a departure away, so that the run has to fail. Status 1: a step is not explained, a known
//! departure was never seen, a planted wrong prediction was not caught, or something is left on the machine. Status 2: it cannot be run here.

mod attribute;
mod calls;
mod comparison;
mod credentials;
mod departures;
mod family;
mod fixed;
mod generator;
mod harness;
mod id_calls;
mod image;
mod launching;
mod prediction;
mod random;
mod remains;
mod runner;
mod status;
mod step;
mod tally;
#[cfg(test)]
mod tests;
mod witnesses;

use ::departures::Options;
use departures::Switches;
use family::tally::FamilyTally;
use family::{planted, SlotPlan};
use fixed::Examples;
use generator::Generator;
use harness::Harness;
use image::Image;
use random::Random;
use remains::remains;
use runner::Runner;
use step::{Plan, Step};
use tally::Tally;
use witnesses::witnesses;

use std::path::Path;
use std::process::{self, ExitCode};
use std::{env, fs, io};

const USAGE: &str = "kernel HARNESS EXAMPLES [--count N] [--seed N] [--verbose] [--without DEPARTURE]";

/// How many random plans are run where no number is given, and as many slot plans.
const COUNT: u64 = 5000;

struct Told {
    harness: String,
    examples: String,
    options: Options,
    known: Switches,
}

fn told() -> Option<Told> {
    let mut arguments = env::args().skip(1);
    let (harness, examples) = (arguments.next()?, arguments.next()?);
    let options = Options::read(arguments, COUNT)?;
    let known = Switches::all_but(&options.without)?;
    Some(Told { harness, examples, options, known })
}

// A line of /proc/sys/kernel.
fn about(name: &str) -> String {
    fs::read_to_string(Path::new("/proc/sys/kernel").join(name)).unwrap_or_default().trim().to_owned()
}

fn main() -> ExitCode {
    let Some(told) = told() else {
        eprintln!("{USAGE}");
        return ExitCode::from(2);
    };
    if about("cap_last_cap") != credentials::CAP_LAST_CAP.to_string() {
        eprintln!(
            "kernel: the last capability of this kernel is {}, and not {}",
            about("cap_last_cap"),
            credentials::CAP_LAST_CAP
        );
        return ExitCode::from(2);
    }
    let tag = format!("urrezkalu-kernel-{}", process::id());
    let (plans, families) = match run(&told, &tag) {
        Ok(tallies) => tallies,
        Err(error) => {
            eprintln!("kernel: {error}");
            return ExitCode::from(2);
        }
    };
    println!("{plans}\n\n{families}");
    let remains = remains(&tag);
    println!("left behind: {}", if remains.is_empty() { "nothing".to_owned() } else { remains.join(", ") });
    let never_seen =
        |tally: &Tally, of: &str| tally.never_seen().map(|name| format!("{name} was never seen in {of}")).collect();
    let mut failed: Vec<String> = never_seen(&plans, "a plan");
    failed.extend(never_seen(&families.counts, "a slot plan"));
    failed.extend(families.missed.iter().map(|name| format!("{name}, planted as a prediction, was not caught")));
    failed.iter().for_each(|what| println!("FAILED: {what}"));
    let unexplained = plans.unexplained + families.counts.unexplained;
    ExitCode::from(u8::from(unexplained != 0 || !failed.is_empty() || !remains.is_empty()))
}

// The plans and the slot plans that are run whatever the seed, and how many examples are neither.
fn fixed_lists(directory: &Path) -> io::Result<(Vec<Plan>, Vec<SlotPlan>, usize)> {
    let Examples { plans, slot_plans, neither } = Examples::read(directory)?;
    let lists = [
        fixed::cases(),
        fixed::points(),
        witnesses(),
        fixed::securebits(),
        fixed::id_calls(),
        fixed::owners(),
        fixed::groups(),
        plans,
    ];
    let mut families: Vec<SlotPlan> = family::fixed::all().into_iter().chain(slot_plans).collect();
    families.iter_mut().for_each(SlotPlan::seize);
    Ok((lists.into_iter().flatten().collect(), families, neither))
}

/// Runs the fixed plans and then the random ones, then the slot plans likewise, and counts them.
fn run(told: &Told, tag: &str) -> io::Result<(Tally, FamilyTally)> {
    let (mut fixed, mut families, neither) = fixed_lists(Path::new(&told.examples))?;
    let harness = Harness::new(&told.harness, tag)?;
    let (permitted, bounding) = (harness.permitted, harness.bounding);
    let Options { count, seed, verbose, .. } = told.options;
    println!("Linux {}, permitted {permitted:016x}, bounding {bounding:016x}", about("osrelease"));
    println!("{} fixed plans, {count} random plans of seed {seed}", fixed.len());
    println!("{} fixed slot plans, {count} random slot plans of seed {seed}\n", families.len());
    let mut runner =
        Runner { harness, known: told.known, verbose, plans: Tally::default(), families: FamilyTally::default() };
    (0..neither).for_each(|_| runner.plans.not_run("an example that is no plan or has no valid start"));
    let image = Image::new(steps(&mut fixed, &mut families).map(|step| &*step));
    runner.harness.make_image(&image)?;
    steps(&mut fixed, &mut families).for_each(|step| image.furnish(step));

    for mut plan in fixed {
        runner.plans.starts_cut += u64::from(fixed::fit(&mut plan.start.credentials, permitted, bounding));
        runner.plan(plan)?;
    }
    let mut generator = Generator { random: Random::new(seed), image: &image, permitted, bounding };
    for number in 0..count {
        runner.plan(generator.plan(format!("seed {seed}, plan {number}")))?;
    }
    for mut plan in families {
        runner.families.counts.starts_cut += u64::from(fixed::fit(&mut plan.start.credentials, permitted, bounding));
        runner.slot_plan(plan)?;
    }
    generator.random = Random::new(seed);
    for number in 0..count {
        runner.slot_plan(generator.slot_plan(format!("seed {seed}, slot plan {number}")))?;
    }
    runner.planted(&planted::witness())?;
    runner.harness.end()?;
    Ok((runner.plans, runner.families))
}

// The steps of all of them.
fn steps<'a>(plans: &'a mut [Plan], families: &'a mut [SlotPlan]) -> impl Iterator<Item = &'a mut Step> {
    let of_slot_plans = families.iter_mut().flat_map(|plan| &mut plan.steps).map(|step| &mut step.step);
    plans.iter_mut().flat_map(|plan| &mut plan.steps).chain(of_slot_plans)
}
