//! Every plan and slot plan of the repository's examples, with the report beside it.

mod plans;

use std::fs;
use std::path::{Path, PathBuf};

use urrezkalu::{run_plan, run_slot_plan, Outcome, LONGEST_SLOT_REPORT};

/// The plans of a directory and of those within it.
fn plans_within(directory: &Path) -> Vec<PathBuf> {
    let mut found = Vec::new();
    for entry in fs::read_dir(directory).expect("the examples are a directory that can be read") {
        let path = entry.expect("the directory can be read").path();
        if path.is_dir() {
            found.extend(plans_within(&path));
        } else if path.extension().is_some_and(|extension| extension == "plan") {
            found.push(path);
        }
    }
    found
}

/// What the program writes for a plan: the report, or for a refused plan two lines, the code and the line of the fault.
fn written(outcome: Outcome, buffer: &[u8]) -> Vec<u8> {
    match outcome {
        Outcome::Report { length } => buffer[..length].to_vec(),
        Outcome::Malformed { line } => format!("code=70\nline={line}\n").into_bytes(),
        Outcome::Invalid => b"code=72\nline=0\n".to_vec(),
        Outcome::NoRoom => panic!("the longest report fits its buffer"),
    }
}

/// Whether a plan is a slot plan: those in slots/ are.
fn has_slots(path: &Path) -> bool {
    path.parent().is_some_and(|directory| directory.ends_with("slots"))
}

#[test]
fn every_example_has_its_report() {
    let mut codes = Vec::new();
    for path in plans_within(&plans::examples()) {
        let plan = fs::read(&path).expect("the plan can be read");
        let report = fs::read(path.with_extension("report")).expect("the plan has a report beside it");
        let mut buffer = [0; LONGEST_SLOT_REPORT];
        let outcome = if has_slots(&path) { run_slot_plan(&plan, &mut buffer) } else { run_plan(&plan, &mut buffer) };
        let found = written(outcome, &buffer);
        assert_eq!(String::from_utf8_lossy(&found), String::from_utf8_lossy(&report), "{}", path.display());
        codes.push((has_slots(&path), outcome.code()));
    }
    // The examples of both forms have each of them; a walk that found none would prove nothing.
    for code in [0, 70, 72] {
        for has_slots in [false, true] {
            assert!(codes.contains(&(has_slots, code)), "no example of code {code}, slots {has_slots}");
        }
    }
}
