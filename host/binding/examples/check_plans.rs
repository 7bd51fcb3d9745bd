//! An installer's check: plans are run before they are installed.
//!
//! ```text
//! check_plans [--slots] PLAN..
//! ```
//!
//! With --slots the plans are slot plans. For a plan that is accepted, its name and its report go to standard output. Why another is refused goes
//! to standard error, with file and line in the form that editors understand; and so does, after the report of one that is accepted, why a step of
//! it is refused, with the line where the step begins. Every plan is looked at, whatever the ones before it came to. The status is 0 if all are
//! accepted, 1 if one is refused, and 2 if one cannot be read, if the output cannot be written, or if no plan is named.

use std::env;
use std::ffi::{OsStr, OsString};
use std::fs::File;
use std::io::{self, Read, Write};
use std::os::unix::ffi::OsStrExt;
use std::process::ExitCode;

use urrezkalu::{results, run_plan, run_slot_plan, Outcome, StepResult, LONGEST_SLOT_PLAN, LONGEST_SLOT_REPORT};

/// How many lines of a plan a sheet has.
const SHEET_LINES: usize = 15;

/// What plans and slot plans differ in.
struct Form {
    run: fn(&[u8], &mut [u8]) -> Outcome,
    /// How many lines a step has.
    step_lines: usize,
    /// What a step is that is out of range.
    no_call: &'static str,
}

const PLANS: Form = Form { run: run_plan, step_lines: 5, no_call: "number, operands and attribute make no call" };
const SLOT_PLANS: Form =
    Form { run: run_slot_plan, step_lines: 6, no_call: "slot, number, operands and attribute make no call" };

/// What has been found, and the exit status that says so. The greatest of several counts.
#[derive(Clone, Copy, PartialEq, Eq, PartialOrd, Ord)]
enum Status {
    Accepted = 0,
    Refused = 1,
    Failed = 2,
}

/// The file's first bytes. One byte more than the longest plan of either form has is enough: what stands after it decides nothing.
fn read_text(name: &OsStr) -> io::Result<Vec<u8>> {
    let mut text = Vec::new();
    File::open(name)?.take(LONGEST_SLOT_PLAN as u64 + 1).read_to_end(&mut text)?;
    Ok(text)
}

/// The system's words for an error, without the number that Rust puts after them.
fn reason(error: &io::Error) -> String {
    let words = error.to_string();
    let number = error.raw_os_error().map_or(String::new(), |number| format!(" (os error {number})"));
    words.strip_suffix(&number).unwrap_or(&words).to_string()
}

/// Writes a message that begins with a file's name, which may have any bytes, in one piece.
fn complain(name: &OsStr, message: &str) {
    let line = [name.as_bytes(), message.as_bytes(), b"\n"].concat();
    // Where standard error is gone there is nowhere left to say so; the status tells.
    let _ = io::stderr().write_all(&line);
}

/// Writes the plan's name and its report at once, so that reports and messages come in the order of the plans.
fn write_report(name: &OsStr, report: &[u8]) -> io::Result<()> {
    let mut output = io::stdout().lock();
    output.write_all(name.as_bytes())?;
    output.write_all(b": accepted\n")?;
    output.write_all(report)?;
    output.flush()
}

/// Says of each step in the report that is refused why, and on which line of the plan it begins.
fn tell_refused_steps(form: &Form, name: &OsStr, report: &[u8]) {
    for (at, result) in results(report).enumerate() {
        let words = match result {
            StepResult::Done { .. } => continue,
            StepResult::InvalidArgument => format!("refused: {}", form.no_call),
            refusal => refusal.to_string(),
        };
        let line = SHEET_LINES + form.step_lines * at + 1;
        complain(name, &format!(":{line}: step {} is {words}", at + 1));
    }
}

fn check_text(form: &Form, name: &OsStr, text: &[u8]) -> Status {
    let mut report = [0; LONGEST_SLOT_REPORT];
    match (form.run)(text, &mut report) {
        Outcome::Report { length } => match write_report(name, &report[..length]) {
            Ok(()) => {
                tell_refused_steps(form, name, &report[..length]);
                Status::Accepted
            }
            Err(error) => {
                let message = format!(": cannot write to standard output: {}", reason(&error));
                complain(OsStr::new("check_plans"), &message);
                Status::Failed
            }
        },
        Outcome::Malformed { line } => {
            let message =
                format!(":{line}: malformed plan: this line is the first that is missing, incomplete or wrong");
            complain(name, &message);
            Status::Refused
        }
        // `NoRoom` does not come with a buffer of that length. What has no report is not accepted, in any case.
        refusal @ (Outcome::Invalid | Outcome::NoRoom) => {
            complain(name, &format!(": {refusal}"));
            Status::Refused
        }
    }
}

fn check_file(form: &Form, name: &OsStr) -> Status {
    match read_text(name) {
        Ok(text) => check_text(form, name, &text),
        Err(error) => {
            complain(name, &format!(": cannot be read: {}", reason(&error)));
            Status::Failed
        }
    }
}

fn main() -> ExitCode {
    let arguments: Vec<OsString> = env::args_os().skip(1).collect();
    let (form, names) = match &arguments[..] {
        [option, names @ ..] if option == "--slots" => (SLOT_PLANS, names),
        names => (PLANS, names),
    };
    if names.is_empty() {
        complain(OsStr::new("usage"), ": check_plans [--slots] PLAN..");
    }
    let worst = names.iter().map(|name| check_file(&form, name)).max().unwrap_or(Status::Failed);
    ExitCode::from(worst as u8)
}
