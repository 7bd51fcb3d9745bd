//! Service's look at a running machine: captured status files, laid beside what a plan predicts.
//!
//! ```text
//! compare_status PLAN STATUS..
//! ```
//!
//! PLAN is run, and what the thread then holds is laid beside each STATUS, a copy of a /proc/PID/status. With - in place of one of them, standard
//! input is read. What differs goes to standard output, with the file's name and a line for each key, capabilities' names beside the sets; or a line
//! that nothing does. The last line says what is not compared. Why a file cannot be used goes to standard error, with file and line in the form that
//! editors understand, and so does why a step of the plan is refused. Every status file is looked at, whatever the ones before it came to. The status
//! is 0 if nothing differs in any, 1 if something does, and 2 if a file cannot be used, if the output cannot be written, or for other arguments.

use std::env;
use std::ffi::{OsStr, OsString};
use std::fs::File;
use std::io::{self, Read, Write};
use std::os::unix::ffi::OsStrExt;
use std::process::ExitCode;

use urrezkalu::{
    compare_status, differences, results, run_plan, write_names, Difference, NamedSets, NamesWriting, Outcome,
    StatusComparison, StepResult, LONGEST_LIST, LONGEST_NAMES, LONGEST_PLAN, LONGEST_REPORT,
};

/// How many lines of a plan a sheet and a step have.
const SHEET_LINES: usize = 15;
const STEP_LINES: usize = 5;

/// The most bytes of a status file that are read. A kernel writes some two thousand; a device that never ends is not to fill the memory.
const LONGEST_STATUS: usize = 1 << 24;

/// The most bytes of a line at fault that a message shows.
const SHOWN: usize = 64;

/// All 41 capabilities. A set with more of them than half is shown by those that it lacks.
const ALL: u64 = 0x1ff_ffff_ffff;
const HALF: u32 = 20;

/// The one ID that is no user's.
const NO_USER: u64 = 4_294_967_295;

/// What has been found, and the exit status that says so. The greatest of several counts.
#[derive(Clone, Copy, PartialEq, Eq, PartialOrd, Ord)]
enum Status {
    Same = 0,
    Differs = 1,
    Failed = 2,
}

/// The output could not be written, which has been said.
struct Unwritten;

/// The file's first bytes, up to one more than `most`, which shows that there are too many.
fn read_text(name: &OsStr, most: usize) -> io::Result<Vec<u8>> {
    let mut text = Vec::new();
    let enough = most as u64 + 1;
    if name == "-" {
        io::stdin().lock().take(enough).read_to_end(&mut text)?;
    } else {
        File::open(name)?.take(enough).read_to_end(&mut text)?;
    }
    Ok(text)
}

/// What a file is called in the output and in messages.
fn called(name: &OsStr) -> &[u8] {
    if name == "-" {
        b"standard input"
    } else {
        name.as_bytes()
    }
}

/// The system's words for an error, without the number that Rust puts after them.
fn reason(error: &io::Error) -> String {
    let words = error.to_string();
    let number = error.raw_os_error().map_or(String::new(), |number| format!(" (os error {number})"));
    words.strip_suffix(&number).unwrap_or(&words).to_string()
}

/// Writes a message that begins with a name, which may have any bytes, in one piece.
fn complain(name: &[u8], message: &str) {
    let line = [name, message.as_bytes(), b"\n"].concat();
    // Where standard error is gone there is nowhere left to say so; the status tells.
    let _ = io::stderr().write_all(&line);
}

/// Writes to standard output at once, so that what is written there and messages come in the order of the files.
fn write_out(bytes: &[u8]) -> Result<(), Unwritten> {
    let mut output = io::stdout().lock();
    output.write_all(bytes).and_then(|()| output.flush()).map_err(|error| {
        complain(b"compare_status", &format!(": cannot write to standard output: {}", reason(&error)));
        Unwritten
    })
}

/// The names of the capabilities in the set, which has no bit above 40: those that the library writes, without their flag.
fn names(set: u64) -> String {
    let mut text = [0; LONGEST_NAMES];
    let sets = NamedSets { permitted: set, inheritable: 0, effective: 0 };
    let NamesWriting::Written { length } = write_names(sets, &mut text) else {
        unreachable!("the set has no bit above 40, and the longest text fits")
    };
    String::from_utf8_lossy(&text[..length]).replace("=p", "").replace(' ', ",")
}

/// What a set holds, as service reads it. A kernel that has more capabilities, or an old one, shows bits above 40.
fn words(set: u64) -> String {
    let (known, above) = (set & ALL, set & !ALL);
    let known = match known {
        0 if above == 0 => "none".to_string(),
        0 => String::new(),
        ALL => "all".to_string(),
        _ if known.count_ones() > HALF => format!("all but {}", names(ALL & !known)),
        _ => names(known),
    };
    let and = if known.is_empty() || above == 0 { "" } else { " and " };
    let above = if above == 0 { String::new() } else { format!("{above:016x}, no capability of these 41") };
    [&known, and, &above].concat()
}

/// A difference in words. Where both sets hold something, it is told besides which capabilities make the difference.
fn told(difference: Difference) -> String {
    let Difference { key, predicted, found } = difference;
    if key.is_id() && found == NO_USER {
        return format!("{key} is {found} (no user ID), predicted {predicted}");
    }
    if !key.is_set() {
        return difference.to_string();
    }
    let mut told =
        format!("{key} is {found:016x} ({}), predicted {predicted:016x} ({})", words(found), words(predicted));
    if predicted != 0 && found != 0 {
        for (what, set) in [("more", found & !predicted), ("less", predicted & !found)] {
            if set != 0 {
                told.push_str(&format!("; {what}: {}", words(set)));
            }
        }
    }
    told
}

/// Says of each step in the report that is refused why, and on which line of the plan it begins. What stands after the results is the sheet.
fn tell_refused_steps<'a>(name: &OsStr, report: &'a [u8]) -> &'a [u8] {
    let mut results = results(report);
    for (at, result) in results.by_ref().enumerate() {
        if !matches!(result, StepResult::Done { .. }) {
            let line = SHEET_LINES + STEP_LINES * at + 1;
            complain(called(name), &format!(":{line}: step {} is {result}", at + 1));
        }
    }
    results.rest()
}

/// The sheet of what the thread holds after the plan, if that can be said.
fn predicted(name: &OsStr) -> Option<Vec<u8>> {
    let text = match read_text(name, LONGEST_PLAN) {
        Ok(text) => text,
        Err(error) => {
            complain(called(name), &format!(": cannot be read: {}", reason(&error)));
            return None;
        }
    };
    let mut report = [0; LONGEST_REPORT];
    match run_plan(&text, &mut report) {
        Outcome::Report { length } => Some(tell_refused_steps(name, &report[..length]).to_vec()),
        Outcome::Malformed { line } => {
            let message =
                format!(":{line}: malformed plan: this line is the first that is missing, incomplete or wrong");
            complain(called(name), &message);
            None
        }
        // `NoRoom` does not come with a buffer of that length.
        refusal @ (Outcome::Invalid | Outcome::NoRoom) => {
            complain(called(name), &format!(": {refusal}"));
            None
        }
    }
}

/// Which line of the text is at fault, and what stands there.
fn malformed(text: &[u8], line: u32) -> String {
    let lines = "Uid, CapInh, CapPrm, CapEff, CapBnd, CapAmb, NoNewPrivs";
    // No line begins after the last newline.
    let Some(found) = text.split_inclusive(|byte| *byte == b'\n').nth(line as usize - 1) else {
        return format!(":{line}: malformed status file: it ends before it has all of {lines}");
    };
    let found = found.strip_suffix(b"\n").unwrap_or(found);
    let dots = if found.len() > SHOWN { ".." } else { "" };
    let shown = found[..found.len().min(SHOWN)].escape_ascii();
    format!(":{line}: malformed status file: \"{shown}\"{dots} is not in its form or not the next of {lines}")
}

/// Writes what the list says of the file; its last line is left to be written once, after all files.
fn write_list(name: &OsStr, list: &[u8]) -> Result<(Status, Vec<u8>), Unwritten> {
    let mut differences = differences(list);
    let mut lines = Vec::new();
    for difference in differences.by_ref() {
        lines.extend([called(name), b": ", told(difference).as_bytes(), b"\n"].concat());
    }
    let status = if lines.is_empty() { Status::Same } else { Status::Differs };
    if lines.is_empty() {
        lines = [called(name), b": nothing differs\n"].concat();
    }
    write_out(&lines)?;
    Ok((status, differences.rest().to_vec()))
}

/// Looks at one status file. The bytes are the line that says what is not compared, where something was.
fn look_at(name: &OsStr, sheet: &[u8]) -> Result<(Status, Vec<u8>), Unwritten> {
    let message = match read_text(name, LONGEST_STATUS) {
        Ok(text) if text.len() > LONGEST_STATUS => format!(": cannot be used: longer than {LONGEST_STATUS} bytes"),
        Ok(text) => {
            let mut list = [0; LONGEST_LIST];
            match compare_status(&text, sheet, &mut list) {
                StatusComparison::Listed { length } => return write_list(name, &list[..length]),
                StatusComparison::MalformedStatus { line } => malformed(&text, line),
                // None of these comes with the sheet of a report and a buffer of that length.
                refusal => format!(": {refusal}"),
            }
        }
        Err(error) => format!(": cannot be read: {}", reason(&error)),
    };
    complain(called(name), &message);
    Ok((Status::Failed, Vec::new()))
}

/// Looks at every status file, and says once what is not compared.
fn look_at_all(names: &[OsString], sheet: &[u8]) -> Result<Status, Unwritten> {
    let mut worst = Status::Same;
    let mut not_compared = Vec::new();
    for name in names {
        let (status, last_line) = look_at(name, sheet)?;
        worst = worst.max(status);
        if not_compared.is_empty() {
            not_compared = last_line;
        }
    }
    write_out(&not_compared)?;
    Ok(worst)
}

fn usage() -> Status {
    complain(b"usage", ": compare_status PLAN STATUS..");
    Status::Failed
}

fn status(arguments: &[OsString]) -> Status {
    let [plan, names @ ..] = arguments else { return usage() };
    if names.is_empty() {
        return usage();
    }
    if arguments.iter().filter(|name| *name == "-").count() > 1 {
        complain(b"compare_status", ": standard input can be read once, and - stands more often");
        return Status::Failed;
    }
    match predicted(plan) {
        Some(sheet) => look_at_all(names, &sheet).unwrap_or(Status::Failed),
        None => Status::Failed,
    }
}

fn main() -> ExitCode {
    let arguments: Vec<OsString> = env::args_os().skip(1).collect();
    ExitCode::from(status(&arguments) as u8)
}
