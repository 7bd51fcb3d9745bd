//! An installer's capabilities in names: the sets that a text stands for, and the text that stands for sets.
//!
//! ```text
//! capability_names TEXT
//! capability_names --write PERMITTED INHERITABLE EFFECTIVE
//! ```
//!
//! TEXT is in the form of cap_text_formats(7), as cap_net_raw+ep is; with - in its place, all of standard input is. Its three sets go to standard
//! output, in the lines that a sheet has for them. PERMITTED, INHERITABLE and EFFECTIVE are sets, of 1 to 16 hex digits: the text that stands for
//! them goes to standard output. Hex letters are lower case. The status is 0 if that is done, 1 if the text is malformed or a set has a bit above
//! 40, and 2 for other arguments, or if the input cannot be read or the output cannot be written.

use std::env;
use std::io::{self, Read, Write};
use std::os::unix::ffi::OsStringExt;
use std::process::ExitCode;

use urrezkalu::{read_names, write_names, NamedSets, NamesReading, NamesWriting, LONGEST_NAMES};

/// The most bytes before a fault that a message shows.
const SHOWN: usize = 64;

/// Why nothing is written, and the exit status that says so.
struct Refusal {
    status: u8,
    message: String,
}

fn refused(message: impl ToString) -> Refusal {
    Refusal { status: 1, message: format!("capability_names: {}", message.to_string()) }
}

fn failed(message: &str) -> Refusal {
    Refusal { status: 2, message: format!("capability_names: {message}") }
}

/// The system's words for an error, without the number that Rust puts after them.
fn reason(error: &io::Error) -> String {
    let words = error.to_string();
    words.split(" (os error").next().unwrap_or(&words).to_string()
}

/// Where a text is malformed, after what, and whether a byte is at fault or the text's end.
fn malformed(text: &[u8], place: u32) -> Refusal {
    let refusal = NamesReading::Malformed { place };
    if place == u32::MAX {
        // Which byte it is, the number does not tell.
        return refused(refusal);
    }
    let (beginning, rest) = text.split_at(place as usize);
    let from = beginning.len().saturating_sub(SHOWN);
    let dots = if from == 0 { "" } else { ".." };
    let fault = match rest.first() {
        Some(byte) => format!("\"{}\" cannot stand there", byte.escape_ascii()),
        None => "the text ends too early".to_string(),
    };
    refused(format!("{refusal}, after {dots}\"{}\": {fault}", beginning[from..].escape_ascii()))
}

/// The lines of a sheet for the sets that the text stands for.
fn read(text: &[u8]) -> Result<String, Refusal> {
    match read_names(text) {
        NamesReading::Means(NamedSets { permitted, inheritable, effective }) => {
            Ok(format!("permitted={permitted:016x}\ninheritable={inheritable:016x}\neffective={effective:016x}"))
        }
        NamesReading::Malformed { place } => Err(malformed(text, place)),
    }
}

fn input() -> Result<Vec<u8>, Refusal> {
    let mut text = Vec::new();
    match io::stdin().lock().read_to_end(&mut text) {
        Ok(_) => Ok(text),
        Err(error) => Err(failed(&format!("cannot read standard input: {}", reason(&error)))),
    }
}

fn set(text: &[u8]) -> Result<u64, Refusal> {
    // Bytes that are no UTF-8 become characters that are no digits.
    let digits = String::from_utf8_lossy(text);
    let is_hex = digits.bytes().all(|byte| matches!(byte, b'0'..=b'9' | b'a'..=b'f'));
    match u64::from_str_radix(&digits, 16) {
        Ok(set) if is_hex && digits.len() <= 16 => Ok(set),
        _ => Err(failed("a set is 1 to 16 hex digits, 0 to 9 and a to f")),
    }
}

/// The text that stands for the sets.
fn written(sets: NamedSets) -> Result<String, Refusal> {
    let mut text = [0; LONGEST_NAMES];
    match write_names(sets, &mut text) {
        NamesWriting::Written { length } => Ok(text[..length].escape_ascii().to_string()),
        refusal => Err(refused(refusal)),
    }
}

/// What the arguments ask for.
fn answer(arguments: &[&[u8]]) -> Result<String, Refusal> {
    match arguments {
        [b"--write", permitted, inheritable, effective] => {
            let (permitted, inheritable, effective) = (set(permitted)?, set(inheritable)?, set(effective)?);
            written(NamedSets { permitted, inheritable, effective })
        }
        [b"-"] => read(&input()?),
        [text] if *text != b"--write" => read(text),
        _ => {
            let usage = "usage: capability_names TEXT\n       capability_names --write PERMITTED INHERITABLE EFFECTIVE";
            Err(Refusal { status: 2, message: usage.to_string() })
        }
    }
}

fn write_out(answer: &str) -> Result<(), Refusal> {
    let mut output = io::stdout().lock();
    writeln!(output, "{answer}")
        .and_then(|()| output.flush())
        .map_err(|error| failed(&format!("cannot write to standard output: {}", reason(&error))))
}

fn main() -> ExitCode {
    let arguments: Vec<Vec<u8>> = env::args_os().skip(1).map(OsStringExt::into_vec).collect();
    let arguments: Vec<&[u8]> = arguments.iter().map(Vec::as_slice).collect();
    match answer(&arguments).and_then(|answer| write_out(&answer)) {
        Ok(()) => ExitCode::SUCCESS,
        Err(refusal) => {
            // Where standard error is gone there is nowhere left to say so; the status tells.
            let _ = writeln!(io::stderr(), "{}", refusal.message);
            ExitCode::from(refusal.status)
        }
    }
}
