//! An installer's attribute: the bytes that give a file its capabilities, and what capabilities bytes give a file.
//!
//! ```text
//! attribute_bytes PERMITTED INHERITABLE BIT
//! attribute_bytes --read ATTRIBUTE
//! ```
//!
//! PERMITTED and INHERITABLE are sets, of 1 to 16 hex digits; BIT is the effective bit, 0 or 1. The attribute, which an installer sets as
//! security.capability, goes to standard output in 40 hex digits. ATTRIBUTE is bytes in hex, and none for a file without an attribute: what they
//! are read as goes to standard output. Hex letters are lower case. The status is 0 if that is done, 1 if a set has a bit above 40 or the
//! attribute is unreadable, and 2 for other arguments, or if the output cannot be written.

use std::env;
use std::io::{self, Write};
use std::process::ExitCode;

use urrezkalu::{
    read_attribute, write_attribute, AttributeReading, AttributeWriting, FileCapabilities, ATTRIBUTE_LENGTH,
};

/// Why nothing is written, and the exit status that says so.
struct Refusal {
    status: u8,
    message: String,
}

fn refused(message: impl ToString) -> Refusal {
    Refusal { status: 1, message: format!("attribute_bytes: {}", message.to_string()) }
}

fn failed(message: &str) -> Refusal {
    Refusal { status: 2, message: format!("attribute_bytes: {message}") }
}

fn is_hex(text: &str) -> bool {
    text.bytes().all(|byte| matches!(byte, b'0'..=b'9' | b'a'..=b'f'))
}

fn set(text: &str) -> Result<u64, Refusal> {
    match u64::from_str_radix(text, 16) {
        Ok(set) if is_hex(text) && text.len() <= 16 => Ok(set),
        _ => Err(failed("a set is 1 to 16 hex digits, 0 to 9 and a to f")),
    }
}

fn bit(text: &str) -> Result<bool, Refusal> {
    match text {
        "0" => Ok(false),
        "1" => Ok(true),
        _ => Err(failed("the effective bit is 0 or 1")),
    }
}

fn bytes(digits: &str) -> Result<Vec<u8>, Refusal> {
    if !is_hex(digits) || !digits.len().is_multiple_of(2) {
        return Err(failed("an attribute is pairs of hex digits, 0 to 9 and a to f"));
    }
    let pairs = (0..digits.len()).step_by(2).map(|at| &digits[at..at + 2]);
    Ok(pairs.map(|pair| u8::from_str_radix(pair, 16).expect("a pair of hex digits is a byte")).collect())
}

/// The attribute in hex.
fn written(file: FileCapabilities) -> Result<String, Refusal> {
    let mut attribute = [0; ATTRIBUTE_LENGTH];
    match write_attribute(file, &mut attribute) {
        AttributeWriting::Written { length } => {
            Ok(attribute[..length].iter().map(|byte| format!("{byte:02x}")).collect())
        }
        refusal => Err(refused(refusal)),
    }
}

/// What the attribute gives its file, in words.
fn read(attribute: &[u8]) -> Result<String, Refusal> {
    let (attached, file) = match read_attribute(attribute) {
        AttributeReading::NoneAttached => (0, FileCapabilities { permitted: 0, inheritable: 0, effective: false }),
        AttributeReading::File(file) => (1, file),
        refusal @ AttributeReading::Unreadable => return Err(refused(refusal)),
    };
    let FileCapabilities { permitted, inheritable, effective } = file;
    let effective = u8::from(effective);
    Ok(format!("attached={attached} permitted={permitted:016x} inheritable={inheritable:016x} effective={effective}"))
}

/// The line that the arguments ask for.
fn line(arguments: &[&str]) -> Result<String, Refusal> {
    match arguments {
        ["--read", attribute] => read(&bytes(attribute)?),
        [permitted, inheritable, effective] => {
            let (permitted, inheritable) = (set(permitted)?, set(inheritable)?);
            written(FileCapabilities { permitted, inheritable, effective: bit(effective)? })
        }
        _ => {
            let usage = "usage: attribute_bytes PERMITTED INHERITABLE BIT\n       attribute_bytes --read ATTRIBUTE";
            Err(Refusal { status: 2, message: usage.to_string() })
        }
    }
}

fn write_out(line: &str) -> Result<(), Refusal> {
    let mut output = io::stdout().lock();
    writeln!(output, "{line}").and_then(|()| output.flush()).map_err(|error| {
        // The system's words, without the number that Rust puts after them.
        let words = error.to_string();
        let reason = words.split(" (os error").next().unwrap_or(&words);
        failed(&format!("cannot write to standard output: {reason}"))
    })
}

fn main() -> ExitCode {
    // Bytes that are no UTF-8 become characters that are no digits.
    let arguments: Vec<String> = env::args_os().skip(1).map(|one| one.to_string_lossy().into_owned()).collect();
    let arguments: Vec<&str> = arguments.iter().map(String::as_str).collect();
    match line(&arguments).and_then(|line| write_out(&line)) {
        Ok(()) => ExitCode::SUCCESS,
        Err(refusal) => {
            // Where standard error is gone there is nowhere left to say so; the status tells.
            let _ = writeln!(io::stderr(), "{}", refusal.message);
            ExitCode::from(refusal.status)
        }
    }
}
