//! Texts in names: the library, the second program and libcap on equal texts of a megabyte.

use libcap::{Libcap, Sets};
use measured::times::{quantile, ratios, spread};
use plans::{NamedKind, CAPABILITY_NAMES};
use std::ffi::CString;
use std::fmt::Write;
use std::hint::black_box;
use std::time::Instant;

/// About how many bytes a text has.
const MEGABYTE: usize = 1 << 20;

/// How often each name is tried, to find the slowest.
const TRIES: usize = 5;

pub const HEADING: &str = "\
| text, repeated | bytes | library, ns a byte | second, ns a byte | libcap, ns a byte | second/library | libcap/library |
|---|---|---|---|---|---|---|";

/// A text to be measured.
struct Text {
    name: String,
    bytes: Vec<u8>,
}

impl Text {
    /// A clause or several, as often as there is room.
    fn repeated(clauses: &str, size: usize) -> Text {
        let name = format!("`{}`", clauses.escape_debug());
        Text { name, bytes: clauses.repeat(size / clauses.len()).into_bytes() }
    }

    /// A list of one name, as long as there is room, with one operator.
    fn list(name: &str) -> Text {
        let Text { bytes, .. } = Text::repeated(&format!("{name},"), MEGABYTE);
        Text { name: format!("`{name},` and one operator"), bytes: [&bytes[..], name.as_bytes(), b"=e"].concat() }
    }

    fn named(self, name: &str) -> Text {
        Text { name: name.into(), ..self }
    }
}

/// The table's rows, each with as many rounds as are asked for.
pub fn rows(libcap: Option<&Libcap>, rounds: usize) -> Result<Vec<String>, String> {
    texts().into_iter().map(|text| measure(&text, libcap, rounds)).collect()
}

fn texts() -> Vec<Text> {
    let clauses =
        ["cap_net_raw+ep ", "cap_chown=eip ", "cap_bpf=p ", "CAP_CHECKPOINT_RESTORE=e ", "all=eip ", "=eip ", " \t\n"];
    let mut texts: Vec<Text> = clauses.map(|clauses| Text::repeated(clauses, MEGABYTE)).into();
    texts.push(slowest(|name| Text::repeated(&format!("{name}=p "), MEGABYTE)));
    texts.push(slowest(Text::list));
    let written = every_name();
    for (size, about) in [(1 << 14, "16 KiB"), (MEGABYTE, "1 MiB"), (1 << 24, "16 MiB")] {
        texts.push(Text::repeated(&written, size).named(&format!("every name with `=eip`, {about}")));
    }
    texts.push(generated());
    let mut broken =
        Text::repeated(&written, MEGABYTE).named("every name with `=eip`, 1 MiB, malformed at its last byte");
    *broken.bytes.last_mut().expect("it is not empty") = b'!';
    texts.push(broken);
    texts
}

fn every_name() -> String {
    CAPABILITY_NAMES.iter().fold(String::new(), |mut text, name| {
        write!(text, "{name}=eip ").expect("a String has room");
        text
    })
}

/// Of the texts of the 41 names, the one that the library takes longest for.
fn slowest(text: impl Fn(&str) -> Text) -> Text {
    let texts = CAPABILITY_NAMES.map(|name| text(name));
    let times = texts.each_ref().map(|text| {
        let times: Vec<f64> = (0..TRIES).map(|_| time(&text.bytes, library).1).collect();
        quantile(&times, 0.0)
    });
    let (_, slowest) =
        times.iter().zip(texts).max_by(|(one, _), (other, _)| one.total_cmp(other)).expect("there are 41");
    let name = format!("{}, the slowest of the 41 names", slowest.name);
    slowest.named(&name)
}

/// Well-formed texts as the comparison has them, one behind the other.
fn generated() -> Text {
    let mut bytes = Vec::new();
    let mut seed = 0;
    while bytes.len() < MEGABYTE {
        let named = plans::named_text(seed);
        if matches!(named.kind, NamedKind::WellFormed { .. }) {
            bytes.extend(named.text);
            bytes.push(b' ');
        }
        seed += 1;
    }
    Text { name: "well-formed texts of every kind".into(), bytes }
}

type Answer = Result<Sets, u32>;

fn library(text: &[u8]) -> Answer {
    let mut values = [0; 3];
    match urrezkalu::interface::read_names(text, &mut values) {
        3 => Ok(values),
        number => Err(number as u32),
    }
}

fn second(text: &[u8]) -> Answer {
    let mut values = [0; 3];
    match second::read_names(text, &mut values) {
        second::Written { code: 0, .. } => Ok(values),
        second::Written { number, .. } => Err(number),
    }
}

/// What a program answers, and the nanoseconds a byte.
fn time<T>(text: &[u8], read: impl Fn(&[u8]) -> T) -> (T, f64) {
    let start = Instant::now();
    let answer = read(black_box(text));
    (answer, start.elapsed().as_nanos() as f64 / text.len() as f64)
}

/// A row of the table, or that two programs differ. libcap has no time where it refuses what the others read.
fn measure(text: &Text, libcap: Option<&Libcap>, rounds: usize) -> Result<String, String> {
    let lent = CString::new(&text.bytes[..]).expect("no text has a zero byte");
    let expected = library(&text.bytes);
    let libcap = libcap.filter(|libcap| libcap.read(&lent) == expected.ok());
    let [mut of_library, mut of_second, mut of_libcap] = [const { Vec::new() }; 3];
    for round in 0..rounds + 1 {
        let mut times = [0.0; 3];
        for place in 0..3 {
            let program = (round + place) % 3;
            times[program] = match program {
                0 => answered(text, &expected, library)?,
                1 => answered(text, &expected, second)?,
                _ => libcap.map_or(0.0, |libcap| time(&text.bytes, |_| black_box(libcap.takes(&lent))).1),
            };
        }
        // The first round only fills the caches.
        if round > 0 {
            of_library.push(times[0]);
            of_second.push(times[1]);
            of_libcap.push(times[2]);
        }
    }
    let (libcap, by_libcap) = match libcap {
        Some(_) => (spread(&of_libcap, 2), spread(&ratios(&of_libcap, &of_library), 2)),
        None => (String::new(), String::new()),
    };
    Ok(format!(
        "| {} | {} | {} | {} | {libcap} | {} | {by_libcap} |",
        text.name,
        text.bytes.len(),
        spread(&of_library, 2),
        spread(&of_second, 2),
        spread(&ratios(&of_second, &of_library), 2)
    ))
}

// The nanoseconds a byte of a program that has to give that answer.
fn answered(text: &Text, expected: &Answer, read: fn(&[u8]) -> Answer) -> Result<f64, String> {
    let (answer, time) = time(&text.bytes, read);
    if answer == *expected {
        Ok(time)
    } else {
        Err(format!("the two programs differ on {}", text.name))
    }
}
