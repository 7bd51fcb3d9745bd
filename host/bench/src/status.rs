//! Status texts laid beside a sheet: the library and the second program on equal texts.

use measured::times::{quantile, ratios, spread};
use plans::{Found, WANTED};
use std::hint::black_box;
use std::time::Instant;

/// About how many bytes a program is given between two looks at the clock, and how many the longest text but one has.
const MEGABYTE: usize = 1 << 20;

/// The bytes of the longest list.
const LONGEST_LIST: usize = 372;

/// Below so many nanoseconds a text, a tenth of one is told.
const FEW: f64 = 1000.0;

pub const HEADING: &str = "\
| text | bytes | library, ns a text | second, ns a text | library, ns a byte | second, ns a byte | second/library |
|---|---|---|---|---|---|---|";

/// A status text to be measured.
struct Text {
    name: String,
    bytes: Vec<u8>,
}

/// The table's rows, each with as many rounds as are asked for.
pub fn rows(rounds: usize) -> Result<Vec<String>, String> {
    let start = plans::measured(1, 0).start;
    let mut sheet = Vec::new();
    plans::write_sheet(&mut sheet, &start);
    texts(&plans::compared_values(&start)).into_iter().map(|text| measure(&text, &sheet, rounds)).collect()
}

fn texts(found: &Found) -> Vec<Text> {
    let file = plans::kernel_status(found);
    let bare = plans::bare_status(found);
    let others: Vec<u8> =
        file.split_inclusive(|byte| *byte == b'\n').filter(|line| !is_wanted(line)).flatten().copied().collect();
    let after = |lines: &[u8], size: usize| [&lines.repeat(size / lines.len())[..], &bare].concat();
    let mut texts = vec![
        text("a kernel's file, nothing differs", file.clone()),
        text("a kernel's file, everything differs", plans::kernel_status(&changed(found))),
        text("the seven lines alone, nothing differs", bare.clone()),
        text("the seven lines alone, everything differs", plans::bare_status(&changed(found))),
    ];
    for (size, about) in
        [(1 << 14, "16 KiB"), (1 << 16, "64 KiB"), (1 << 18, "256 KiB"), (MEGABYTE, "1 MiB"), (1 << 24, "16 MiB")]
    {
        texts.push(text(&format!("{about} of a kernel's other lines, then the seven"), after(&others, size)));
    }
    for (line, what) in [
        ("\n", "empty lines"),
        ("CapInhX:\t0000000000000000\n", "`CapInhX:` lines"),
        ("Uid\n", "`Uid` without a colon"),
    ] {
        texts.push(text(&format!("1 MiB of {what}, then the seven"), after(line.as_bytes(), MEGABYTE)));
    }
    texts.push(text("one line of 1 MiB, then the seven", [&vec![b'x'; MEGABYTE][..], b"\n", &bare].concat()));
    texts.push(text("a kernel's file, malformed in its last wanted line", malformed(file)));
    texts.push(text(
        "1 MiB of a kernel's other lines, then the seven, the last malformed",
        malformed(after(&others, MEGABYTE)),
    ));
    texts
}

fn text(name: &str, bytes: Vec<u8>) -> Text {
    Text { name: name.into(), bytes }
}

fn is_wanted(line: &[u8]) -> bool {
    WANTED.iter().any(|name| line.starts_with(name.as_bytes()))
}

/// Other values in every key, the IDs with ten digits.
fn changed(found: &Found) -> Found {
    let mut other = found.map(|value| !value);
    other[..4].fill(4_294_967_295);
    other[9] &= 1;
    other
}

/// The text with a carriage return behind NoNewPrivs.
fn malformed(mut bytes: Vec<u8>) -> Vec<u8> {
    let name = WANTED[6].as_bytes();
    let at = bytes.windows(name.len()).rposition(|part| part == name).expect("it has all seven");
    let end = at + bytes[at..].iter().position(|byte| *byte == b'\n').expect("its newline is there");
    bytes.insert(end, b'\r');
    bytes
}

/// The number that comes back, and the list.
type Answer = (u64, [u8; LONGEST_LIST]);

fn library(status: &[u8], sheet: &[u8], list: &mut [u8]) -> u64 {
    urrezkalu::interface::compare_status(status, sheet, list)
}

fn second(status: &[u8], sheet: &[u8], list: &mut [u8]) -> u64 {
    let second::Written { code, number } = second::compare_status(status, sheet, list);
    u64::from(code) << 32 | u64::from(number)
}

type Program = fn(&[u8], &[u8], &mut [u8]) -> u64;

/// What a program answers, and the nanoseconds a text.
fn time(text: &Text, sheet: &[u8], program: Program) -> (Answer, f64) {
    let times = (MEGABYTE / text.bytes.len()).max(1);
    let mut list = [0; LONGEST_LIST];
    let mut number = 0;
    let start = Instant::now();
    for _ in 0..times {
        number = program(black_box(&text.bytes), black_box(sheet), black_box(&mut list));
    }
    let time = start.elapsed().as_nanos() as f64 / times as f64;
    ((number, list), time)
}

/// A row of the table, or that the two programs differ.
fn measure(text: &Text, sheet: &[u8], rounds: usize) -> Result<String, String> {
    let (mut of_library, mut of_second) = (Vec::new(), Vec::new());
    for round in 0..rounds + 1 {
        let programs: [Program; 2] = if round % 2 == 0 { [library, second] } else { [second, library] };
        let [one, other] = programs.map(|program| time(text, sheet, program));
        if one.0 != other.0 {
            return Err(format!("the two programs differ on {}", text.name));
        }
        // The first round only fills the caches.
        if round > 0 {
            let (library, second) = if round % 2 == 0 { (one.1, other.1) } else { (other.1, one.1) };
            of_library.push(library);
            of_second.push(second);
        }
    }
    let a_text = |times: &[f64]| spread(times, usize::from(quantile(times, 0.5) < FEW));
    let a_byte = |times: &[f64]| format!("{:.2}", quantile(times, 0.5) / text.bytes.len() as f64);
    Ok(format!(
        "| {} | {} | {} | {} | {} | {} | {} |",
        text.name,
        text.bytes.len(),
        a_text(&of_library),
        a_text(&of_second),
        a_byte(&of_library),
        a_byte(&of_second),
        spread(&ratios(&of_second, &of_library), 2)
    ))
}

#[cfg(test)]
mod tests {
    use super::*;

    // Each text comes to what its name says: the last line alone, the longest list, or a fault in the line of NoNewPrivs.
    #[test]
    fn texts_are_what_they_are_called() {
        let mut start = plans::measured(1, 0).start;
        [start.ruid, start.euid, start.suid, start.fsuid] = [4_294_967_294; 4];
        let mut sheet = Vec::new();
        plans::write_sheet(&mut sheet, &start);
        for Text { name, bytes } in texts(&plans::compared_values(&start)) {
            let mut list = [0; LONGEST_LIST];
            let expected = match &name {
                name if name.contains("everything differs") => 372,
                name if name.contains("malformed") => {
                    let front = bytes.windows(2).position(|part| part == b"\r\n").expect("it has a carriage return");
                    70 << 32 | (bytes[..front].iter().filter(|byte| **byte == b'\n').count() + 1) as u64
                }
                _ => 36,
            };
            assert_eq!(second(&bytes, &sheet, &mut list), expected, "{name}");
        }
    }

    #[test]
    fn a_kernels_other_lines_have_no_wanted_one() {
        let found = [0; plans::FOUND];
        let file = plans::kernel_status(&found);
        assert_eq!(file.split_inclusive(|byte| *byte == b'\n').filter(|line| is_wanted(line)).count(), 7);
    }
}
