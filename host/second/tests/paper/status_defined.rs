//! A captured status beside a sheet, with many texts that no one wrote by hand: what they come to is asked of the
//! paper's definitions, put down once more here in the plainest way.

use crate::helpers::*;
use second::Written;

/// The keys that are compared, in the order of the sheet.
const KEYS: [&str; 10] =
    ["ruid", "euid", "suid", "fsuid", "permitted", "inheritable", "effective", "bounding", "ambient", "nnp"];

/// Numbers that look random and are the same in every run (xorshift).
struct Numbers(u64);

impl Numbers {
    fn next(&mut self) -> u64 {
        self.0 ^= self.0 << 13;
        self.0 ^= self.0 >> 7;
        self.0 ^= self.0 << 17;
        self.0
    }

    fn below(&mut self, limit: usize) -> usize {
        (self.next() % limit as u64) as usize
    }

    fn one_of<T: Copy>(&mut self, choices: &[T]) -> T {
        choices[self.below(choices.len())]
    }
}

/// "Lines are parted at newlines, and no line begins after the last newline."
fn lines(text: &[u8]) -> Vec<&[u8]> {
    let mut lines: Vec<&[u8]> = text.split(|&byte| byte == b'\n').collect();
    if lines.last().is_some_and(|line| line.is_empty()) {
        lines.pop();
    }
    lines
}

/// The wanted lines: each with its line in the text, the place of its name and what stands after the colon.
fn wanted_lines(text: &[u8]) -> Vec<(usize, usize, &[u8])> {
    let mut wanted = Vec::new();
    for (line, number) in lines(text).into_iter().zip(1..) {
        for (place, name) in WANTED.iter().enumerate() {
            if let Some(values) = line.strip_prefix(format!("{name}:").as_bytes()) {
                wanted.push((number, place, values));
            }
        }
    }
    wanted
}

/// The values of the wanted line whose name has this place, if they are right. A number is right if it is what would be
/// written for it.
fn right_values(place: usize, values: &[u8]) -> Option<Vec<String>> {
    let mut values = std::str::from_utf8(values).ok()?.split('\t');
    if values.next() != Some("") {
        return None;
    }
    let values: Vec<String> = values.map(str::to_string).collect();
    let is_right = |value: &String| match place {
        0 => value.parse::<u32>().is_ok_and(|id| id.to_string() == *value),
        6 => value == "0" || value == "1",
        _ => u64::from_str_radix(value, 16).is_ok_and(|set| format!("{set:016x}") == *value),
    };
    let count = if place == 0 { 4 } else { 1 };
    (values.len() == count && values.iter().all(is_right)).then_some(values)
}

/// The ten found values in the order of the sheet, or the line of the first fault.
fn defined(text: &[u8]) -> Result<Vec<String>, u32> {
    let mut found = Vec::new();
    let wanted = wanted_lines(text);
    for (due, (number, place, values)) in wanted.iter().enumerate() {
        match right_values(*place, values) {
            Some(values) if *place == due => found.extend(values),
            _ => return Err(*number as u32),
        }
    }
    if wanted.len() < 7 {
        return Err(lines(text).len() as u32 + 1);
    }
    // "Capability sets come in the file's order and go out in the sheet's."
    found.swap(4, 5);
    Ok(found)
}

/// The values of a sheet's compared keys.
fn predicted(sheet: &str) -> Vec<String> {
    let mut values = Vec::new();
    for line in sheet.lines() {
        let (key, value) = line.split_once('=').unwrap();
        if KEYS.contains(&key) {
            values.push(value.to_string());
        }
    }
    values
}

/// The status beside the sheet, which is valid, comes to what the definitions say.
fn assert_as_defined(text: &[u8], sheet: &str) {
    let expected = match defined(text) {
        Ok(found) => {
            let mut list = String::new();
            for ((key, predicted), found) in KEYS.iter().zip(predicted(sheet)).zip(found) {
                if predicted != found {
                    list += &format!("{key} {predicted} {found}\n");
                }
            }
            list += LAST_LINE;
            (Written { code: 0, number: list.len() as u32 }, list)
        }
        Err(line) => (Written { code: 70, number: line }, String::new()),
    };
    assert_eq!(compare(text, sheet.as_bytes()), expected, "{:?}", String::from_utf8_lossy(text));
}

/// A status of seven right lines, their values those of case 2 or others, with unwanted lines among them.
fn made(numbers: &mut Numbers) -> Vec<u8> {
    let mut text = Vec::new();
    for (place, line) in STATUS.lines().enumerate() {
        for _ in 0..numbers.below(3) {
            text.extend_from_slice(unwanted(numbers));
            text.push(b'\n');
        }
        let line = match (numbers.below(3), place) {
            (0, 0) => {
                let ids: [u32; 4] = std::array::from_fn(|_| {
                    let number = numbers.next() as u32;
                    numbers.one_of(&[0, 1000, u32::MAX, number])
                });
                format!("Uid:\t{}\t{}\t{}\t{}", ids[0], ids[1], ids[2], ids[3])
            }
            (0, 6) => format!("NoNewPrivs:\t{}", numbers.below(2)),
            (0, _) => {
                let number = numbers.next();
                let set = numbers.one_of(&[0, NET_RAW, FULL, u64::MAX, number]);
                format!("{}:\t{set:016x}", WANTED[place])
            }
            _ => line.to_string(),
        };
        text.extend_from_slice(line.as_bytes());
        text.push(b'\n');
    }
    if numbers.below(2) == 0 {
        text.extend_from_slice(unwanted(numbers));
    }
    if numbers.below(3) == 0 && text.ends_with(b"\n") {
        text.pop();
    }
    text
}

fn unwanted(numbers: &mut Numbers) -> &'static [u8] {
    numbers.one_of(&[
        &b""[..],
        b"Name:\tx",
        b"Uid",
        b" Uid:\t0",
        b"uid:",
        b"CapInhX:\t0",
        b"\xff\0",
        b"Gid:\t0\t0",
        b"N",
    ])
}

/// The text with a byte or a few, or a line, other, more or fewer.
fn broken(mut text: Vec<u8>, numbers: &mut Numbers) -> Vec<u8> {
    let at = numbers.below(text.len() + 1);
    let byte = match numbers.below(8) {
        0 => numbers.below(256) as u8,
        _ => numbers.one_of(b"\n\n\t\t: 0019afAF\r\0UCN"),
    };
    match numbers.below(8) {
        0 => text.truncate(at),
        1 => text.insert(at, byte),
        2 if at < text.len() => text[at] = byte,
        3 if at < text.len() => {
            text.remove(at);
        }
        4 => {
            let end = (at + numbers.below(8)).min(text.len());
            text.drain(at..end);
        }
        5 => {
            let part = numbers.one_of(&["\nUid:", "\nCapEff:\t0", "Cap", "\t1000", "\nNoNewPrivs:\t0\n", "\r\n", "00"]);
            text.splice(at..at, part.bytes());
        }
        _ => {
            // A line taken out, and often put in again elsewhere.
            let mut lines: Vec<Vec<u8>> = lines(&text).into_iter().map(<[u8]>::to_vec).collect();
            let line = lines.remove(numbers.below(lines.len()));
            for _ in 0..numbers.below(3) {
                lines.insert(numbers.below(lines.len() + 1), line.clone());
            }
            text = lines.join(&b'\n');
        }
    }
    text
}

#[test]
fn the_definitions_are_the_papers() {
    for (text, line) in [(&b""[..], 1), (b"x", 2), (b"x\n", 2), (b"\n", 2), (b"Uid:", 1), (b"\nCapInh:\t", 2)] {
        assert_eq!(defined(text), Err(line));
    }
    assert_eq!(defined(STATUS.as_bytes()), Ok(predicted(SHEET)));
    assert_eq!(defined(STATUS.repeat(2).as_bytes()), Err(8));
    for wrong in ["4294967296", "01000", "+1000", "1000\r", " 1000", ""] {
        assert_eq!(right_values(0, format!("\t0\t0\t0\t{wrong}").as_bytes()), None, "{wrong:?}");
    }
    for wrong in ["000000000002000", "00000000000002000", "000000000000000A", "+000000000002000"] {
        assert_eq!(right_values(1, format!("\t{wrong}").as_bytes()), None, "{wrong:?}");
    }
}

#[test]
fn one_byte_changed_anywhere() {
    let text = format!("Name:\tx\n{STATUS}x");
    for place in 0..text.len() {
        let mut changed = text.clone().into_bytes();
        for byte in 0..=255 {
            changed[place] = byte;
            assert_as_defined(&changed, SHEET);
        }
    }
}

#[test]
fn one_byte_more_or_fewer_anywhere() {
    for place in 0..=STATUS.len() {
        for byte in *b"\n\t\r\0 :01aAUCN" {
            let mut longer = STATUS.as_bytes().to_vec();
            longer.insert(place, byte);
            assert_as_defined(&longer, SHEET);
        }
        if place < STATUS.len() {
            let mut shorter = STATUS.as_bytes().to_vec();
            shorter.remove(place);
            assert_as_defined(&shorter, SHEET);
        }
    }
}

#[test]
fn right_texts_give_their_list() {
    let mut numbers = Numbers(0x2545_f491_4f6c_dd1d);
    for _ in 0..5000 {
        let text = made(&mut numbers);
        assert!(defined(&text).is_ok(), "{:?}", String::from_utf8_lossy(&text));
        assert_as_defined(&text, SHEET);
    }
}

#[test]
fn broken_texts_are_refused_at_the_defined_line() {
    let mut numbers = Numbers(0x9e37_79b9_7f4a_7c15);
    let mut refused = 0;
    for _ in 0..10_000 {
        let text = made(&mut numbers);
        let text = broken(text, &mut numbers);
        assert_as_defined(&text, SHEET);
        refused += u32::from(defined(&text).is_err());
    }
    assert!((2000..8000).contains(&refused), "{refused}");
}
