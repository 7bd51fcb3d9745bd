//! Lines that are passed over: a kernel's own, near misses of the seven names, and any bytes.

use super::lines::{Found, Line, Lines, WANTED};
use crate::random::Random;

/// The other lines of a kernel's file, as proc(5) has them, in their places: before the seven, between the first and the second, and after them.
const BEFORE: [&str; 8] = [
    "Name:\troaster",
    "Umask:\t0022",
    "State:\tS (sleeping)",
    "Tgid:\t17248",
    "Ngid:\t0",
    "Pid:\t17248",
    "PPid:\t17200",
    "TracerPid:\t0",
];
const BETWEEN: [&str; 32] = [
    "Gid:\t100\t100\t100\t100",
    "FDSize:\t256",
    "Groups:\t16 33 100 ",
    "NStgid:\t17248",
    "NSpid:\t17248",
    "NSpgid:\t17248",
    "NSsid:\t17200",
    "VmPeak:\t  131168 kB",
    "VmSize:\t  131168 kB",
    "VmLck:\t       0 kB",
    "VmPin:\t       0 kB",
    "VmHWM:\t   13484 kB",
    "VmRSS:\t   13484 kB",
    "RssAnon:\t   10264 kB",
    "RssFile:\t    3220 kB",
    "RssShmem:\t       0 kB",
    "VmData:\t   10332 kB",
    "VmStk:\t     136 kB",
    "VmExe:\t     992 kB",
    "VmLib:\t    2104 kB",
    "VmPTE:\t      76 kB",
    "VmSwap:\t       0 kB",
    "HugetlbPages:\t       0 kB",
    "CoreDumping:\t0",
    "THP_enabled:\t1",
    "Threads:\t1",
    "SigQ:\t0/3067",
    "SigPnd:\t0000000000000000",
    "ShdPnd:\t0000000000000000",
    "SigBlk:\t0000000000010000",
    "SigIgn:\t0000000000384004",
    "SigCgt:\t000000004b813efb",
];
const AFTER: [&str; 10] = [
    "Seccomp:\t0",
    "Seccomp_filters:\t0",
    "Speculation_Store_Bypass:\tthread vulnerable",
    "SpeculationIndirectBranch:\tconditional enabled",
    "Cpus_allowed:\t00000001",
    "Cpus_allowed_list:\t0",
    "Mems_allowed:\t00000000,00000000,00000000,00000000,00000000,00000000,00000000,00000000,00000000,00000000,00000000,\
     00000000,00000000,00000000,00000000,00000000,00000000,00000000,00000000,00000000,00000000,00000000,00000000,\
     00000000,00000000,00000000,00000000,00000000,00000000,00000000,00000000,00000001",
    "Mems_allowed_list:\t0",
    "voluntary_ctxt_switches:\t150",
    "nonvoluntary_ctxt_switches:\t545",
];

/// Bytes that part lines elsewhere: carriage return, zero byte, vertical tab, form feed, and the two that Unicode has.
const NO_NEWLINES: [&str; 7] = ["\r", "\0", "\u{b}", "\u{c}", "\u{85}", "\u{2028}", "\x1e"];

/// A status text as a kernel writes it, with those values.
pub(super) fn kernel_file(found: &Found) -> Lines {
    let mut lines = Lines::of(found);
    let known = |names: &[&str]| -> Vec<Line> {
        names.iter().map(|line| Line::passed_over(line.as_bytes().to_vec())).collect()
    };
    lines.lines.extend(known(&AFTER));
    lines.lines.splice(1..1, known(&BETWEEN));
    lines.lines.splice(0..0, known(&BEFORE));
    lines
}

/// A line that is passed over.
pub(super) fn any(random: &mut Random) -> Vec<u8> {
    match random.below(16) {
        0..=3 => realistic(random),
        4..=8 => near_miss(random),
        9 => within(random),
        10 => Vec::new(),
        _ => hostile(random),
    }
}

/// One of a kernel's.
pub(super) fn realistic(random: &mut Random) -> Vec<u8> {
    let line = match random.below(4) {
        0 => random.pick(&BEFORE),
        1 => random.pick(&AFTER),
        _ => random.pick(&BETWEEN),
    };
    line.as_bytes().to_vec()
}

/// A wanted line but for its name: without a colon, with something before the name or after it, in another case, with a letter more or less.
pub(super) fn near_miss(random: &mut Random) -> Vec<u8> {
    let line = wanted_line(random);
    match random.below(9) {
        0 => random.pick(&WANTED).as_bytes().to_vec(),
        1 => without_colon(random, &line),
        2 => with_blank_before_colon(random, &line),
        3 => with_longer_name(random, &line),
        4 => with_shorter_name(random, &line),
        5 => in_another_case(random, &line),
        6 => with_blank_before(random, &line),
        _ => with_byte_before(random, &line),
    }
}

/// One of the seven lines, of any values.
pub(super) fn wanted_line(random: &mut Random) -> Vec<u8> {
    let values = [0; 10].map(|_: u64| random.number() & 0xffff);
    Line::right(random.below(WANTED.len()), &values).bytes
}

fn colon(line: &[u8]) -> usize {
    line.iter().position(|byte| *byte == b':').expect("a wanted line has a colon")
}

pub(super) fn without_colon(random: &mut Random, line: &[u8]) -> Vec<u8> {
    let other = random.pick(&["", "", "", " ", "=", ";", "\u{ff1a}"]);
    let (name, rest) = line.split_at(colon(line));
    [name, other.as_bytes(), &rest[1..]].concat()
}

pub(super) fn with_blank_before_colon(random: &mut Random, line: &[u8]) -> Vec<u8> {
    let blank = random.pick(&[" ", " ", "\t", "  "]);
    let (name, rest) = line.split_at(colon(line));
    [name, blank.as_bytes(), rest].concat()
}

pub(super) fn with_longer_name(random: &mut Random, line: &[u8]) -> Vec<u8> {
    let mut line = line.to_vec();
    let end = colon(&line);
    let at = if random.one_in(4) { 1 + random.below(end) } else { end };
    line.insert(at, random.pick(b"Xsx0_"));
    line
}

pub(super) fn with_shorter_name(random: &mut Random, line: &[u8]) -> Vec<u8> {
    let mut line = line.to_vec();
    let end = colon(&line);
    let from = match random.below(4) {
        0 => random.below(end),
        1 => 1 + random.below(end - 1),
        _ => end - 1,
    };
    let to = if random.one_in(4) { end } else { from + 1 };
    line.drain(from..to);
    line
}

pub(super) fn in_another_case(random: &mut Random, line: &[u8]) -> Vec<u8> {
    let mut line = line.to_vec();
    let end = colon(&line);
    match random.below(3) {
        0 => line[..end].make_ascii_lowercase(),
        1 => line[..end].make_ascii_uppercase(),
        _ => line[random.below(end)] ^= 0x20,
    }
    line
}

pub(super) fn with_blank_before(random: &mut Random, line: &[u8]) -> Vec<u8> {
    [random.pick(&[" ", " ", "\t", "  "]).as_bytes(), line].concat()
}

pub(super) fn with_byte_before(random: &mut Random, line: &[u8]) -> Vec<u8> {
    let before: &[u8] = random.pick(&[&b"x"[..], b"\r", b"\0", b"\xff", b":", b"#", b"U", b"N", "\u{feff}".as_bytes()]);
    [before, line].concat()
}

// A wanted line within another: behind another line's name, or where other readers begin a line.
fn within(random: &mut Random) -> Vec<u8> {
    let before = realistic(random);
    let between = if random.one_in(4) { "\t" } else { random.pick(&NO_NEWLINES) };
    [&before[..], between.as_bytes(), &wanted_line(random)].concat()
}

// Any bytes but newlines, mostly few. What begins with a name and a colon is hardly ever made, and made again.
fn hostile(random: &mut Random) -> Vec<u8> {
    loop {
        let mut line = match random.below(12) {
            0 => vec![0; 1 + random.below(3)],
            1 => vec![0xff; 1 + random.below(3)],
            2 => vec![b'\r'; 1 + random.below(2)],
            3 => vec![random.pick(b" \t"); 1 + random.below(4)],
            4 => values_alone(random, 0),
            5 => vec![b':'; 1 + random.below(3)],
            6 => [&realistic(random)[..], b"\r"].concat(),
            7 => [&realistic(random)[..], b"\0"].concat(),
            8 => [&realistic(random)[..], b"\xff\xfe"].concat(),
            9 if random.one_in(2) => long(random),
            9 => b"x".to_vec(),
            10 => values_alone(random, 1),
            _ => {
                let count = random.below(40);
                random.bytes(count)
            }
        };
        line.retain(|byte| *byte != b'\n');
        if !begins_as_wanted(&line) {
            return line;
        }
    }
}

// A wanted line without its name, or without name and colon.
fn values_alone(random: &mut Random, lost: usize) -> Vec<u8> {
    let line = wanted_line(random);
    line[colon(&line) + lost..].to_vec()
}

// Few are longer than 65,535 bytes.
fn long(random: &mut Random) -> Vec<u8> {
    let count = match random.below(20) {
        0 => 65_536 + random.below(100),
        1..=4 => 4_096 + random.below(1_000),
        _ => 256 + random.below(500),
    };
    let byte = random.pick(b"x:\0\xff\t");
    vec![byte; count]
}

/// Whether a line begins with one of the names and a colon.
pub(super) fn begins_as_wanted(line: &[u8]) -> bool {
    WANTED.iter().any(|name| line.strip_prefix(name.as_bytes()).is_some_and(|rest| rest.first() == Some(&b':')))
}

#[cfg(test)]
mod tests {
    use super::*;

    #[test]
    fn what_is_passed_over_is_one_line_and_not_wanted() {
        let mut random = Random::new(5);
        for _ in 0..50_000 {
            let line = any(&mut random);
            assert!(!begins_as_wanted(&line), "{}", line.escape_ascii());
            assert!(!line.contains(&b'\n'));
        }
        assert!(begins_as_wanted(b"Uid:") && !begins_as_wanted(b"Uid") && !begins_as_wanted(b"CapInhX:"));
    }

    #[test]
    fn a_kernels_file_is_of_its_length() {
        let file = kernel_file(&[1000; 10]);
        assert_eq!(file.fault(), None);
        assert!((1300..1500).contains(&file.text().len()), "{}", file.text().len());
    }
}
