//! Status texts with one fault put into them.
//!
//! For most kinds of fault the line is known when the fault is made: each line is known to be right, wrong or passed over.

mod blind;
mod line;
mod order;
mod value;

use super::fault::StatusFault;
use super::lines::{Found, Line, Lines, WANTED};
use super::{unwanted, StatusKind};
use crate::random::Random;

/// The text of those lines with some fault, and what is known of it. More often than the rest: another line before the one due, for each is to be
/// met before each, and bytes changed anywhere, for few leave a text.
pub(super) fn broken(random: &mut Random, lines: Lines, found: &Found) -> (Vec<u8>, StatusKind) {
    let fault = match random.below(16) {
        0 | 1 => StatusFault::OutOfTurn,
        2 => random.pick(&[StatusFault::ByteChanged, StatusFault::ByteInserted, StatusFault::ByteDeleted]),
        _ => random.pick(&StatusFault::ALL),
    };
    broken_by(random, fault, lines, found)
}

pub(super) fn broken_by(
    random: &mut Random,
    fault: StatusFault,
    mut lines: Lines,
    found: &Found,
) -> (Vec<u8>, StatusKind) {
    if fault.is_blind() {
        let text = blind::broken(random, fault, &lines, found);
        return (text, StatusKind::Broken { fault, place: 0, line: None });
    }
    let place = random.pick(fault.places());
    put(random, fault, place, &mut lines, found);
    let line = lines.fault().expect("a text with a fault has one");
    if line <= lines.count() && random.one_in(3) {
        follow_otherwise(random, line, &mut lines);
    }
    (lines.text(), StatusKind::Broken { fault, place, line: Some(line as u32) })
}

// Puts the fault into the lines, which are right before.
fn put(random: &mut Random, fault: StatusFault, place: usize, lines: &mut Lines, found: &Found) {
    use StatusFault::*;
    match fault {
        LineLost | LineDoubled | LineBehind | LinesExchanged | OutOfTurn => {
            order::put(random, fault, place, lines, found);
        }
        NoColon | BlankBeforeName | OtherCase | NameLonger | NameShorter | BlankBeforeColon | ByteBeforeName => {
            hide(random, fault, place, lines);
        }
        CutInName | CutInValues | CutAfterLine | NoWantedLine => cut(random, fault, place, lines),
        _ if fault.is_of_a_value() => {
            let number = value::line_of(place);
            let at = lines.place_of(number);
            lines.lines[at] = Line::wrong(number, value::wrong(random, fault, place, &lines.lines[at].bytes));
        }
        _ => line::put(random, fault, place, lines),
    }
}

// The first fault decides: after it the text ends, or anything follows.
fn follow_otherwise(random: &mut Random, line: usize, lines: &mut Lines) {
    lines.lines.truncate(line);
    lines.has_last_newline = random.one_in(2);
    let others = match random.below(4) {
        0 => Vec::new(),
        1 => (0..WANTED.len()).map(|_| unwanted::wanted_line(random)).collect(),
        2 => vec![random.pick(&WANTED).as_bytes().to_vec(), b"Uid:".to_vec(), b"CapInh: 0\r".to_vec()],
        _ => (0..1 + random.below(4)).map(|_| unwanted::any(random)).collect(),
    };
    lines.lines.extend(others.into_iter().map(Line::passed_over));
}

// Changes the name of a wanted line so that the line is passed over.
fn hide(random: &mut Random, fault: StatusFault, place: usize, lines: &mut Lines) {
    let at = lines.place_of(place);
    let line = &lines.lines[at].bytes;
    let other = match fault {
        StatusFault::NoColon => unwanted::without_colon(random, line),
        StatusFault::BlankBeforeName => unwanted::with_blank_before(random, line),
        StatusFault::OtherCase => unwanted::in_another_case(random, line),
        StatusFault::NameLonger => unwanted::with_longer_name(random, line),
        StatusFault::NameShorter => unwanted::with_shorter_name(random, line),
        StatusFault::BlankBeforeColon => unwanted::with_blank_before_colon(random, line),
        _ => unwanted::with_byte_before(random, line),
    };
    lines.lines[at] = Line::passed_over(other);
}

// Few lines, or none, or those of a sheet, none of them wanted.
fn few_lines(random: &mut Random) -> Vec<Line> {
    let lines: &[&str] = random.pick(&[
        &[],
        &["x"],
        &["x"],
        &[""],
        &["", ""],
        &["Uid"],
        &["ruid=0", "euid=0", "suid=0", "fsuid=0", "rgid=0", "egid=0", "sgid=0", "fsgid=0", "permitted=", "nnp=0"],
    ]);
    lines.iter().map(|line| Line::passed_over(line.as_bytes().to_vec())).collect()
}

// Ends the text too early.
fn cut(random: &mut Random, fault: StatusFault, place: usize, lines: &mut Lines) {
    lines.has_last_newline = random.one_in(2);
    if fault == StatusFault::NoWantedLine {
        lines.lines.retain(|line| !line.is_wanted());
        if random.one_in(2) {
            lines.lines = few_lines(random);
        }
        return;
    }
    let at = lines.place_of(place);
    let mut line = lines.lines[at].bytes.clone();
    match fault {
        StatusFault::CutInName => {
            line.truncate(1 + random.below(WANTED[place].len()));
            lines.lines.truncate(at);
            lines.lines.push(Line::passed_over(line));
        }
        StatusFault::CutInValues => {
            line.truncate(value::within(random, &line));
            lines.lines.truncate(at);
            lines.lines.push(Line::wrong(place, line));
        }
        _ => {
            let next = lines.place_of(place + 1);
            lines.lines.truncate(at + 1 + random.below(next - at));
        }
    }
}
