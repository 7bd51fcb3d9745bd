//! Faults of one wanted line that are not in one value.

use super::value;
use crate::random::Random;
use crate::status::lines::{Line, Lines};
use crate::status::{unwanted, StatusFault};

/// Puts the fault into the wanted line of that number.
pub(super) fn put(random: &mut Random, fault: StatusFault, number: usize, lines: &mut Lines) {
    let at = lines.place_of(number);
    let line = lines.lines[at].bytes.clone();
    match fault {
        StatusFault::LineSplit => {
            let (front, end) = line.split_at(value::within(random, &line));
            lines.lines[at] = Line::wrong(number, front.to_vec());
            lines.lines.insert(at + 1, Line::passed_over(end.to_vec()));
        }
        StatusFault::LinesJoined => join(random, number, at, lines),
        StatusFault::CarriageReturn => {
            lines.lines[at] = Line::wrong(number, [&line[..], b"\r"].concat());
            if random.one_in(3) {
                lines.lines[at + 1..].iter_mut().for_each(|line| line.bytes.push(b'\r'));
            }
        }
        _ => lines.lines[at] = Line::wrong(number, changed(random, fault, &line)),
    }
}

// Whatever is joined to a wanted line, it may be no digit, for that makes another ID.
fn join(random: &mut Random, number: usize, at: usize, lines: &mut Lines) {
    let is_none = |line: &Line| line.bytes.first().is_none_or(u8::is_ascii_digit);
    if lines.lines.get(at + 1).is_none_or(is_none) {
        lines.lines.insert(at + 1, Line::passed_over(unwanted::realistic(random)));
    }
    let next = lines.lines.remove(at + 1);
    let joined = [&lines.lines[at].bytes[..], &next.bytes].concat();
    lines.lines[at] = Line::wrong(number, joined);
}

fn changed(random: &mut Random, fault: StatusFault, line: &[u8]) -> Vec<u8> {
    let mut line = line.to_vec();
    let colon = line.iter().position(|byte| *byte == b':').expect("a wanted line has a colon");
    let anywhere = colon + 1 + random.below(line.len() - colon);
    match fault {
        StatusFault::FurtherValue => {
            let more: &[u8] =
                random.pick(&[&b"\t0"[..], b"\t0", b"\t1000", b"\t0000000000000000", b"\tx", b"\t", b" kB", b" 0"]);
            line.extend_from_slice(more);
        }
        StatusFault::BlankBehind => line.push(random.pick(b" \t")),
        StatusFault::Nul => line.insert(anywhere, 0),
        StatusFault::HighByte => line.insert(anywhere, random.pick(&[0x80, 0x85, 0xa0, 0xff])),
        _ => line.insert(colon, b':'),
    }
    line
}
