//! Wanted lines that are right and not due, or left out.

use crate::random::Random;
use crate::status::lines::{Found, Line, Lines, WANTED};
use crate::status::{unwanted, StatusFault};

/// Puts the fault at the wanted line of that number.
pub(super) fn put(random: &mut Random, fault: StatusFault, number: usize, lines: &mut Lines, found: &Found) {
    let at = lines.place_of(number);
    match fault {
        StatusFault::LineLost => {
            lines.lines.remove(at);
        }
        StatusFault::LineDoubled => {
            let line = lines.lines[at].clone();
            lines.lines.insert(at + 1, line);
            if random.one_in(2) {
                lines.lines.insert(at + 1, Line::passed_over(unwanted::any(random)));
            }
        }
        StatusFault::LineBehind => {
            let last = lines.place_of(WANTED.len() - 1);
            let behind = last + 1 + random.below(lines.lines.len() - last);
            let line = any(random, number, found);
            lines.lines.insert(behind, line);
        }
        StatusFault::LinesExchanged => {
            let next = lines.place_of(number + 1);
            lines.lines.swap(at, next);
        }
        _ => {
            let other = (number + 1 + random.below(WANTED.len() - 1)) % WANTED.len();
            let line = any(random, other, found);
            lines.lines.insert(at, line);
        }
    }
}

// The wanted line of that number: that of the values, or one with its name and colon alone.
fn any(random: &mut Random, number: usize, found: &Found) -> Line {
    if random.one_in(4) {
        Line::wrong(number, format!("{}:", WANTED[number]).into_bytes())
    } else {
        Line::right(number, found)
    }
}
