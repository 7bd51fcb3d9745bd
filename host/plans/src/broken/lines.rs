//! Faults of whole lines: lost, doubled, moved, and texts that end in one.

use super::{Fault, Steps, SHEET_LINES};
use crate::random::Random;
use std::ops::Range;

/// The lines of the group IDs, counted from 0.
const GROUP_LINES: Range<usize> = 4..8;

/// Where each line ends, just after its newline.
pub(super) fn line_ends(text: &[u8]) -> Vec<usize> {
    text.iter().enumerate().filter(|(_, byte)| **byte == b'\n').map(|(at, _)| at + 1).collect()
}

pub(super) fn line_count(text: &[u8]) -> usize {
    line_ends(text).len()
}

pub(super) fn split(text: &[u8]) -> Vec<&[u8]> {
    text.split_inclusive(|byte| *byte == b'\n').collect()
}

/// A blank line before the line at that place, counted from 0; or that line lost, doubled, or exchanged with the next. Gives the text, and the line of
/// the fault.
pub(super) fn moved(fault: Fault, text: &[u8], at: usize) -> (Vec<u8>, usize) {
    let mut lines = split(text);
    match fault {
        Fault::BlankLine => {
            lines.insert(at, b"\n");
            (lines.concat(), at + 1)
        }
        Fault::LineLost => {
            lines.remove(at);
            (lines.concat(), at + 1)
        }
        Fault::LineDoubled => {
            lines.insert(at, lines[at]);
            (lines.concat(), at + 2)
        }
        _ => {
            let at = at.min(lines.len() - 2);
            lines.swap(at, at + 1);
            (lines.concat(), at + 1)
        }
    }
}

/// The lines of the group IDs lost or put elsewhere.
pub(super) fn groups_moved(random: &mut Random, fault: Fault, text: &[u8]) -> (Vec<u8>, usize) {
    let mut lines = split(text);
    let groups: Vec<&[u8]> = lines.drain(GROUP_LINES).collect();
    let first_line = GROUP_LINES.start + 1;
    if fault == Fault::GroupsLost {
        return (lines.concat(), first_line);
    }
    match random.below(4) {
        0 => ([groups.concat(), lines.concat()].concat(), 1),
        1 => {
            for (place, group) in groups.into_iter().enumerate() {
                lines.insert(2 * place + 1, group);
            }
            (lines.concat(), 2)
        }
        place => {
            let end = SHEET_LINES - GROUP_LINES.len();
            let at = if place == 2 { end } else { end - 2 };
            lines.splice(at..at, groups);
            (lines.concat(), first_line)
        }
    }
}

/// The text up to some place in the line at that place, or up to where the line begins unless that ends the sheet or a step.
pub(super) fn cut(random: &mut Random, fault: Fault, text: &[u8], at: usize, steps: Steps) -> (Vec<u8>, usize) {
    let ends = line_ends(text);
    let start = if at == 0 { 0 } else { ends[at - 1] };
    let is_between_parts = at >= SHEET_LINES && (at - SHEET_LINES).is_multiple_of(steps.lines());
    if fault == Fault::CutBetweenLines && !is_between_parts {
        return (text[..start].to_vec(), at + 1);
    }
    // Just before the newline a third of the time: the line is right but for its end.
    let within = ends[at] - start - 1;
    let kept = if random.one_in(3) { within } else { 1 + random.below(within) };
    (text[..start + kept].to_vec(), at + 1)
}

/// A text of more than 256 steps, whole or cut anywhere in step 257 after its first line, where it is told whatever stands there.
pub(super) fn cut_in_step_257(random: &mut Random, mut text: Vec<u8>, steps: Steps) -> Vec<u8> {
    if random.one_in(3) {
        let ends = line_ends(&text);
        let first = steps.line_of_step_257();
        let (from, to) = (ends[first - 1], ends[first + steps.lines() - 2]);
        text.truncate(from + random.below(to - from));
    }
    text
}
