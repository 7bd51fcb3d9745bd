//! Texts that are no plans, or hardly ever: a written plan or slot plan with one fault put into it.
//!
//! For most kinds of fault the line of refusal 70 is known when the fault is made. For a byte changed anywhere and the like it is not.

mod fault;
mod line;
mod lines;

pub use fault::Fault;
pub(crate) use line::{Steps, SHEET_LINES};

use crate::random::Random;
use crate::starts::{self, Flaw};
use crate::{with_steps, Generated, Kind, Plan, MOST_STEPS};
use line::Form;
use lines::{line_count, line_ends, split};
use second::Credentials;

/// A text with some fault.
pub(crate) fn broken(random: &mut Random) -> Generated {
    let fault = any_fault(random);
    let valid = !random.one_in(6);
    let plan = plan_to_break(random, fault, valid);
    let (text, line) = broken_by(random, fault, plan.text(), Steps::OfPlans);
    let line = line.map(|line| line as u32);
    Generated { text, kind: Kind::Broken { fault, line, valid } }
}

/// Any of the faults; a cut within a line more often, for every line is to be cut in.
pub(crate) fn any_fault(random: &mut Random) -> Fault {
    if random.one_in(12) {
        Fault::CutInLine
    } else {
        random.pick(&Fault::ALL)
    }
}

/// A sheet with some fault.
pub(crate) fn broken_sheet(random: &mut Random) -> Generated {
    let fault = fault_of_a_sheet(random);
    let valid = !random.one_in(6);
    let sheet = Plan { start: start_to_break(random, valid), steps: Vec::new() }.text();
    let (text, line) = if fault == Fault::Appended && random.one_in(4) {
        (sheet.repeat(2), Some(SHEET_LINES + 1))
    } else {
        broken_by(random, fault, sheet, Steps::OfPlans)
    };
    let line = line.map(|line| line as u32);
    Generated { text, kind: Kind::Broken { fault, line, valid } }
}

// More often than the rest: the cuts, for every line is to be cut in and before, text past the sheet, and another byte, for few leave a sheet.
fn fault_of_a_sheet(random: &mut Random) -> Fault {
    match random.below(14) {
        0 => Fault::CutInLine,
        1 => Fault::CutBetweenLines,
        2 => Fault::Appended,
        3 => Fault::ByteChanged,
        4 => random.pick(&[Fault::Noise, Fault::SheetThenNoise]),
        _ => loop {
            let fault = random.pick(&Fault::ALL);
            if fault.is_in_sheets() {
                break fault;
            }
        },
    }
}

/// Credentials to start from. They may be invalid, for the fault comes before that.
pub(crate) fn start_to_break(random: &mut Random, valid: bool) -> Credentials {
    if valid {
        starts::valid(random)
    } else {
        let flaw = random.pick(&Flaw::ALL);
        starts::flawed(random, flaw)
    }
}

fn plan_to_break(random: &mut Random, fault: Fault, valid: bool) -> Plan {
    let start = start_to_break(random, valid);
    let count = steps_to_break(random, fault);
    with_steps(random, start, count)
}

/// How many steps a plan has that the fault is put into; now and then the most.
pub(crate) fn steps_to_break(random: &mut Random, fault: Fault) -> usize {
    match fault {
        Fault::TooManySteps => random.pick(&[257, 257, 258, 300]),
        Fault::Appended if random.one_in(4) => MOST_STEPS,
        _ if random.one_in(30) => random.pick(&[MOST_STEPS - 1, MOST_STEPS]),
        _ => random.below(6),
    }
}

/// Puts the fault into the text of a plan or a slot plan. Gives the text, and the line of the fault if it is known.
pub(crate) fn broken_by(random: &mut Random, fault: Fault, text: Vec<u8>, steps: Steps) -> (Vec<u8>, Option<usize>) {
    match fault {
        Fault::GroupsLost | Fault::GroupsMoved => {
            let (text, line) = lines::groups_moved(random, fault, &text);
            (text, Some(line))
        }
        Fault::LastNewlineLost => (text[..text.len() - 1].to_vec(), Some(line_count(&text))),
        Fault::CarriageReturn if random.one_in(4) => (with_carriage_returns(&text), Some(1)),
        Fault::Appended => {
            let line = line_count(&text) + 1;
            (appended(random, text, steps), Some(line))
        }
        Fault::TooManySteps => (lines::cut_in_step_257(random, text, steps), Some(steps.line_of_step_257())),
        Fault::ByteChanged | Fault::ByteInserted | Fault::ByteDeleted | Fault::BytesChanged => {
            (bytes_changed(random, fault, text), None)
        }
        Fault::Noise => (noise(random), None),
        Fault::SheetThenNoise => {
            let end = line_ends(&text)[SHEET_LINES - 1];
            ([&text[..end], &noise(random)].concat(), None)
        }
        _ => match line_for(random, fault, line_count(&text), steps) {
            Some(at) => {
                let (text, line) = broken_at(random, fault, &text, at, steps);
                (text, Some(line))
            }
            None => broken_by(random, fault, [&text, steps.launch()].concat(), steps),
        },
    }
}

/// Puts the fault into the line at that place, counted from 0, or moves the line, or cuts the text in it. Gives the text, and the line of the fault.
pub(crate) fn broken_at(random: &mut Random, fault: Fault, text: &[u8], at: usize, steps: Steps) -> (Vec<u8>, usize) {
    match fault {
        Fault::BlankLine | Fault::LineLost | Fault::LineDoubled | Fault::LinesExchanged => {
            lines::moved(fault, text, at)
        }
        Fault::CutInLine | Fault::CutBetweenLines => lines::cut(random, fault, text, at, steps),
        _ => {
            let lines = split(text);
            let changed = line::changed(random, fault, Form::of_line(at, steps), lines[at]);
            ([&lines[..at].concat(), &changed[..], &lines[at + 1..].concat()].concat(), at + 1)
        }
    }
}

// A line to put the fault into, those of the sheet as often as those of the steps; none for an attribute where there are no steps.
fn line_for(random: &mut Random, fault: Fault, count: usize, steps: Steps) -> Option<usize> {
    if matches!(
        fault,
        Fault::BlankLine
            | Fault::LineLost
            | Fault::LineDoubled
            | Fault::LinesExchanged
            | Fault::CutInLine
            | Fault::CutBetweenLines
    ) {
        return Some(any_line(random, count));
    }
    loop {
        // The last two lines of a sheet are the only ones of their forms.
        let at = if random.one_in(6) { SHEET_LINES - 1 - random.below(2) } else { any_line(random, count) };
        if line::can_have(Form::of_line(at, steps), fault) {
            return Some(at);
        }
        if fault == Fault::LongAttribute && count == SHEET_LINES {
            return None;
        }
    }
}

fn any_line(random: &mut Random, count: usize) -> usize {
    if count == SHEET_LINES || random.one_in(2) {
        random.below(SHEET_LINES)
    } else {
        SHEET_LINES + random.below(count - SHEET_LINES)
    }
}

fn with_carriage_returns(text: &[u8]) -> Vec<u8> {
    split(text).into_iter().flat_map(|line| [&line[..line.len() - 1], b"\r\n"].concat()).collect()
}

fn appended(random: &mut Random, mut text: Vec<u8>, steps: Steps) -> Vec<u8> {
    let pieces: [&[u8]; 9] = match steps {
        Steps::OfPlans => [b"\n", b" ", b"\0", b"x", b"call=", b"call=1", b"attr=\n", b"nnp=0\n", b"# end\n"],
        Steps::OfSlotPlans => [b"\n", b" ", b"\0", b"x", b"slot=", b"slot=0", b"call=1\n", b"nnp=0\n", b"ruid=0\n"],
    };
    text.extend_from_slice(random.pick(&pieces));
    text
}

fn bytes_changed(random: &mut Random, fault: Fault, mut text: Vec<u8>) -> Vec<u8> {
    let at = random.below(text.len());
    match fault {
        Fault::ByteChanged => text[at] = byte(random),
        Fault::ByteInserted => text.insert(at, byte(random)),
        Fault::ByteDeleted => {
            text.remove(at);
        }
        _ => several_changed(random, &mut text, byte),
    }
    text
}

/// Two to five bytes of a text that is not empty changed to others.
pub(crate) fn several_changed(random: &mut Random, text: &mut [u8], byte: fn(&mut Random) -> u8) {
    for _ in 0..2 + random.below(4) {
        let at = random.below(text.len());
        text[at] = byte(random);
    }
}

// Any byte, or one that texts have.
fn byte(random: &mut Random) -> u8 {
    if random.one_in(2) {
        random.byte()
    } else {
        random.pick(b"0123456789abcdef=\n")
    }
}

// Few are long, the longest having some megabytes; some are empty.
fn noise(random: &mut Random) -> Vec<u8> {
    let most = match random.below(200) {
        0 => 4_000_000,
        1..=19 => 100_000,
        20..=99 => 2_000,
        100..=109 => 1,
        _ => 40,
    };
    let count = random.below(most);
    random.bytes(count)
}

#[cfg(test)]
mod tests {
    use super::*;
    use urrezkalu::{run_plan, Outcome};

    #[test]
    fn every_fault_breaks_the_text_where_it_says() {
        for fault in Fault::ALL {
            for seed in 0..300 {
                let mut random = Random::new(seed);
                let whole = plan_to_break(&mut random, fault, seed % 2 == 0).text();
                let (text, line) = broken_by(&mut random, fault, whole.clone(), Steps::OfPlans);
                let Some(line) = line else { continue };
                assert!(fault == Fault::TooManySteps || text != whole, "{fault:?}, seed {seed}: nothing is changed");
                let outcome = run_plan(&text, &mut []);
                assert_eq!(outcome, Outcome::Malformed { line: line as u32 }, "{fault:?}, seed {seed}");
            }
        }
    }

    #[test]
    fn a_byte_inserted_or_deleted_changes_the_length() {
        let mut random = Random::new(4);
        let whole = plan_to_break(&mut random, Fault::ByteInserted, true).text();
        assert_eq!(bytes_changed(&mut random, Fault::ByteInserted, whole.clone()).len(), whole.len() + 1);
        assert_eq!(bytes_changed(&mut random, Fault::ByteDeleted, whole.clone()).len(), whole.len() - 1);
    }
}
