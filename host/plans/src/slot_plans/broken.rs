//! Texts that are no slot plans, or hardly ever: a written one with one fault put into it.

use super::shape::Shape;
use super::{SlotFault, SlotKind, SlotPlan, SlotText};
use crate::broken::{any_fault, broken_at, broken_by, start_to_break, steps_to_break, Fault, Steps, SHEET_LINES};
use crate::random::Random;
use crate::MOST_STEPS;

/// Keys that the line of a slot could be thought to have.
const OTHER_KEYS: [&[u8]; 8] = [b"thread=", b"pid=", b"tid=", b"call=", b"slots=", b"SLOT=", b"Slot=", b"slot ="];

/// A text with some fault.
pub(super) fn broken(random: &mut Random) -> SlotText {
    // More often than the rest: the cuts, for every line is to be cut in and before, text after the last step, long texts, and slots that are too large.
    let fault = match random.below(16) {
        0..=7 => SlotFault::OfPlans(any_fault(random)),
        8 | 9 => {
            SlotFault::OfPlans(random.pick(&[Fault::CutInLine, Fault::CutBetweenLines, Fault::Appended, Fault::Noise]))
        }
        10..=13 => SlotFault::InSlotLine(random.pick(&SlotFault::IN_SLOT_LINES)),
        14 => SlotFault::InSlotLine(Fault::TooLarge),
        _ => random.pick(&[SlotFault::NoSlots, SlotFault::SlotLast]),
    };
    let valid = !random.one_in(6);
    let plan = plan_to_break(random, fault, valid);
    let (text, line) = with_fault(random, fault, plan);
    let line = line.map(|line| line as u32);
    SlotText { text, kind: SlotKind::Broken { fault, line, valid } }
}

// A slot plan to put a fault into. Where text stands after the last step, it is now and then the longest that there is.
fn plan_to_break(random: &mut Random, fault: SlotFault, valid: bool) -> SlotPlan {
    let count = match fault {
        SlotFault::OfPlans(fault) => steps_to_break(random, fault),
        _ if random.one_in(30) => MOST_STEPS,
        _ => 1 + random.below(5),
    };
    let goes_past_the_last = matches!(fault, SlotFault::OfPlans(Fault::Appended | Fault::TooManySteps));
    if goes_past_the_last && count >= MOST_STEPS && valid && random.one_in(2) {
        let start = Shape::LongestText.start(random);
        return Shape::LongestText.plan(random, start, count);
    }
    let start = start_to_break(random, valid);
    Shape::Helpers.plan(random, start, count)
}

// Puts the fault into a slot plan. Gives the text, and the line of the fault if it is known.
fn with_fault(random: &mut Random, fault: SlotFault, plan: SlotPlan) -> (Vec<u8>, Option<usize>) {
    let at = slot_line(random, plan.steps.len());
    match fault {
        SlotFault::OfPlans(fault) => broken_by(random, fault, plan.text(), Steps::OfSlotPlans),
        SlotFault::InSlotLine(Fault::WrongKey) if random.one_in(2) => {
            let key = random.pick(&OTHER_KEYS);
            (with_key(&plan.text(), at, key), Some(at + 1))
        }
        SlotFault::InSlotLine(fault) => {
            let (text, line) = broken_at(random, fault, &plan.text(), at, Steps::OfSlotPlans);
            (text, Some(line))
        }
        SlotFault::NoSlots => {
            let lines = lines(&plan.text());
            let is_slot =
                |at: usize| at >= SHEET_LINES && (at - SHEET_LINES).is_multiple_of(Steps::OfSlotPlans.lines());
            let others = lines.into_iter().enumerate().filter(|(at, _)| !is_slot(*at));
            (others.flat_map(|(_, line)| line).collect(), Some(SHEET_LINES + 1))
        }
        SlotFault::SlotLast => {
            let mut lines = lines(&plan.text());
            let slot = lines.remove(at);
            lines.insert(at + Steps::OfSlotPlans.lines() - 1, slot);
            (lines.concat(), Some(at + 1))
        }
    }
}

// The line of a slot, counted from 0: that of the first step, of the last, or of any.
fn slot_line(random: &mut Random, steps: usize) -> usize {
    let step = match random.below(4) {
        0 => 0,
        1 => steps.saturating_sub(1),
        _ => random.below(steps.max(1)),
    };
    SHEET_LINES + step * Steps::OfSlotPlans.lines()
}

fn with_key(text: &[u8], at: usize, key: &[u8]) -> Vec<u8> {
    let mut lines = lines(text);
    let equals = lines[at].iter().position(|byte| *byte == b'=').expect("a line has a key");
    lines[at].splice(..=equals, key.iter().copied());
    lines.concat()
}

fn lines(text: &[u8]) -> Vec<Vec<u8>> {
    text.split_inclusive(|byte| *byte == b'\n').map(<[u8]>::to_vec).collect()
}

#[cfg(test)]
mod tests {
    use super::*;
    use urrezkalu::{run_slot_plan, Outcome};

    #[test]
    fn every_fault_breaks_the_text_where_it_says() {
        for fault in SlotFault::all() {
            for seed in 0..200 {
                let mut random = Random::new(seed);
                let plan = plan_to_break(&mut random, fault, seed % 2 == 0);
                let (text, line) = with_fault(&mut random, fault, plan);
                let Some(line) = line else { continue };
                let outcome = run_slot_plan(&text, &mut []);
                assert_eq!(outcome, Outcome::Malformed { line: line as u32 }, "{fault:?}, seed {seed}");
            }
        }
    }

    // A step of a plan among those of a slot plan, a slot after its call, one beyond 99: each in a slot's line.
    #[test]
    fn slots_are_broken_in_the_line_of_a_slot() {
        for fault in SlotFault::IN_SLOT_LINES {
            for seed in 0..50 {
                let mut random = Random::new(seed);
                let plan = plan_to_break(&mut random, SlotFault::InSlotLine(fault), true);
                let (_, line) = with_fault(&mut random, SlotFault::InSlotLine(fault), plan);
                let line = line.expect("its line is known");
                // Doubled, the second is at fault.
                let at = line - 1 - usize::from(fault == Fault::LineDoubled);
                assert_eq!((at - SHEET_LINES) % 6, 0, "{fault:?}, seed {seed}");
            }
        }
    }
}
