//! The text of a slot plan and its codes: 70, 72, 28 in that order.

use super::{reports, LONGEST_PLAN, SLOTS};
use crate::branches::seen::Seen;
use crate::branches::sheet::{Values, KEYS};
use crate::branches::texts::described;
use crate::branches::validity::FLAWS_OF_TEXTS;
use crate::branches::Row;
use plans::{Fault, SlotFault, SlotKind, SlotPlan, SlotText};
use second::Threads;

/// The keys of a step's six lines.
const STEP_KEYS: [&str; 6] = ["slot", "call", "a", "b", "c", "attr"];
const SHEET_LINES: u32 = 15;
const STEP_LINES: u32 = 6;
const LINE_OF_STEP_257: u32 = 1552;

/// What no slot is written as: the first that is too large, one that is right in its low 8, 16, 32 or 64 bits, zeros before it, nothing, signs, blanks.
const WRONG_SLOTS: [&str; 13] =
    ["100", "101", "256", "257", "65537", "4294967297", "18446744073709551617", "00", "", "+0", "-0", " 0", "0 "];

/// A text and what it came to in five buffers.
pub struct SlotSight {
    slot_text: SlotText,
    /// What came back in each buffer.
    pub seen: Seen<u8>,
    end: Option<End>,
    // Whether what came back is what the steps come to.
    is_reported: bool,
}

/// What the steps of a slot plan that runs come to one by one.
pub struct End {
    /// The slots after the last step.
    pub threads: Threads,
    /// The results as text.
    pub results: Vec<u8>,
    /// The slots in use as text.
    pub slots: Vec<u8>,
}

impl SlotSight {
    /// The text, what came back, and what its steps come to if it runs.
    pub fn new(slot_text: SlotText, seen: Seen<u8>, end: Option<End>) -> SlotSight {
        let is_reported =
            end.as_ref().is_some_and(|End { results, slots, .. }| seen.is_done(&[results.as_slice(), slots].concat()));
        SlotSight { slot_text, seen, end, is_reported }
    }

    pub fn text(&self) -> &[u8] {
        &self.slot_text.text
    }

    // How many newlines the text has.
    fn lines(&self) -> u32 {
        self.text().iter().filter(|byte| **byte == b'\n').count() as u32
    }

    // The line of a fault that was put there.
    fn fault_line(&self) -> Option<u32> {
        match self.slot_text.kind {
            SlotKind::Broken { line, .. } => line,
            _ => None,
        }
    }

    fn fault(&self) -> Option<SlotFault> {
        match self.slot_text.kind {
            SlotKind::Broken { fault, .. } => Some(fault),
            _ => None,
        }
    }

    /// A slot plan whose start is valid.
    pub fn plan(&self) -> Option<&SlotPlan> {
        match &self.slot_text.kind {
            SlotKind::Runs(plan) => Some(plan),
            _ => None,
        }
    }

    /// How many steps it has.
    pub fn steps(&self) -> Option<usize> {
        self.plan().map(|plan| plan.steps.len())
    }

    /// The values that it starts from.
    pub fn start(&self) -> Option<Values> {
        self.plan().map(|plan| plans::values(&plan.start))
    }

    // The start of a slot plan that is well-formed and not valid.
    fn invalid_start(&self) -> Option<Values> {
        match &self.slot_text.kind {
            SlotKind::Flawed(plan) => Some(plans::values(&plan.start)),
            _ => None,
        }
    }

    /// Whether that slot is in use after the last step.
    pub fn ends_with(&self, slot: u8) -> bool {
        self.end.as_ref().is_some_and(|end| end.threads.held(slot).is_some())
    }

    // The slots in use after the last step.
    fn in_use(&self) -> impl Iterator<Item = u8> + '_ {
        (0..SLOTS).filter(|slot| self.ends_with(*slot))
    }

    /// How many slots are in use after the last step.
    pub fn size(&self) -> usize {
        self.in_use().count()
    }

    /// Whether a free slot stands between two in use after the last step.
    pub fn has_gap(&self) -> bool {
        self.in_use().zip(self.in_use().skip(1)).any(|(one, next)| next > one + 1)
    }

    /// Whether some slots are in use after the last step, and all of them hold what the sheet says, or none does.
    pub fn all_hold(&self, the_sheets: bool) -> bool {
        let Some((end, plan)) = self.end.as_ref().zip(self.plan()) else { return false };
        let is_so = |slot: u8| (end.threads.held(slot) == Some(&plan.start)) == the_sheets;
        self.size() > 0 && self.in_use().all(is_so)
    }

    /// The results of its steps as text; nothing if it does not run.
    pub fn results(&self) -> &[u8] {
        self.end.as_ref().map_or(&[], |end| &end.results)
    }

    /// How many bytes its report has to have; none if it does not run.
    pub fn length(&self) -> usize {
        self.end.as_ref().map_or(0, |end| end.results.len() + end.slots.len())
    }

    /// Whether the report is what the steps come to one by one, in every buffer that has room for it.
    pub fn is_reported(&self) -> bool {
        self.is_reported
    }

    // Whether the text's line of that number is that of a slot of this value.
    fn has_slot_line(&self, number: u32, value: &str) -> bool {
        let line = self.text().split(|byte| *byte == b'\n').nth(number as usize - 1);
        line.and_then(|line| line.strip_prefix(b"slot=")) == Some(value.as_bytes())
    }

    fn is_malformed_where_broken(&self) -> bool {
        self.fault_line().is_some_and(|line| self.seen.is_refused(70, line))
    }
}

/// A row of texts.
pub fn row(
    name: impl std::fmt::Display,
    when: impl Fn(&SlotSight) -> bool + Send + Sync + 'static,
    then: impl Fn(&SlotSight) -> bool + Send + Sync + 'static,
) -> Row<SlotSight> {
    Row::new(format!("run_slot_plan, {name}"), when, then)
}

fn malformed(
    name: impl std::fmt::Display,
    when: impl Fn(&SlotSight, u32) -> bool + Send + Sync + 'static,
) -> Row<SlotSight> {
    row(
        format!("70: {name}"),
        move |s| s.fault_line().is_some_and(|line| when(s, line)),
        SlotSight::is_malformed_where_broken,
    )
}

/// The rows of texts and reports.
pub fn rows() -> Vec<Row<SlotSight>> {
    let mut rows = rows_of_lines();
    rows.extend(rows_of_steps());
    rows.extend(rows_of_faults());
    rows.extend(rows_of_slot_lines());
    rows.extend(rows_of_starts());
    rows.extend(reports::rows());
    rows
}

// The line's key, if it is one of a step.
fn step_key(line: u32) -> Option<&'static str> {
    let is_in_a_step = line > SHEET_LINES && line < LINE_OF_STEP_257;
    is_in_a_step.then(|| STEP_KEYS[((line - SHEET_LINES - 1) % STEP_LINES) as usize])
}

fn is_by(s: &SlotSight, fault: Fault) -> bool {
    s.fault() == Some(SlotFault::OfPlans(fault))
}

fn rows_of_lines() -> Vec<Row<SlotSight>> {
    let mut rows = Vec::new();
    for (key, number) in KEYS.into_iter().zip(1..) {
        rows.push(malformed(format!("line {number}, {key}"), move |_, line| line == number));
        rows.push(malformed(format!("the text ends in line {number}, {key}"), move |s, line| {
            line == number && is_by(s, Fault::CutInLine)
        }));
    }
    for key in STEP_KEYS {
        rows.push(malformed(format!("{key} of a step"), move |_, line| step_key(line) == Some(key)));
        rows.push(malformed(format!("the text ends in {key} of a step"), move |s, line| {
            step_key(line) == Some(key) && is_by(s, Fault::CutInLine)
        }));
        if key != "slot" {
            rows.push(malformed(format!("the text ends before {key} of a step"), move |s, line| {
                step_key(line) == Some(key) && is_by(s, Fault::CutBetweenLines)
            }));
        }
    }
    rows
}

fn rows_of_steps() -> Vec<Row<SlotSight>> {
    let is_long = |s: &SlotSight| s.text().len() > LONGEST_PLAN;
    vec![
        malformed("in the first step", |_, line| (16..=21).contains(&line)),
        malformed("in the second step", |_, line| (22..=27).contains(&line)),
        malformed("in step 100 to 255", |_, line| (610..=1545).contains(&line)),
        malformed("in step 256", |_, line| (1546..=1551).contains(&line)),
        malformed("line 1552, step 257", |s, line| line == LINE_OF_STEP_257 && is_by(s, Fault::TooManySteps)),
        malformed("line 1552, step 257 cut short", |s, line| {
            line == LINE_OF_STEP_257 && is_by(s, Fault::TooManySteps) && s.lines() + 1 < LINE_OF_STEP_257 + STEP_LINES
        }),
        malformed("line 1552, text after step 256", |s, line| line == LINE_OF_STEP_257 && is_by(s, Fault::Appended)),
        malformed("line 1552, step 257 after the longest of 256", move |s, line| {
            line == LINE_OF_STEP_257 && is_long(s) && s.text()[LONGEST_PLAN - 1] == b'\n'
        }),
        malformed("line 1552, one byte after the longest", |s, line| {
            line == LINE_OF_STEP_257 && s.text().len() == LONGEST_PLAN + 1
        }),
        malformed("after a sheet of no steps", |s, line| line == SHEET_LINES + 1 && is_by(s, Fault::Appended)),
        row("70: empty text, line 1", |s| s.text().is_empty(), |s| s.seen.is_refused(70, 1)),
        malformed("before 72", |s, _| matches!(s.slot_text.kind, SlotKind::Broken { valid: false, .. })),
        row(
            "70: more than 50,000 bytes",
            |s| s.text().len() > 50_000 && s.fault().is_some(),
            |s| s.seen.roomy.code == 70 && s.seen.is_refused(70, s.seen.roomy.number),
        ),
    ]
}

fn rows_of_faults() -> Vec<Row<SlotSight>> {
    let mut rows = Vec::new();
    for fault in SlotFault::all() {
        let name = match fault {
            SlotFault::OfPlans(fault) => described(fault).to_string(),
            SlotFault::InSlotLine(fault) => format!("{}, in the line of a slot", described(fault)),
            SlotFault::NoSlots => "the steps of a plan, without slots".to_string(),
            SlotFault::SlotLast => "the slot last in its step".to_string(),
        };
        rows.push(row(
            format!("70: {name}"),
            move |s| s.fault() == Some(fault),
            |s| s.fault_line().is_none() || s.is_malformed_where_broken(),
        ));
    }
    rows.push(row(
        "0: a slot plan still, after a byte changed, was added or lost",
        |s| s.fault().is_some() && s.fault_line().is_none() && s.seen.roomy.code == 0,
        |_| true,
    ));
    rows
}

// What is wrong with the line of a slot, in the first step and in others, and what some of them say.
fn rows_of_slot_lines() -> Vec<Row<SlotSight>> {
    let mut rows = Vec::new();
    for fault in SlotFault::IN_SLOT_LINES {
        for (step, is_first) in [("the first step", true), ("a later step", false)] {
            rows.push(malformed(format!("{}, in the slot of {step}", described(fault)), move |s, line| {
                // Doubled, the second is at fault.
                s.fault() == Some(SlotFault::InSlotLine(fault)) && (line <= SHEET_LINES + 2) == is_first
            }));
        }
    }
    for value in WRONG_SLOTS {
        rows.push(malformed(format!("slot={value}"), move |s, line| s.has_slot_line(line, value)));
    }
    rows
}

fn rows_of_starts() -> Vec<Row<SlotSight>> {
    let mut rows = Vec::new();
    for flaw in FLAWS_OF_TEXTS {
        let name = format!("72: {}", flaw.name);
        let applies = move |s: &SlotSight| s.invalid_start().is_some_and(|start| flaw.is_just_in(&start));
        rows.push(row(name, applies, |s| s.seen.is_refused(72, 0)));
    }
    rows
}
