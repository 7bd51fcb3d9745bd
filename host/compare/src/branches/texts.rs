//! "Sheet, plan and report" and the codes of a plan: 70, 72, 28 in that order.

use super::sheet::{Values, IDS, KEYS};
use super::validity::{FLAWS_OF_TEXTS, LARGEST_ID};
use super::Row;
use plans::{Fault, Generated, Kind, Plan};
use urrezkalu::Outcome;

/// The keys of a step's five lines.
const STEP_KEYS: [&str; 5] = ["call", "a", "b", "c", "attr"];
const SHEET_LINES: u32 = 15;
const STEP_LINES: u32 = 5;
const LINE_OF_STEP_257: u32 = 1296;

/// A text and what it came to in four buffers.
pub struct Sight {
    /// The text, and what was known of it beforehand.
    pub generated: Generated,
    /// With room for any report.
    pub outcome: Outcome,
    /// With just the report's length, or no room if there is no report.
    pub exact: Outcome,
    /// One byte short of that, or with no room.
    pub one_short: Outcome,
    /// With no room.
    pub no_room: Outcome,
}

impl Sight {
    /// The line of a fault that was put there.
    fn fault_line(&self) -> Option<u32> {
        match self.generated.kind {
            Kind::Broken { line, .. } => line,
            _ => None,
        }
    }

    fn fault(&self) -> Option<Fault> {
        match self.generated.kind {
            Kind::Broken { fault, .. } => Some(fault),
            _ => None,
        }
    }

    /// The start of a plan that is well-formed and not valid.
    fn invalid_start(&self) -> Option<Values> {
        match &self.generated.kind {
            Kind::Flawed(plan) => Some(plans::values(&plan.start)),
            _ => None,
        }
    }

    /// A plan whose start is valid.
    fn plan(&self) -> Option<&Plan> {
        match &self.generated.kind {
            Kind::Runs(plan) => Some(plan),
            _ => None,
        }
    }

    fn steps(&self) -> Option<usize> {
        self.plan().map(|plan| plan.steps.len())
    }

    /// How many newlines the text has.
    fn lines(&self) -> u32 {
        self.generated.text.iter().filter(|byte| **byte == b'\n').count() as u32
    }

    fn is_malformed_where_broken(&self) -> bool {
        let expected = self.fault_line().map(|line| Outcome::Malformed { line });
        Some(self.outcome) == expected && self.one_short == self.outcome && self.no_room == self.outcome
    }
}

fn malformed(name: String, when: impl Fn(&Sight, u32) -> bool + Send + Sync + 'static) -> Row<Sight> {
    Row::new(name, move |s: &Sight| s.fault_line().is_some_and(|line| when(s, line)), Sight::is_malformed_where_broken)
}

/// The rows of texts.
pub fn rows() -> Vec<Row<Sight>> {
    let mut rows = Vec::new();
    rows.extend(rows_of_lines());
    rows.extend(rows_of_faults());
    rows.extend(rows_of_starts());
    rows.extend(rows_of_reports());
    rows
}

fn is_in_a_step(line: u32) -> bool {
    line > SHEET_LINES && line < LINE_OF_STEP_257
}

fn rows_of_lines() -> Vec<Row<Sight>> {
    let mut rows = Vec::new();
    for (key, number) in KEYS.into_iter().chain(STEP_KEYS).zip(1..) {
        if number <= SHEET_LINES {
            rows.push(malformed(format!("70: line {number}, {key}"), move |_, line| line == number));
            rows.push(malformed(format!("70: the text ends in line {number}, {key}"), move |s, line| {
                line == number && s.fault() == Some(Fault::CutInLine)
            }));
        } else {
            let is_it = move |line: u32| is_in_a_step(line) && line % STEP_LINES == number % STEP_LINES;
            rows.push(malformed(format!("70: {key} of a step"), move |_, line| is_it(line)));
            rows.push(malformed(format!("70: the text ends in {key} of a step"), move |s, line| {
                is_it(line) && s.fault() == Some(Fault::CutInLine)
            }));
        }
    }
    rows.push(malformed("70: in the first step".into(), |_, line| (16..=20).contains(&line)));
    rows.push(malformed("70: in the second step".into(), |_, line| (21..=25).contains(&line)));
    rows.push(malformed("70: in step 100 to 256".into(), |_, line| (511..=1295).contains(&line)));
    rows.push(malformed("70: line 1296, step 257".into(), |s, line| {
        line == LINE_OF_STEP_257 && s.fault() == Some(Fault::TooManySteps)
    }));
    rows.push(malformed("70: line 1296, step 257 cut short".into(), |s, line| {
        line == LINE_OF_STEP_257
            && s.fault() == Some(Fault::TooManySteps)
            && s.lines() + 1 < LINE_OF_STEP_257 + STEP_LINES
    }));
    rows.push(malformed("70: line 1296, text after step 256".into(), |s, line| {
        line == LINE_OF_STEP_257 && s.fault() == Some(Fault::Appended)
    }));
    rows.push(malformed("70: after a sheet of no steps".into(), |s, line| {
        line == SHEET_LINES + 1 && s.fault() == Some(Fault::Appended)
    }));
    rows.push(Row::new(
        "70: empty text, line 1",
        |s: &Sight| s.generated.text.is_empty(),
        |s| s.outcome == Outcome::Malformed { line: 1 },
    ));
    rows
}

fn rows_of_faults() -> Vec<Row<Sight>> {
    let mut rows = Vec::new();
    for fault in Fault::ALL {
        let name = format!("70: {}", described(fault));
        rows.push(Row::new(
            name,
            move |s: &Sight| s.fault() == Some(fault),
            |s| s.fault_line().is_none() || s.is_malformed_where_broken(),
        ));
    }
    let blind = |s: &Sight| s.fault().is_some() && s.fault_line().is_none();
    rows.push(Row::new(
        "0: a plan still, after a byte changed, was added or lost",
        move |s| blind(s) && matches!(s.outcome, Outcome::Report { .. }),
        |_| true,
    ));
    rows.push(malformed("70 comes before 72".into(), |s, _| {
        matches!(s.generated.kind, Kind::Broken { valid: false, .. })
    }));
    rows.push(Row::new(
        "70: more than 50,000 bytes",
        move |s: &Sight| s.generated.text.len() > 50_000 && s.fault().is_some(),
        |s| matches!(s.outcome, Outcome::Malformed { .. }),
    ));
    rows
}

/// A fault in a few words.
pub fn described(fault: Fault) -> &'static str {
    match fault {
        Fault::NotADigit => "no digit in a value",
        Fault::UpperCase => "upper-case hex",
        Fault::LeadingZero => "leading zero",
        Fault::Sign => "sign",
        Fault::TooLarge => "number too large",
        Fault::NoDigits => "no value",
        Fault::DigitLost => "digit lost",
        Fault::DigitAdded => "digit added",
        Fault::LongAttribute => "attribute of more than 48 digits",
        Fault::Blank => "blank in a value",
        Fault::WrongKey => "wrong key",
        Fault::OtherFamily => "user ID's key for a group ID, or the other way round",
        Fault::CarriageReturn => "carriage return",
        Fault::Nul => "zero byte",
        Fault::NotAscii => "byte above 127",
        Fault::BlankLine => "blank line",
        Fault::LineLost => "line lost",
        Fault::LineDoubled => "line doubled",
        Fault::LinesExchanged => "lines exchanged",
        Fault::GroupsLost => "no lines of group IDs",
        Fault::GroupsMoved => "group IDs in another place",
        Fault::CutInLine => "cut within a line",
        Fault::CutBetweenLines => "cut between lines",
        Fault::LastNewlineLost => "last newline lost",
        Fault::Appended => "text appended",
        Fault::TooManySteps => "too many steps",
        Fault::ByteChanged => "byte changed",
        Fault::ByteInserted => "byte inserted",
        Fault::ByteDeleted => "byte deleted",
        Fault::BytesChanged => "several bytes changed",
        Fault::Noise => "noise",
        Fault::SheetThenNoise => "noise after a sheet",
    }
}

fn rows_of_starts() -> Vec<Row<Sight>> {
    let is_invalid = |s: &Sight| [s.outcome, s.exact, s.one_short, s.no_room] == [Outcome::Invalid; 4];
    let mut rows = Vec::new();
    for flaw in FLAWS_OF_TEXTS {
        let name = format!("72: {}", flaw.name);
        let applies = move |s: &Sight| s.invalid_start().is_some_and(|start| flaw.is_just_in(&start));
        rows.push(Row::new(name, applies, is_invalid));
    }
    rows
}

fn rows_of_reports() -> Vec<Row<Sight>> {
    let runs = |s: &Sight| matches!(s.outcome, Outcome::Report { .. });
    let mut rows = Vec::new();
    for place in IDS {
        let is_the_largest = move |plan: &Plan| plans::values(&plan.start)[place] == LARGEST_ID;
        let name = format!("0: {} 4294967294", KEYS[place]);
        rows.push(Row::new(name, move |s: &Sight| s.plan().is_some_and(is_the_largest), runs));
    }
    for count in [0, 1, 255, 256] {
        rows.push(Row::new(format!("0: {count} steps"), move |s: &Sight| s.steps() == Some(count), runs));
    }
    rows.push(Row::new("28: one byte short", |s: &Sight| s.steps().is_some(), |s| s.one_short == Outcome::NoRoom));
    rows.push(Row::new("0: just enough room", |s: &Sight| s.steps().is_some(), |s| s.exact == s.outcome));
    rows.push(Row::new("28: no room", |s: &Sight| s.steps().is_some(), |s| s.no_room == Outcome::NoRoom));
    rows
}
