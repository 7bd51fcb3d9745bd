//! A status text beside a predicted sheet: 70 for the text, 70 for the sheet, 72, 28 in that order, or the list of what differs.

mod lists;
mod malformed;
mod passed_over;
mod sheets;

use super::seen::Seen;
use super::sheet::{self, Values};
use super::status::{self, Compared, Fault, Reading};
use super::validity::is_valid;
use super::Row;
use plans::{StatusFault, StatusInput, StatusKind};

/// A status text and a sheet, and what came back for them.
pub struct Laid {
    input: StatusInput,
    reading: Reading,
    sheet: sheet::Reading,
    // The compared values of the sheet, if it is valid.
    predicted: Option<Compared>,
    // Which of the compared keys differ, by their places, where both are read.
    differing: u32,
    // The bytes of their list.
    length: usize,
    /// What came back in each buffer.
    pub seen: Seen<u8>,
    // Whether that is what the two come to, and they come to what they were made to say.
    is_right: bool,
}

impl Laid {
    /// The two, and what came back in each buffer.
    pub fn new(input: StatusInput, seen: Seen<u8>) -> Laid {
        let reading = status::read(&input.status);
        let sheet = sheet::read(&input.sheet.text);
        let predicted = match &sheet {
            sheet::Reading::Sheet(values) if is_valid(values) => Some(status::compared(values)),
            _ => None,
        };
        let (mut differing, mut length) = (0, 0);
        let came_back = match (&reading.found, &sheet, &predicted) {
            (Err(fault), _, _) => seen.is_refused(70, fault.line as u32),
            (_, sheet::Reading::Malformed { .. }, _) => seen.is_refused(70, 0),
            (_, _, None) => seen.is_refused(72, 0),
            (Ok(found), _, Some(predicted)) => {
                let differs = |key: &usize| predicted[*key] != found[*key];
                differing = (0..found.len()).filter(differs).fold(0, |keys, key| keys | 1 << key);
                let list = status::list(predicted, found);
                length = list.len();
                seen.is_done(&list)
            }
        };
        let is_right = came_back && is_as_made(&input.kind, &reading);
        Laid { input, reading, sheet, predicted, differing, length, seen, is_right }
    }

    /// Whether the status text is malformed.
    pub fn is_malformed(&self) -> bool {
        self.reading.found.is_err()
    }

    fn fault(&self) -> Option<&Fault> {
        self.reading.found.as_ref().err()
    }

    fn has_fault(&self, is_so: impl Fn(&Fault) -> bool) -> bool {
        self.fault().is_some_and(is_so)
    }

    // The fault that was put into the text, and where.
    fn made(&self) -> Option<(StatusFault, usize)> {
        match self.input.kind {
            StatusKind::WellFormed { .. } => None,
            StatusKind::Broken { fault, place, .. } => Some((fault, place)),
        }
    }

    fn text(&self) -> &[u8] {
        &self.input.status
    }

    // The predicted values of a sheet that is valid.
    fn valid(&self) -> Option<&Values> {
        self.values().filter(|_| self.predicted.is_some())
    }

    // The values of a sheet that is not valid.
    fn invalid(&self) -> Option<&Values> {
        self.values().filter(|_| self.predicted.is_none())
    }

    fn values(&self) -> Option<&Values> {
        match &self.sheet {
            sheet::Reading::Malformed { .. } => None,
            sheet::Reading::Sheet(values) => Some(values),
        }
    }

    fn is_sheet_malformed(&self) -> bool {
        matches!(self.sheet, sheet::Reading::Malformed { .. })
    }

    // The predicted and the found values, where both are read.
    fn both(&self) -> Option<(&Compared, &Compared)> {
        self.predicted.as_ref().zip(self.reading.found.as_ref().ok())
    }
}

// Whether the fault is where it was put, and the values are those that the text was written from.
fn is_as_made(kind: &StatusKind, reading: &Reading) -> bool {
    match (kind, &reading.found) {
        (StatusKind::WellFormed { found: made }, Ok(found)) => made == found,
        (StatusKind::WellFormed { .. }, Err(_)) => false,
        (StatusKind::Broken { line: None, .. }, _) => true,
        (StatusKind::Broken { line, .. }, found) => found.as_ref().err().map(|fault| fault.line as u32) == *line,
    }
}

fn row(name: impl std::fmt::Display, when: impl Fn(&Laid) -> bool + Send + Sync + 'static) -> Row<Laid> {
    Row::new(format!("compare_status, {name}"), when, |s: &Laid| s.is_right)
}

/// The rows of status texts that are malformed.
pub fn rows_of_malformed_texts() -> Vec<Row<Laid>> {
    let mut rows = malformed::rows();
    rows.extend(passed_over::rows_before_a_fault());
    rows
}

/// The rows of status texts that are well-formed.
pub fn rows_of_well_formed_texts() -> Vec<Row<Laid>> {
    let mut rows = sheets::rows();
    rows.extend(lists::rows());
    rows.extend(passed_over::rows());
    rows
}

#[cfg(test)]
mod tests {
    use super::super::seen::Answer;
    use super::super::Table;
    use super::*;

    // What comes back in every buffer but those of no room and one byte short, which are refused with 28 where it is a list.
    fn came_back(code: u32, number: u32, list: &[u8]) -> Seen<u8> {
        let answer = Answer { code, number };
        let short = if code == 0 { Answer { code: 28, number: 0 } } else { answer };
        let some = (list.len().max(status::LONGEST), answer);
        Seen { no_room: short, one_short: short, exact: answer, some, roomy: answer, written: list.to_vec() }
    }

    fn is_met(input: &StatusInput, seen: Seen<u8>) -> bool {
        let table = Table::new();
        let laid = Laid::new(input.clone(), seen);
        table.meet_status(&laid, &mut table.counts()).is_ok()
    }

    fn first(is_it: impl Fn(&StatusInput) -> bool) -> StatusInput {
        (0..).map(plans::status_input).find(is_it).expect("there is one among the first")
    }

    #[test]
    fn a_line_off_by_one_is_told() {
        let input = first(|input| matches!(input.kind, StatusKind::Broken { line: Some(3), .. }));
        assert!(is_met(&input, came_back(70, 3, b"")));
        for (code, number) in [(70, 2), (70, 4), (70, 0), (72, 0), (28, 0)] {
            assert!(!is_met(&input, came_back(code, number, b"")), "{code}, {number}");
        }
    }

    #[test]
    fn another_refusal_of_a_sheet_is_told() {
        let is_well_formed = |input: &StatusInput| matches!(input.kind, StatusKind::WellFormed { .. });
        let invalid = first(|input| is_well_formed(input) && matches!(input.sheet.kind, plans::Kind::Flawed(_)));
        assert!(is_met(&invalid, came_back(72, 0, b"")) && !is_met(&invalid, came_back(70, 0, b"")));
        let malformed = first(|input| is_well_formed(input) && input.sheet.text.is_empty());
        assert!(is_met(&malformed, came_back(70, 0, b"")) && !is_met(&malformed, came_back(70, 1, b"")));
    }

    #[test]
    fn another_list_is_told() {
        let input = first(|input| {
            let StatusKind::WellFormed { found } = &input.kind else { return false };
            let plans::Kind::Runs(plan) = &input.sheet.kind else { return false };
            plan.steps.is_empty() && plans::compared_values(&plan.start) == *found
        });
        let list = b"not compared: securebits, group IDs\n";
        assert!(is_met(&input, came_back(0, 36, list)));
        assert!(!is_met(&input, came_back(0, 0, b"")));
        assert!(!is_met(&input, came_back(0, 35, &list[..35])));
        assert!(!is_met(&input, came_back(0, 44, b"nnp 0 1\nnot compared: securebits, group IDs\n")));
    }

    #[test]
    fn what_a_text_was_made_to_say_is_held_against_it() {
        let mut input = first(|input| matches!(input.kind, StatusKind::Broken { line: Some(3), .. }));
        let StatusKind::Broken { line, .. } = &mut input.kind else { panic!("it is broken") };
        *line = Some(4);
        assert!(!is_met(&input, came_back(70, 3, b"")) && !is_met(&input, came_back(70, 4, b"")));
    }
}
