//! One plan through both programs, in buffers of several lengths, and call by call.

use super::{against_the_table, scattered, Check};
use crate::branches::{Counts, Moment, Sight, Table};
use crate::buffers::Buffers;
use crate::difference::{self, both, Checked, Difference};
use plans::{generated, write_result, write_sheet, Generated, Kind, Plan};
use urrezkalu::{Outcome, LONGEST_REPORT};

/// Room for any report and some bytes more.
const ROOMY: usize = LONGEST_REPORT + 64;

/// Checks plans one after the other.
pub struct PlanChecker<'a> {
    table: &'a Table,
    counts: Counts,
    buffers: Buffers<u8>,
}

impl Check for PlanChecker<'_> {
    fn check(&mut self, seed: u64) -> Checked<()> {
        let generated = generated(seed);
        let sight = self.sight(seed, generated)?;
        let met = self.table.meet_text(&sight, &mut self.counts).map_err(str::to_string);
        let Sight { generated: Generated { text, kind }, outcome, .. } = sight;
        met.map_err(|row| unexpected(seed, &text, &row, format!("{outcome:?}\n")))?;
        if let Kind::Runs(plan) = kind {
            self.step_through(seed, &text, plan)?;
        }
        Ok(())
    }

    fn counts(&self) -> &Counts {
        &self.counts
    }

    fn runs(&self) -> u64 {
        self.buffers.runs()
    }
}

impl<'a> PlanChecker<'a> {
    /// A checker that has checked nothing yet.
    pub fn new(table: &'a Table) -> PlanChecker<'a> {
        PlanChecker { table, counts: table.counts(), buffers: Buffers::of_bytes(ROOMY) }
    }

    // Runs the text with no room, with a byte less than its report needs, with just enough, with some random room, and with plenty.
    fn sight(&mut self, seed: u64, generated: Generated) -> Checked<Sight> {
        let text = &generated.text;
        let no_room = self.agree(seed, text, 0)?;
        let outcome = self.agree(seed, text, ROOMY)?;
        let length = length(outcome);
        let _ = self.agree(seed, text, scattered(seed) as usize % (length + 100))?;
        let one_short = if length > 0 { self.agree(seed, text, length - 1)? } else { no_room };
        let exact = self.agree(seed, text, length)?;
        Ok(Sight { generated, outcome, exact, one_short, no_room })
    }

    // Runs both in a buffer of that length: code, line and length have to be the same, and every byte in the buffer and after it. The bytes
    // past the report have to stay.
    fn agree(&mut self, seed: u64, text: &[u8], room: usize) -> Checked<Outcome> {
        let run_proved = |report: &mut [u8]| urrezkalu::run_plan(text, report);
        let run_second = |report: &mut [u8]| second::run_plan(text, report);
        let (proved, second) = self.buffers.run(room, run_proved, run_second);
        let fault =
            if is_same(proved, second) { self.buffers.fault(room, length(proved)) } else { Some("the answers differ") };
        let Some(fault) = fault else { return Ok(proved) };
        let what = format!("{fault}, with room for {room} bytes");
        let more = both((proved, &self.buffers.proved), (second, &self.buffers.second));
        Err(Box::new(Difference { seed, what, given: given(text), more }))
    }

    // Makes the plan's calls one by one: each from the state that the last left. The report has to be their answers and the last state,
    // and so has the report of the plan's first steps.
    fn step_through(&mut self, seed: u64, text: &[u8], plan: Plan) -> Checked<()> {
        let stop_after = scattered(seed) as usize % (plan.steps.len() + 1);
        let mut state = plan.start;
        let mut results = Vec::new();
        let mut first_steps = Vec::new();
        write_sheet(&mut first_steps, &state);
        for (index, step) in plan.steps.into_iter().enumerate() {
            if index < stop_after {
                plans::write_step(&mut first_steps, &step);
            }
            let answer = second::perform(&state, &step);
            write_result(&mut results, answer.code, answer.value, answer.cause);
            let moment = Moment::new(state, step, answer);
            let told = |row: &str| unexpected(seed, text, row, told(&moment, index));
            if let Some(fault) = fault_of_any_call(&moment) {
                return Err(told(fault));
            }
            self.table.meet_call(&moment, &mut self.counts).map_err(told)?;
            state = moment.answer.after;
            if index + 1 == stop_after {
                self.expect_report(seed, &first_steps, &results, &state)?;
            }
        }
        self.expect_report(seed, text, &results, &state)
    }

    // The proved library's report of a text has to be those results and the sheet of that state.
    fn expect_report(&mut self, seed: u64, text: &[u8], results: &[u8], last: &second::Credentials) -> Checked<()> {
        let mut expected = results.to_vec();
        write_sheet(&mut expected, last);
        let outcome = urrezkalu::run_plan(text, &mut self.buffers.proved);
        let report = &self.buffers.proved[..length(outcome)];
        if report != expected {
            let more = both((outcome, report), (second::Outcome::Report { length: expected.len() }, &expected));
            let what = "the report is not that of the second program's calls, one by one".to_string();
            return Err(Box::new(Difference { seed, what, given: given(text), more }));
        }
        Ok(())
    }
}

fn given(text: &[u8]) -> String {
    difference::text("the plan", text)
}

// What is known of a text or a call is not what came back.
fn unexpected(seed: u64, text: &[u8], row: &str, more: String) -> Box<Difference> {
    Box::new(Difference { seed, what: against_the_table(row), given: given(text), more })
}

// What is true of every call, where it is not.
fn fault_of_any_call(moment: &Moment) -> Option<&'static str> {
    let answer = &moment.answer;
    let causes = if answer.code == 1 { 1..=11 } else { 0..=0 };
    if answer.code != 0 && !moment.has_no_effect() {
        return Some("a refused call has value 0 and changes nothing");
    }
    if !causes.contains(&answer.cause) {
        return Some("refusal 1 has a cause from 1 to 11, and every other answer has 0");
    }
    (!answer.after.is_valid()).then_some("valid credentials stay valid")
}

fn told(moment: &Moment, index: usize) -> String {
    format!("step {}: {:?}\nbefore: {:?}\nanswer: {:?}\n", index + 1, moment.step, moment.before, moment.answer)
}

fn is_same(proved: Outcome, second: second::Outcome) -> bool {
    match (proved, second) {
        (Outcome::Report { length }, second::Outcome::Report { length: other }) => length == other,
        (Outcome::Malformed { line }, second::Outcome::Malformed { line: other }) => line == other,
        (Outcome::Invalid, second::Outcome::Invalid) => true,
        (Outcome::NoRoom, second::Outcome::NoRoom) => true,
        _ => false,
    }
}

// How many bytes of the buffer a run has written.
fn length(outcome: Outcome) -> usize {
    match outcome {
        Outcome::Report { length } => length,
        _ => 0,
    }
}

#[cfg(test)]
mod tests {
    use super::*;

    #[test]
    fn the_first_plans_agree() {
        let table = Table::new();
        let mut checker = PlanChecker::new(&table);
        for seed in 0..400 {
            if let Err(difference) = checker.check(seed) {
                panic!("{}", difference.message());
            }
        }
        assert!(checker.runs() > 1200);
        assert!(table.counted(&checker.counts).iter().filter(|(_, count)| *count > 0).count() > 250);
    }

    #[test]
    fn outcomes_are_the_same_in_code_line_and_length() {
        assert!(is_same(Outcome::Malformed { line: 3 }, second::Outcome::Malformed { line: 3 }));
        assert!(!is_same(Outcome::Malformed { line: 3 }, second::Outcome::Malformed { line: 4 }));
        assert!(!is_same(Outcome::Report { length: 3 }, second::Outcome::Report { length: 4 }));
        assert!(!is_same(Outcome::Invalid, second::Outcome::NoRoom));
    }

    // A thread that may do nothing tries to drop a capability from the bounding set; what if that came back?
    fn fault_where_it_came_to(code: u32, value: u64, cause: u32) -> Option<&'static str> {
        let before = (0..).find_map(|seed| match generated(seed).kind {
            Kind::Runs(plan) if plan.start.effective == 0 => Some(plan.start),
            _ => None,
        });
        let before = before.expect("some plan starts without an effective capability");
        let step = second::Step { call: 3, a: 0, b: 0, c: 0, attr: Vec::new() };
        let answer = second::Answer { code, value, cause, after: before.clone() };
        fault_of_any_call(&Moment::new(before, step, answer))
    }

    #[test]
    fn a_cause_comes_with_refusal_1_alone() {
        assert_eq!(fault_where_it_came_to(1, 0, 1), None);
        assert_eq!(fault_where_it_came_to(22, 0, 0), None);
        assert_eq!(fault_where_it_came_to(0, 7, 0), None);
        for (code, cause) in [(1, 0), (1, 12), (0, 1), (22, 1), (60, 11), (0, 12)] {
            assert!(fault_where_it_came_to(code, 0, cause).is_some_and(|fault| fault.contains("a cause from 1 to 11")));
        }
        assert_eq!(fault_where_it_came_to(1, 7, 1), Some("a refused call has value 0 and changes nothing"));
    }

    #[test]
    fn a_row_that_does_not_hold_is_told_with_its_plan() {
        let told = unexpected(7, b"ruid=0\n", "a row", "more".to_string()).message();
        assert!(told.starts_with(
            "compare: DIFFERENCE at seed 7: both programs agree, but not with the table of branches: a row"
        ));
        assert!(told.contains("compare --seed 7 --count 1\n---- the plan, 7 bytes\nruid=0\n"));
    }
}
