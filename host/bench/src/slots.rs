//! Slot plans: the library and the second program on equal ones; and plans beside slot plans of the same calls.

use crate::runs::{in_turns, library, library_in_slots, measure, second, second_in_slots, Bench, Program};
use measured::batch::{Batch, Kind, STEPS};
use measured::times::{quantile, ratios, spread};
use plans::MeasuredSlots;

pub const HEADING: &str = "\
| slot plans | steps | bytes a plan | library, ns a plan | second, ns a plan | library, ns a step | second, ns a step | second/library |
|---|---|---|---|---|---|---|---|";

pub const HEADING_BESIDE_PLANS: &str = "\
| program | steps | plan, ns | the same calls in slot 0, ns | plan, ns a step | in slot 0, ns a step | in slot 0/plan |
|---|---|---|---|---|---|---|";

/// What is measured: its name, the steps, and which slot plans.
const MEASURED: [(&str, Kind, &[usize], MeasuredSlots); 4] = [
    ("a family", Kind::WellFormed, &STEPS, MeasuredSlots::Family),
    ("all 96 in use, then calls", Kind::WellFormed, &[256], MeasuredSlots::AllInUse),
    ("forks alone", Kind::WellFormed, &[1, 16, 95, 256], MeasuredSlots::Forks),
    ("a family, broken", Kind::Broken, &[0, 16, 256], MeasuredSlots::Family),
];

/// The rows of slot plans, or the difference that was found.
pub fn rows(rounds: usize) -> Result<Vec<String>, String> {
    let mut rows = Vec::new();
    for (name, kind, steps, slots) in MEASURED {
        for &steps in steps {
            let batch = Batch::of_slots(kind, steps, slots);
            let [library, second] = measure(&batch, [library_in_slots, second_in_slots], rounds)?;
            // A broken plan is not read to its end, so that a step of it has no time.
            let steps_read = if let Kind::Broken = kind { 0 } else { steps };
            rows.push(format!(
                "| {} of {name} | {steps} | {:.0} | {} | {} | {} | {} | {} |",
                batch.plans.len(),
                batch.bytes_a_plan(),
                spread(&library, 0),
                spread(&second, 0),
                a_step(&library, steps_read),
                a_step(&second, steps_read),
                spread(&ratios(&second, &library), 2)
            ));
        }
    }
    Ok(rows)
}

/// The rows of plans beside the same calls in slot 0, by each program; or the difference that was found.
pub fn rows_beside_plans(rounds: usize) -> Result<Vec<String>, String> {
    let mut rows = Vec::new();
    let programs: [(&str, [Program; 2]); 2] =
        [("library", [library, library_in_slots]), ("second", [second, second_in_slots])];
    for (name, [plain, in_slots]) in programs {
        for steps in STEPS {
            let plans = Batch::new(Kind::WellFormed, steps);
            let slot_plans = plans.in_slot_0();
            let mut benches = [Bench::new(plain, &plans), Bench::new(in_slots, &slot_plans)];
            let [plan, slot_plan] = in_turns(&mut benches, rounds, is_the_same_but_for_the_slot)
                .map_err(|plan| format!("slot 0 differs from this plan:\n{}", plans.plans[plan].escape_ascii()))?;
            rows.push(format!(
                "| {name} | {steps} | {} | {} | {} | {} | {} |",
                spread(&plan, 0),
                spread(&slot_plan, 0),
                a_step(&plan, steps),
                a_step(&slot_plan, steps),
                spread(&ratios(&slot_plan, &plan), 2)
            ));
        }
    }
    Ok(rows)
}

/// The median of the nanoseconds a step; nothing where there is none.
fn a_step(times: &[f64], steps: usize) -> String {
    if steps == 0 {
        String::new()
    } else {
        format!("{:.1}", quantile(times, 0.5) / steps as f64)
    }
}

/// Whether the slot plan's report is the plan's with the line of slot 0 before its sheet.
fn is_the_same_but_for_the_slot(plan: &Bench, slot_plan: &Bench, at: usize) -> bool {
    const SLOT_0: &[u8] = b"slot=0\n";
    let report = slot_plan.report(at);
    let Some(place) = report.windows(SLOT_0.len()).position(|part| part == SLOT_0) else { return false };
    [&report[..place], &report[place + SLOT_0.len()..]].concat() == plan.report(at)
}

#[cfg(test)]
mod tests {
    use super::*;

    #[test]
    fn a_plan_in_slot_0_is_the_same_but_for_the_slot() {
        let plans = Batch::new(Kind::WellFormed, 16);
        let slot_plans = plans.in_slot_0();
        assert_eq!(plans.plans.len(), slot_plans.plans.len());
        let mut benches = [Bench::new(second, &plans), Bench::new(second_in_slots, &slot_plans)];
        assert!(in_turns(&mut benches, 1, is_the_same_but_for_the_slot).is_ok());
        benches[1].buffers[3][0] ^= 1;
        assert!(!is_the_same_but_for_the_slot(&benches[0], &benches[1], 3));
    }

    #[test]
    fn a_step_has_a_time_where_there_is_one() {
        assert_eq!(a_step(&[512.0], 256), "2.0");
        assert_eq!(a_step(&[512.0], 0), "");
    }

    #[test]
    fn a_difference_is_told() {
        let batch = Batch::of_slots(Kind::WellFormed, 1, MeasuredSlots::Forks);
        assert!(measure(&batch, [second_in_slots, second_in_slots], 1).is_ok());
        let told = measure(&batch, [second_in_slots, second], 1).expect_err("they are different programs");
        assert!(told.starts_with("the two programs differ on this plan:\nruid="));
    }
}
