//! "Why it was refused": the cause of each refusal 1, and that no other answer has one.
//!
//! The tests of a call stand in its section's file, here stands which cause each gives. Every combination of tests that can fail at once is a
//! row: the lowest cause comes back. What holds of one call alone is in `particulars`, the answers without a cause are in `no_cause`.

mod no_cause;
mod particulars;

use super::family::Family;
use super::launching::Launch;
use super::moment::{lacks_setpcap, refused, CAP_SETPCAP};
use super::validity::FULL;
use super::{ambient, capset, ids, securebits, Moment, Row};

/// A test that the rules make for a call.
struct Test {
    /// Why the call is refused where it fails.
    cause: u32,
    /// Whether it fails.
    fails: fn(&Moment) -> bool,
}

/// The tests of a call. The ID calls have 10 and capset 2 to 5, never 1; call 11 has 9; calls 18 and 22 are never refused.
fn tests_of(call: u8) -> &'static [Test] {
    match call {
        1 => &[Test { cause: 11, fails: falls_short }],
        2 => &[
            Test { cause: 2, fails: capset::takes_beyond_permitted },
            Test { cause: 3, fails: capset::takes_beyond_bounding },
            Test { cause: 4, fails: capset::permits_more },
            Test { cause: 5, fails: capset::effects_more },
        ],
        3 => &[Test { cause: 1, fails: lacks_setpcap }],
        5 => &[Test { cause: 6, fails: ambient::is_not_in_both }, Test { cause: 7, fails: ambient::is_forbidden }],
        9 => &[
            Test { cause: 1, fails: lacks_setpcap },
            Test { cause: 8, fails: securebits::undoes_a_lock },
            Test { cause: 9, fails: securebits::changes_a_locked_flag },
        ],
        11 => &[Test { cause: 9, fails: securebits::keep_caps_is_locked }],
        15..=17 => &[Test { cause: 10, fails: |m| ids::is_denied(Family::Users, m) }],
        19..=21 => &[Test { cause: 10, fails: |m| ids::is_denied(Family::Groups, m) }],
        _ => &[],
    }
}

// The test of a launch. Where refusal 22 applies too, the launch has to be looked at for it.
fn falls_short(m: &Moment) -> bool {
    match &m.launch {
        Some(launch) => launch.is_refused(),
        None => Launch::of(&m.before, &m.step).is_refused(),
    }
}

/// Some causes: bit n is cause n.
type Causes = u32;

const LARGEST: u32 = 11;

// The causes of the tests that fail, whether or not 22 or 60 comes before them.
fn failing(m: &Moment) -> Causes {
    joined(tests_of(m.step.call).iter().filter(|test| (test.fails)(m)))
}

fn joined<'a>(tests: impl Iterator<Item = &'a Test>) -> Causes {
    tests.map(|test| 1 << test.cause).sum()
}

fn members(causes: Causes) -> Vec<u32> {
    (1..=LARGEST).filter(|cause| causes >> cause & 1 == 1).collect()
}

// One cause alone, or several with an `and`.
fn listed(causes: &[u32]) -> String {
    let words: Vec<String> = causes.iter().map(u32::to_string).collect();
    match words.as_slice() {
        [only] => format!("{only} alone"),
        several => several.join(" and "),
    }
}

/// The rows of one call.
pub fn rows(call: u8) -> Vec<Row<Moment>> {
    let mut rows = rows_of_combinations(call);
    rows.extend(rows_of_effective_sets(call));
    rows.extend(particulars::rows(call));
    rows.extend(no_cause::rows(call));
    rows
}

// Just these tests fail, for all that a call can fail: each alone, each with each other, and more.
fn rows_of_combinations(call: u8) -> Vec<Row<Moment>> {
    let all = joined(tests_of(call).iter());
    let some = (1..=all).filter(|causes| causes & !all == 0);
    let row = |causes: Causes| {
        let members = members(causes);
        let (lowest, all) = (members[0], listed(&members));
        refused(format!("Causes: call {call}, {lowest} of {all}"), lowest, move |m| {
            m.calls(call) && failing(m) == causes
        })
    };
    some.map(row).collect()
}

// One test fails and E is empty, which is a cause by itself in calls 3 and 9 alone. There all but SETPCAP is as little help.
fn rows_of_effective_sets(call: u8) -> Vec<Row<Moment>> {
    let causes: Vec<u32> = tests_of(call).iter().map(|test| test.cause).collect();
    let row = |cause: u32, name: &str, effective: u64| {
        refused(format!("Causes: call {call}, {cause} with {name}"), cause, move |m| {
            m.calls(call) && failing(m) == 1 << cause && m.before.effective == effective
        })
    };
    if causes.contains(&1) {
        return vec![row(1, "E empty", 0), row(1, "all but SETPCAP in E", FULL & !CAP_SETPCAP)];
    }
    causes.into_iter().map(|cause| row(cause, "E empty", 0)).collect()
}

#[cfg(test)]
mod tests {
    use super::*;

    #[test]
    fn every_cause_has_a_call_and_the_tests_stand_in_their_order() {
        let mut seen = 0;
        for call in 0..=99 {
            let causes: Vec<u32> = tests_of(call).iter().map(|test| test.cause).collect();
            assert!(causes.windows(2).all(|pair| pair[0] < pair[1]));
            seen |= joined(tests_of(call).iter());
        }
        assert_eq!(members(seen), (1..=LARGEST).collect::<Vec<u32>>());
    }

    #[test]
    fn combinations_are_all_and_named() {
        let names = |call| rows_of_combinations(call).into_iter().map(|row| row.name).collect::<Vec<String>>();
        assert_eq!(
            names(5),
            ["Causes: call 5, 6 of 6 alone", "Causes: call 5, 7 of 7 alone", "Causes: call 5, 6 of 6 and 7"]
        );
        assert_eq!(names(2).len(), 15);
        assert_eq!(names(2)[14], "Causes: call 2, 2 of 2 and 3 and 4 and 5");
        assert!(names(4).is_empty());
    }
}
