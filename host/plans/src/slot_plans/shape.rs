//! How families go on: who forks, who exits, who makes calls, and how often.

use super::family::{Family, SLOTS};
use super::{stray, MeasuredSlots, SlotPlan, SlotStep};
use crate::random::Random;
use crate::starts::{self, Family as Ids};
use crate::{attributes, step_count, MOST_STEPS};
use second::{Credentials, Step};

/// A kind of family.
#[derive(Clone, Copy, Debug, PartialEq, Eq)]
pub(super) enum Shape {
    /// One thread makes calls, as in a plan.
    Alone,
    /// A few threads make calls in turn; now and then one forks or exits.
    Helpers,
    /// The same, but it is the newest thread that forks: a child, a grandchild, and so on.
    Line,
    /// Threads fork and exit, so that slots are taken again.
    Churn,
    /// Threads exit until none is left; their slots are named again.
    Leaving,
    /// Any slot from 0 to 99 is named.
    Anywhere,
    /// All 96 slots are in use before the rest.
    Full,
    /// Every line of the text is as long as it can be.
    LongestText,
    /// Every line of the report is as long as it can be: forks from IDs of ten digits, until no slot is free and then on.
    LongestReport,
}

impl Shape {
    pub(super) fn any(random: &mut Random) -> Shape {
        match random.below(400) {
            0..=19 => Shape::Alone,
            20..=139 => Shape::Helpers,
            140..=199 => Shape::Line,
            200..=299 => Shape::Churn,
            300..=349 => Shape::Leaving,
            350..=381 => Shape::Anywhere,
            382..=397 => Shape::Full,
            398 => Shape::LongestText,
            _ => Shape::LongestReport,
        }
    }

    /// Valid credentials to start from.
    pub(super) fn start(self, random: &mut Random) -> Credentials {
        let mut start = starts::valid(random);
        if matches!(self, Shape::LongestText | Shape::LongestReport) {
            starts::ids_of_ten_digits(random, Ids::Users, &mut start);
            starts::ids_of_ten_digits(random, Ids::Groups, &mut start);
        }
        start
    }

    pub(super) fn step_count(self, random: &mut Random) -> usize {
        match self {
            Shape::Full if random.one_in(2) => MOST_STEPS,
            Shape::Full => SLOTS + random.below(MOST_STEPS - SLOTS),
            Shape::LongestText | Shape::LongestReport => MOST_STEPS,
            _ => step_count(random),
        }
    }

    /// A slot plan of that many steps.
    pub(super) fn plan(self, random: &mut Random, start: Credentials, count: usize) -> SlotPlan {
        let mut family = Family::new(&start);
        let opening = self.opening(random);
        let steps = (0..count).map(|index| self.step(random, &mut family, index < opening)).collect();
        SlotPlan { start, steps }
    }

    // How many steps there are before the family goes on as it does: forks and calls.
    fn opening(self, random: &mut Random) -> usize {
        match self {
            Shape::Churn | Shape::Leaving | Shape::Anywhere => random.below(8),
            _ => 0,
        }
    }

    // How often a thread forks, exits, makes a call, or a step is a stray one.
    fn weights(self) -> [usize; 4] {
        match self {
            Shape::Alone => [0, 0, 19, 1],
            Shape::Helpers | Shape::Line => [4, 1, 13, 2],
            Shape::Churn => [6, 5, 7, 2],
            Shape::Leaving => [2, 8, 5, 5],
            Shape::Anywhere => [4, 1, 5, 10],
            Shape::Full => [6, 3, 7, 4],
            Shape::LongestText => [0, 0, 0, 1],
            Shape::LongestReport => [1, 0, 0, 0],
        }
    }

    fn step(self, random: &mut Random, family: &mut Family, is_opening: bool) -> SlotStep {
        let weights = match self {
            Shape::Full if !family.has_taken_all() => [12, 0, 1, 0],
            _ if is_opening => [1, 0, 1, 0],
            _ => self.weights(),
        };
        let caller = match self {
            Shape::Line if !random.one_in(4) => family.newest(random),
            _ => family.member(random),
        };
        match (weighted(random, weights), self) {
            (0, _) => family.fork(caller),
            (1, _) => family.exit(caller),
            (2, _) => family.call(random, caller),
            (_, Shape::LongestText) => longest_step(random),
            (_, Shape::Anywhere) => {
                let slot = random.below(100) as u8;
                let step = stray::any(random, family, slot);
                family.taken(slot, step)
            }
            _ => family.stray(random),
        }
    }
}

/// A slot plan to take times by: every step in a slot that is in use, with none of the operands out of range.
pub(super) fn measured(random: &mut Random, start: Credentials, count: usize, kind: MeasuredSlots) -> SlotPlan {
    let mut family = Family::new(&start);
    let mut step = |_| {
        let caller = family.member(random);
        let weights = match kind {
            MeasuredSlots::Family if family.size() > 1 => [3, 1, 16, 0],
            MeasuredSlots::Family => [3, 0, 17, 0],
            MeasuredSlots::AllInUse if !family.has_room() => [0, 0, 1, 0],
            MeasuredSlots::AllInUse | MeasuredSlots::Forks => [1, 0, 0, 0],
        };
        match weighted(random, weights) {
            0 => family.fork(caller),
            1 => family.exit(caller),
            _ => family.decent_call(random, caller),
        }
    };
    let steps = (0..count).map(&mut step).collect();
    SlotPlan { start, steps }
}

// The place of one of the weights, each as often as it says.
fn weighted(random: &mut Random, weights: [usize; 4]) -> usize {
    let mut left = random.below(weights.iter().sum());
    for (place, weight) in weights.into_iter().enumerate() {
        if left < weight {
            return place;
        }
        left -= weight;
    }
    unreachable!("a number below the sum of the weights is within one of them")
}

// A step of 127 bytes: slot and call of two digits each, and an attribute of 24 bytes.
fn longest_step(random: &mut Random) -> SlotStep {
    let [slot, call] = [0; 2].map(|_| 10 + random.below(90) as u8);
    let [a, b, c] = [0; 3].map(|_| random.number());
    SlotStep { slot, step: Step { call, a, b, c, attr: random.bytes(attributes::LONGEST) } }
}
