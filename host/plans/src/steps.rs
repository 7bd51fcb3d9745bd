//! Steps: each call with operands that are about as often allowed as refused.

mod spoiled;

use crate::attributes;
use crate::random::Random;
use crate::sets;
use crate::starts::{self, Family, NO_ID};
use second::{Credentials, Step};

/// The calls, those with more rules more often. Call 13 is rare, for it leaves little to try afterwards.
const CALLS: [u8; 88] = [
    1, 1, 1, 1, 1, 1, 1, 1, 1, 1, 1, 1, 1, 1, 1, 1, 1, 1, 2, 2, 2, 2, 2, 3, 3, 4, 4, 5, 5, 5, 6, 6, 7, 7, 8, 9, 9, 9,
    9, 9, 10, 11, 11, 11, 11, 12, 13, 14, 15, 15, 15, 15, 15, 16, 16, 16, 16, 16, 17, 17, 17, 17, 17, 17, 17, 18, 18,
    18, 18, 19, 19, 19, 20, 20, 20, 20, 20, 21, 21, 21, 21, 21, 21, 22, 22, 22, 22, 22,
];

/// The four flags of securebits, without their locks; and the locks.
const FLAGS: u8 = 1 | 4 | 16 | 64;
const LOCKS: u8 = FLAGS << 1;

/// Makes steps one after the other. It guesses what the thread holds, to choose operands near to that; it does not know the rules.
#[derive(Clone)]
pub(crate) struct Maker {
    guess: Credentials,
}

impl Maker {
    pub(crate) fn new(start: &Credentials) -> Maker {
        Maker { guess: start.clone() }
    }

    /// Any step, now and then with a call that is none, an operand out of range, or something where nothing may be.
    pub(crate) fn any(&mut self, random: &mut Random) -> Step {
        let mut step = self.decent(random);
        if random.one_in(8) {
            spoiled::spoil(random, &mut step, &self.guess);
        }
        step
    }

    /// A step whose operands are in range and whose attribute, if it has one, is mostly readable.
    pub(crate) fn decent(&mut self, random: &mut Random) -> Step {
        let call = random.pick(&CALLS);
        let mut step = Step { call, a: 0, b: 0, c: 0, attr: Vec::new() };
        match call {
            1 => self.launch(random, &mut step),
            2 => self.capset(random, &mut step),
            3 | 4 => step.a = member_or_any(random, self.guess.bounding),
            5 => step.a = self.raised(random),
            6 | 7 => step.a = member_or_any(random, self.guess.ambient),
            9 => step.a = u64::from(self.securebits(random)),
            11 => step.a = random.pick(&[0, 1, 1]),
            13 => step.a = 1,
            15 | 19 => step.a = u64::from(self.id(random, family(call))),
            16 | 17 | 20 | 21 => self.several_ids(random, &mut step),
            18 | 22 => step.a = u64::from(self.id_or_none(random, family(call))),
            _ => {}
        }
        self.follow(&step);
        step
    }

    /// A launch that one of two threads is refused and the other is not: its file demands what one bounding set has and the other lacks, if they differ.
    pub(crate) fn launch_apart(&self, random: &mut Random, other: &Maker) -> Step {
        let demanded = sets::member(random, self.guess.bounding ^ other.guess.bounding);
        Step { call: 1, a: 0, b: 0, c: 0, attr: attributes::demanding(1 << demanded) }
    }

    fn launch(&self, random: &mut Random, step: &mut Step) {
        step.a = u64::from(self.file_id(random, Family::Users));
        step.c = u64::from(self.file_id(random, Family::Groups));
        step.b = match random.below(16) {
            0..=2 => 0,
            3 | 4 => 1,
            5 | 6 => 2,
            7 | 8 => 3,
            9..=11 => random.pick(&[4, 5, 6, 8, 9, 10, 16, 17, 18]),
            12 => 31,
            _ => random.below(32) as u64,
        };
        step.attr = attributes::any(random, &self.guess);
    }

    // The thread's effective ID of that family, which a set-ID bit then does not change; its saved or filesystem one, which are often others; or any.
    fn file_id(&self, random: &mut Random, family: Family) -> u32 {
        let [_, effective, saved, filesystem] = family.ids(&self.guess);
        match random.below(8) {
            0 | 1 => effective,
            2 => saved,
            3 => filesystem,
            _ => self.id(random, family),
        }
    }

    // P and E mostly shrink; I is taken about what the thread has, and about what it may take from P and from B. Now and then each has more than it
    // may: I what only P has, P and E one more.
    fn capset(&self, random: &mut Random, step: &mut Step) {
        let Credentials { permitted, inheritable, effective, bounding, .. } = self.guess;
        if random.one_in(12) {
            step.a = permitted | sets::single(random);
            step.b = inheritable | permitted & !bounding;
            step.c = step.a | sets::single(random);
            return;
        }
        step.a = if random.one_in(5) { sets::near(random, permitted) } else { sets::within(random, permitted) };
        step.b = match random.below(7) {
            0 => inheritable,
            1 => sets::within(random, inheritable | permitted),
            2 => sets::within(random, inheritable | bounding),
            3 => {
                let part = bounding & random.number();
                sets::near(random, inheritable | part)
            }
            4 => sets::near(random, inheritable),
            5 => inheritable | permitted & !bounding,
            _ => inheritable | sets::within(random, permitted & bounding),
        };
        step.c = match random.below(6) {
            0 => sets::near(random, step.a),
            1 => sets::within(random, step.a | effective),
            _ => sets::within(random, step.a),
        };
    }

    fn raised(&self, random: &mut Random) -> u64 {
        let Credentials { permitted, inheritable, .. } = self.guess;
        match random.below(6) {
            0 => sets::member(random, permitted & !inheritable),
            1 => sets::member(random, inheritable & !permitted),
            2 => sets::capability(random),
            _ => sets::member(random, permitted & inheritable),
        }
    }

    // The same, one bit turned over, the locked flags turned over, one lock undone and one locked flag turned over, a flag set together with its
    // lock, or any value.
    fn securebits(&self, random: &mut Random) -> u8 {
        let now = self.guess.securebits;
        match random.below(10) {
            0 => now,
            1 | 2 => now ^ 1 << random.below(8),
            3 => now ^ (now >> 1 & FLAGS),
            4 => now | random.pick(&[3, 12, 48, 192]),
            5 => now | starts::securebits(random),
            6..=8 if now & LOCKS != 0 => (now & !set_lock(random, now)) ^ (set_lock(random, now) >> 1),
            _ => random.byte(),
        }
    }

    // One of the thread's own IDs of that family, now and then of the other; or any.
    fn id(&self, random: &mut Random, family: Family) -> u32 {
        match random.below(20) {
            0..=9 => self.own_id(random, family),
            10 => self.own_id(random, family.other()),
            _ => starts::id(random, family),
        }
    }

    fn own_id(&self, random: &mut Random, family: Family) -> u32 {
        random.pick(&family.ids(&self.guess))
    }

    fn id_or_none(&self, random: &mut Random, family: Family) -> u32 {
        if random.one_in(3) {
            NO_ID
        } else {
            self.id(random, family)
        }
    }

    // Each given or left, all left but one, all the same, or all left.
    fn several_ids(&self, random: &mut Random, step: &mut Step) {
        let (family, count) = (family(step.call), operand_count(step.call));
        let mut operands = [u64::from(NO_ID); 3];
        match random.below(20) {
            0 => {}
            1..=6 => operands[random.below(count)] = u64::from(self.id(random, family)),
            7..=9 => operands = [u64::from(self.id(random, family)); 3],
            _ => operands = operands.map(|_| u64::from(self.id_or_none(random, family))),
        }
        (step.a, step.b) = (operands[0], operands[1]);
        if count == 3 {
            step.c = operands[2];
        }
    }

    // What the thread holds after the step, if it is done and nothing else changes: good enough to choose by.
    fn follow(&mut self, step: &Step) {
        let guess = &mut self.guess;
        match step.call {
            1 => guess.securebits &= !16,
            2 => {
                guess.permitted = step.a;
                guess.inheritable = step.b;
                guess.effective = step.c;
                guess.ambient &= step.a & step.b;
            }
            3 => guess.bounding &= !(1 << step.a),
            5 => guess.ambient |= 1 << step.a,
            6 => guess.ambient &= !(1 << step.a),
            8 => guess.ambient = 0,
            9 => guess.securebits = step.a as u8,
            15..=22 => follow_ids(family(step.call).ids_mut(guess), step),
            _ => {}
        }
    }
}

fn follow_ids([real, effective, _, filesystem]: [&mut u32; 4], step: &Step) {
    match step.call {
        15 | 19 => *effective = step.a as u32,
        18 | 22 => set_unless_none(filesystem, step.a),
        _ => {
            set_unless_none(real, step.a);
            set_unless_none(effective, step.b);
        }
    }
}

fn set_unless_none(id: &mut u32, operand: u64) {
    if operand != u64::from(NO_ID) {
        *id = operand as u32;
    }
}

// One of the locks that are set in the securebits.
fn set_lock(random: &mut Random, securebits: u8) -> u8 {
    1 << sets::member(random, u64::from(securebits & LOCKS))
}

fn member_or_any(random: &mut Random, of: u64) -> u64 {
    if random.one_in(2) {
        sets::member(random, of)
    } else {
        sets::capability(random)
    }
}

// The family whose IDs one of the calls 15 to 22 sets.
fn family(call: u8) -> Family {
    if call < 19 {
        Family::Users
    } else {
        Family::Groups
    }
}

// How many operands a call has; one for those that have none.
fn operand_count(call: u8) -> usize {
    match call {
        1 | 2 | 17 | 21 => 3,
        16 | 20 => 2,
        _ => 1,
    }
}
