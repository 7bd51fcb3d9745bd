//! The whole machine, not one thread: demand 3 read per slot, on lists of steps in many slots.

use std::collections::BTreeMap;

use crate::helpers::*;
use crate::slot_helpers::*;
use second::{perform, Credentials, Step, Threads};

/// What a slot in use goes back to: its start, and the calls naming it since then.
struct Life {
    start: Credentials,
    calls: Vec<Step>,
}

impl Life {
    /// A thread that starts with these credentials.
    fn from(start: &Credentials) -> Life {
        Life { start: start.clone(), calls: Vec::new() }
    }

    /// The credentials after the calls, of which demand 3 must be true but for its last sentence.
    fn after(&self) -> Credentials {
        let start = &self.start;
        let (mut after, mut launched) = (start.clone(), false);
        for call in &self.calls {
            let answer = perform(&after, call);
            launched |= call.call == 1 && answer.code == 0;
            after = answer.after;
        }
        assert!(after.is_valid());
        assert_eq!(after.bounding & !start.bounding, 0);
        assert_eq!(after.permitted & !(start.permitted | start.inheritable | start.bounding), 0);
        for flag in [NOROOT, NO_SETUID_FIXUP, KEEP_CAPS, NO_CAP_AMBIENT_RAISE] {
            if start.securebits & (2 * flag) != 0 {
                assert_ne!(after.securebits & (2 * flag), 0);
                let cleared = flag == KEEP_CAPS && launched;
                assert_eq!(after.securebits & flag, if cleared { 0 } else { start.securebits & flag });
            }
        }
        after
    }
}

/// A sequence of numbers that look random and are the same in each run.
struct Numbers(u64);

impl Numbers {
    fn below(&mut self, bound: u64) -> u64 {
        self.0 = self.0.wrapping_mul(6_364_136_223_846_793_005).wrapping_add(1_442_695_040_888_963_407);
        (self.0 >> 33) % bound
    }

    fn pick(&mut self, from: &[u64]) -> u64 {
        from[self.below(from.len() as u64) as usize]
    }

    /// A step of any kind, forks and exits among them.
    fn step(&mut self) -> Step {
        let ids = [0, 1000, 1001, LEAVE];
        let sets = [0, NET_RAW, SETPCAP | NET_RAW, FULL, FULL & !SYS_RAWIO];
        match self.below(16) {
            0..=3 => fork(),
            4 => exit(),
            5..=7 => {
                execve(self.pick(&[0, 1000]), self.below(32), attribute(self.pick(&sets), self.pick(&sets), false))
            }
            8 => execve(self.pick(&[0, 1000]), self.below(32), vec![]),
            9 => step(2, self.pick(&sets), self.pick(&sets), self.pick(&sets)),
            10 => step(9, self.below(256), 0, 0),
            11 => step(17, self.pick(&ids), self.pick(&ids), self.pick(&ids)),
            12 => step(21, self.pick(&ids), self.pick(&ids), self.pick(&ids)),
            13 => step(3, self.below(42), 0, 0),
            14 => step(self.below(100) as u8, 0, 0, 0),
            _ => step(self.below(100) as u8, self.below(43), 0, 0),
        }
    }
}

/// Takes so many steps in a table, and beside it keeps each slot's life as the request tells it. Gives the number of
/// slots in use after them.
fn run_list(start: &Credentials, numbers: &mut Numbers, length: usize) -> usize {
    let mut threads = Threads::new(start.clone());
    let mut lives = BTreeMap::from([(0, Life::from(start))]);
    for _ in 0..length {
        let (slot, step) = (numbers.below(12) as u8, numbers.step());
        let parent = threads.held(slot).cloned();
        let answer = threads.step(slot, &step);
        match (parent, step.call) {
            (None, _) => assert_eq!(answer.code, 3),
            (Some(parent), 30) if answer.code == 0 => {
                let lowest = (0..=95).find(|slot| !lives.contains_key(slot)).unwrap();
                assert_eq!(answer.value, u64::from(lowest));
                lives.insert(lowest, Life::from(&parent));
            }
            (Some(_), 31) if answer.code == 0 => {
                lives.remove(&slot);
            }
            (Some(_), 30 | 31) => assert!([11, 22].contains(&answer.code)),
            (Some(_), _) => lives.get_mut(&slot).unwrap().calls.push(step),
        }
    }
    for slot in 0..=95 {
        assert_eq!(threads.held(slot), lives.get(&slot).map(Life::after).as_ref());
    }
    lives.len()
}

#[test]
fn each_slot_is_its_parents_credentials_at_the_latest_fork_and_its_own_calls_since() {
    let locked = Credentials { inheritable: FULL, securebits: 0xea, ..full_root() };
    for start in [full_root(), user(), ambient_user(), motley(), locked] {
        let mut numbers = Numbers(7);
        let lengths = (0..100).chain([1000; 10]);
        let in_use: Vec<usize> = lengths.map(|length| run_list(&start, &mut numbers, length)).collect();
        assert!(in_use.contains(&0), "in some list all exit");
        assert!(in_use.contains(&96), "in some list all slots are taken");
    }
}
