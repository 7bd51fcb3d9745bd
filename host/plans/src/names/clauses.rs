//! The clauses of a text in names, and what they leave of the three sets.

use super::words::{CAPABILITY_NAMES, FLAGS};
use crate::random::Random;

/// How many capabilities there are.
const CAPABILITIES: usize = CAPABILITY_NAMES.len();

/// What stands before the first operator of a clause.
#[derive(Clone, Debug, PartialEq, Eq)]
pub(super) enum Subject {
    /// Nothing, which means all capabilities.
    Nothing,
    /// `all`.
    All,
    /// A list of names, as the capabilities' numbers.
    Names(Vec<usize>),
}

/// An operator, `=`, `+` or `-`, and the flags after it.
#[derive(Clone, Debug, PartialEq, Eq)]
pub(super) struct Action {
    pub(super) operator: u8,
    pub(super) flags: Vec<u8>,
}

/// A clause: for which capabilities, and what is done, one thing after the other.
#[derive(Clone, Debug, PartialEq, Eq)]
pub(super) struct Clause {
    pub(super) subject: Subject,
    pub(super) actions: Vec<Action>,
}

/// The sets that the clauses come to: permitted, inheritable, effective. Each capability has its three flags, which the clauses that name it change
/// one after the other.
pub(super) fn sets(clauses: &[Clause]) -> [u64; 3] {
    let mut held = [Held::default(); CAPABILITIES];
    for Clause { subject, actions } in clauses {
        for action in actions {
            match subject {
                Subject::Nothing | Subject::All => held.iter_mut().for_each(|held| held.change(action)),
                Subject::Names(names) => names.iter().for_each(|number| held[*number].change(action)),
            }
        }
    }
    let set = |is_in: fn(&Held) -> bool| {
        held.iter().enumerate().filter(|(_, held)| is_in(held)).fold(0, |set, (number, _)| set | 1 << number)
    };
    [set(|held| held.permitted), set(|held| held.inheritable), set(|held| held.effective)]
}

/// The sets in which one capability is.
#[derive(Clone, Copy, Default)]
struct Held {
    permitted: bool,
    inheritable: bool,
    effective: bool,
}

impl Held {
    fn change(&mut self, action: &Action) {
        if action.operator == b'=' {
            *self = Held::default();
        }
        for flag in &action.flags {
            let set = match flag {
                b'p' => &mut self.permitted,
                b'i' => &mut self.inheritable,
                _ => &mut self.effective,
            };
            *set = action.operator != b'-';
        }
    }
}

/// The clauses that are written for sets: one for each capability that is in any of them, by number, with `=` and the flags in order.
pub(super) fn of_sets([permitted, inheritable, effective]: [u64; 3]) -> Vec<Clause> {
    let mut clauses = Vec::new();
    for number in 0..CAPABILITIES {
        let of_flag = [(b'e', effective), (b'i', inheritable), (b'p', permitted)];
        let flags: Vec<u8> =
            of_flag.into_iter().filter(|(_, set)| set >> number & 1 == 1).map(|(flag, _)| flag).collect();
        if !flags.is_empty() {
            let subject = Subject::Names(vec![number]);
            clauses.push(Clause { subject, actions: vec![Action { operator: b'=', flags }] });
        }
    }
    clauses
}

/// Clauses of any kind: mostly a few, now and then none, or a long one, or so many that the text has some kilobytes, or just more than 64.
pub(super) fn any(random: &mut Random) -> Vec<Clause> {
    let pool = Pool::any(random);
    match random.below(4000) {
        0 | 1 => many(random, &pool, 66_000),
        2..=31 => many(random, &pool, 500),
        32..=41 => vec![clause(random, &pool), long_clause(random, &pool), clause(random, &pool)],
        _ => {
            let count = match random.below(20) {
                0 => 0,
                1..=9 => 1,
                10..=17 => 2 + random.below(3),
                _ => 5 + random.below(8),
            };
            (0..count).map(|_| clause(random, &pool)).collect()
        }
    }
}

// So many that the text has about so many bytes, or up to some thousands more.
fn many(random: &mut Random, pool: &Pool, bytes: usize) -> Vec<Clause> {
    let bytes = bytes + random.below(3600);
    let mut clauses = Vec::new();
    let mut length = 0;
    while length < bytes {
        let clause = clause(random, pool);
        length += about(&clause);
        clauses.push(clause);
    }
    clauses
}

// About how many bytes a clause has.
fn about(clause: &Clause) -> usize {
    let names = match &clause.subject {
        Subject::Names(names) => 14 * names.len(),
        _ => 2,
    };
    names + clause.actions.iter().map(|action| 1 + action.flags.len()).sum::<usize>() + 1
}

/// The capabilities that a text is about: mostly a few, so that its clauses meet the same ones again.
struct Pool(Vec<usize>);

impl Pool {
    fn any(random: &mut Random) -> Pool {
        let count = 1 + random.below(6);
        Pool((0..count).map(|_| random.below(CAPABILITIES)).collect())
    }

    fn number(&self, random: &mut Random) -> usize {
        if random.one_in(3) {
            random.below(CAPABILITIES)
        } else {
            random.pick(&self.0)
        }
    }
}

fn clause(random: &mut Random, pool: &Pool) -> Clause {
    let subject = match random.below(10) {
        0 => Subject::Nothing,
        1 => Subject::All,
        _ => Subject::Names(names(random, pool)),
    };
    let count = match random.below(20) {
        0..=10 => 1,
        11..=18 => 2 + random.below(2),
        _ => 4 + random.below(9),
    };
    let mut actions: Vec<Action> = (0..count).map(|_| action(random)).collect();
    // A clause without names begins with `=`.
    if subject == Subject::Nothing {
        actions[0].operator = b'=';
    }
    Clause { subject, actions }
}

// A clause with hundreds of names, operators or flags.
fn long_clause(random: &mut Random, pool: &Pool) -> Clause {
    let Clause { mut subject, mut actions } = clause(random, pool);
    let count = 256 + random.below(100);
    match random.below(3) {
        0 => subject = Subject::Names((0..count).map(|_| pool.number(random)).collect()),
        1 => actions.extend((0..count).map(|_| action(random))),
        _ => actions
            .push(Action { operator: random.pick(b"=+-"), flags: (0..count).map(|_| random.pick(FLAGS)).collect() }),
    }
    Clause { subject, actions }
}

// Mostly one name or a few; now and then all, in any order and one or more of them twice.
fn names(random: &mut Random, pool: &Pool) -> Vec<usize> {
    match random.below(200) {
        0 => (0..CAPABILITIES).collect(),
        1 => {
            let from = random.below(CAPABILITIES);
            (0..CAPABILITIES + random.below(20)).map(|step| (from + 40 * step) % CAPABILITIES).collect()
        }
        2..=99 => vec![pool.number(random)],
        _ => {
            let count = 2 + random.below(4);
            (0..count).map(|_| pool.number(random)).collect()
        }
    }
}

fn action(random: &mut Random) -> Action {
    let operator = random.pick(b"=+-");
    let count = match random.below(20) {
        0..=2 if operator == b'=' => 0,
        0..=6 => 1,
        7..=11 => 2,
        12..=16 => 3,
        17 | 18 => 4,
        _ => 5 + random.below(8),
    };
    Action { operator, flags: (0..count).map(|_| random.pick(FLAGS)).collect() }
}

#[cfg(test)]
mod tests {
    use super::*;

    fn named(number: usize, actions: &[(u8, &[u8])]) -> Clause {
        let actions = actions.iter().map(|(operator, flags)| Action { operator: *operator, flags: flags.to_vec() });
        Clause { subject: Subject::Names(vec![number, number]), actions: actions.collect() }
    }

    #[test]
    fn an_equals_sign_takes_away_first() {
        assert_eq!(sets(&[named(13, &[(b'+', b"ei"), (b'=', b"p")])]), [1 << 13, 0, 0]);
        assert_eq!(sets(&[named(13, &[(b'+', b"eip"), (b'=', b"")])]), [0; 3]);
    }

    #[test]
    fn clauses_count_from_left_to_right() {
        let full = 0x1ff_ffff_ffff;
        let all = Clause { subject: Subject::All, actions: vec![Action { operator: b'+', flags: b"ep".to_vec() }] };
        let some = named(40, &[(b'-', b"p"), (b'+', b"i")]);
        assert_eq!(sets(&[all.clone(), some.clone()]), [full >> 1, 1 << 40, full]);
        assert_eq!(sets(&[some, all]), [full, 1 << 40, full]);
    }

    #[test]
    fn signs_but_for_equals_have_flags_and_a_clause_without_names_begins_with_equals() {
        let mut random = Random::new(9);
        for _ in 0..2000 {
            for Clause { subject, actions } in any(&mut random) {
                assert!(subject != Subject::Nothing || actions[0].operator == b'=');
                assert!(actions.iter().all(|action| action.operator == b'=' || !action.flags.is_empty()));
            }
        }
    }
}
