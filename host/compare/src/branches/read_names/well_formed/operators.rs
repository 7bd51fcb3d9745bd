//! Operators and their flags, what they do to the sets, and that they do it from left to right.

use super::super::super::names::{self, Clause, Effect, Subject, SETS};
use super::{read, Row, WellFormed};

/// The operators.
const OPERATORS: [u8; 3] = *b"=+-";
/// Flags, as bits by the places of their sets.
const FLAGS: [&str; 8] = ["no flags", "p", "i", "p and i", "e", "p and e", "i and e", "p, i and e"];
/// Two and three flags in every order.
const ORDERS: [&str; 12] = ["ei", "ie", "ep", "pe", "ip", "pi", "eip", "epi", "iep", "ipe", "pei", "pie"];
/// What a clause can begin with.
const SUBJECTS: [&str; 3] = ["no names", "`all`", "names"];

/// The rows of operators.
pub fn rows() -> Vec<Row<WellFormed>> {
    let mut rows = Vec::new();
    rows.extend(rows_of_each_operator());
    rows.extend(rows_of_several_operators());
    rows.extend(rows_of_flags());
    rows.extend(rows_of_effects());
    rows.extend(rows_of_orders());
    rows
}

/// For each kind of subject, which operators with which flags the clauses have.
pub fn acted(clauses: &[Clause]) -> [u32; 3] {
    let mut acted = [0; 3];
    for clause in clauses {
        let subject = match clause.subject {
            Subject::Nothing => 0,
            Subject::All(_) => 1,
            Subject::Names(_) => 2,
        };
        for action in &clause.actions {
            acted[subject] |= 1 << place(action.operator, action.bits);
        }
    }
    acted
}

// The place of an operator with its flags among all of them.
fn place(operator: u8, bits: usize) -> usize {
    let number = OPERATORS.iter().position(|own| *own == operator).expect("it is an operator");
    FLAGS.len() * number + bits
}

// What stands before the operators, each operator, and each of the flags with it.
fn rows_of_each_operator() -> Vec<Row<WellFormed>> {
    let mut rows = Vec::new();
    for (number, subject) in SUBJECTS.into_iter().enumerate() {
        for operator in OPERATORS {
            for (bits, flags) in FLAGS.into_iter().enumerate().filter(|(bits, _)| operator == b'=' || *bits != 0) {
                let place = place(operator, bits);
                let name = format!("{subject}, `{}` with {flags}", char::from(operator));
                rows.push(read(name, move |s| s.acted[number] >> place & 1 == 1));
            }
        }
    }
    rows
}

fn rows_of_several_operators() -> Vec<Row<WellFormed>> {
    let mut rows = Vec::new();
    for first in OPERATORS {
        for second in OPERATORS {
            let name = format!("`{}` and then `{}` in a clause", char::from(first), char::from(second));
            rows.push(read(name, move |s| {
                s.has_clause(|clause| {
                    clause.actions.windows(2).any(|pair| (pair[0].operator, pair[1].operator) == (first, second))
                })
            }));
        }
    }
    rows.push(read("ten operators or more in a clause", |s| s.has_clause(|clause| clause.actions.len() >= 10)));
    rows.push(read("more than 255 operators in a clause", |s| s.has_clause(|clause| clause.actions.len() > 255)));
    rows.push(read("`=` without flags, the last of several", |s| {
        s.has_clause(|clause| clause.actions.len() > 1 && clause.actions.last().is_some_and(|last| last.bits == 0))
    }));
    rows.push(read("`=` without flags, other operators around", |s| {
        s.has_clause(|clause| clause.actions.windows(3).any(|three| three[1].bits == 0))
    }));
    rows
}

type OfFlags = Box<dyn Fn(&[u8]) -> bool + Send + Sync>;

fn rows_of_flags() -> Vec<Row<WellFormed>> {
    let flags = |name: String, is_so: OfFlags| {
        read(name, move |s| {
            s.has_clause(|clause| clause.actions.iter().any(|action| is_so(&s.text()[action.flags.clone()])))
        })
    };
    let mut rows = Vec::new();
    for order in ORDERS {
        rows.push(flags(format!("the flags {order} in this order"), Box::new(move |flags| flags == order.as_bytes())));
    }
    for flag in *b"eip" {
        let letter = char::from(flag);
        let is_alone = move |flags: &[u8]| flags.iter().all(|other| *other == flag);
        rows.push(flags(
            format!("the flag {letter} three times alone"),
            Box::new(move |flags| flags.len() == 3 && is_alone(flags)),
        ));
        rows.push(flags(
            format!("the flag {letter} twice, others between"),
            Box::new(move |flags| flags.first() == Some(&flag) && flags.last() == Some(&flag) && !is_alone(flags)),
        ));
    }
    rows.push(flags("eight flags or more".into(), Box::new(|flags| flags.len() >= 8)));
    rows.push(flags("more than 255 flags".into(), Box::new(|flags| flags.len() > 255)));
    rows
}

// What an operator was the last to do shows in what came back.
fn rows_of_effects() -> Vec<Row<WellFormed>> {
    let mut rows = Vec::new();
    for effect in Effect::ALL {
        for (place, set) in SETS.into_iter().enumerate() {
            rows.push(Row::new(
                format!("read_names, 0: {}", effect.described(set)),
                move |s: &WellFormed| s.effects.on(effect, place) != 0,
                move |s| {
                    let on = s.effects.on(effect, place);
                    let left = s.seen.written.get(place).map(|set| set & on);
                    left == Some(if effect.is_in() { on } else { 0 }) && s.is_read()
                },
            ));
        }
    }
    rows
}

// Texts that would come to other sets, were they read in another order.
fn rows_of_orders() -> Vec<Row<WellFormed>> {
    vec![
        read("clauses that come to other sets from right to left", |s| {
            names::sets(s.clauses().iter().rev().flat_map(Clause::acts)) != s.sets
        }),
        read("operators that come to other sets from right to left", |s| {
            names::sets(s.clauses().iter().flat_map(|clause| clause.acts().rev())) != s.sets
        }),
    ]
}
