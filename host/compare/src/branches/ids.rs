//! Calls 15 to 22: which IDs they set, and who may. Both families have the same rows; in the names SETUID stands for a family's capability.

use super::family::{Family, Ids, EFFECTIVE, FILESYSTEM, LEAVE, REAL, SAVED, SETFSUID, SETRESUID, SETREUID, SETUID};
use super::validity::LARGEST_ID;
use super::{Moment, Row};

/// The rows of a family's four calls.
pub fn rows(family: Family) -> Vec<Row<Moment>> {
    let parts = [setuid(family), setreuid(family), setresuid(family), setfsuid(family)];
    let mut rows: Vec<Row<Moment>> = parts.into_iter().flatten().collect();
    for call in [SETUID, SETREUID, SETRESUID, SETFSUID] {
        rows.extend(rows_of_each(family, call));
    }
    rows
}

// One of the four calls, as its rows see it.
struct Request<'m> {
    moment: &'m Moment,
    ids: Ids,
    // The IDs of the other family.
    others: Ids,
    // Operands a, b and c.
    operands: [u64; 3],
    has_setuid: bool,
}

impl Request<'_> {
    fn of(family: Family, moment: &Moment) -> Request<'_> {
        Request {
            moment,
            ids: family.before(moment),
            others: family.other().before(moment),
            operands: [moment.step.a, moment.step.b, moment.step.c],
            has_setuid: moment.has(family.capability()),
        }
    }

    fn a(&self) -> u64 {
        self.operands[0]
    }

    fn b(&self) -> u64 {
        self.operands[1]
    }

    fn real(&self) -> u64 {
        self.ids[REAL]
    }

    fn effective(&self) -> u64 {
        self.ids[EFFECTIVE]
    }

    fn saved(&self) -> u64 {
        self.ids[SAVED]
    }

    fn filesystem(&self) -> u64 {
        self.ids[FILESYSTEM]
    }

    fn is_own(&self, id: u64) -> bool {
        self.ids.contains(&id)
    }

    // Whether the ID is the one at that place and none of the others among real, effective and saved.
    fn is_only(&self, id: u64, place: usize) -> bool {
        (REAL..=SAVED).all(|at| (self.ids[at] == id) == (at == place))
    }

    // Whether some ID is given and that is true of each that is.
    fn all_given(&self, call: usize, is_so: impl Fn(u64) -> bool) -> bool {
        let count = [1, 2, 3, 1][call];
        let mut given = self.operands[..count].iter().filter(|id| **id != LEAVE).peekable();
        given.peek().is_some() && given.all(|id| is_so(*id))
    }
}

/// Whether an ID is given that is not among those allowed. The last of the calls then says nothing and does nothing.
pub(super) fn is_denied(family: Family, m: &Moment) -> bool {
    let is_silent = m.step.call == family.calls()[SETFSUID];
    if is_silent {
        !m.has(family.capability()) && m.step.a != LEAVE && !family.before(m).contains(&m.step.a)
    } else {
        family.new_ids(m).is_none()
    }
}

fn named(family: Family, call: usize, name: &str) -> String {
    format!("{}: {}", family.names()[call], name.replace("SETUID", family.capability_name()))
}

// The value of a call that is done: of the last, the old filesystem ID.
fn value(family: Family, call: usize, m: &Moment) -> u64 {
    if call == SETFSUID {
        family.before(m)[FILESYSTEM]
    } else {
        0
    }
}

// A row of an accepted call: the IDs afterwards are those that it leaves.
fn sets(
    family: Family,
    call: usize,
    name: &str,
    when: impl Fn(&Request) -> bool + Send + Sync + 'static,
) -> Row<Moment> {
    Row::new(
        named(family, call, name),
        move |m: &Moment| m.calls(family.calls()[call]) && !is_denied(family, m) && when(&Request::of(family, m)),
        move |m: &Moment| m.is_answered(value(family, call, m)) && family.are_set(m),
    )
}

// A row of a call that is not allowed: it is refused for cause 10, but for the last, which answers as if it were done.
fn denies(
    family: Family,
    call: usize,
    name: &str,
    when: impl Fn(&Request) -> bool + Send + Sync + 'static,
) -> Row<Moment> {
    let is_silent = call == SETFSUID;
    let name = format!("{}, {name}", if is_silent { "not allowed" } else { "refused" });
    Row::new(
        named(family, call, &name),
        move |m: &Moment| m.calls(family.calls()[call]) && is_denied(family, m) && when(&Request::of(family, m)),
        move |m: &Moment| {
            if is_silent {
                m.is_answered(value(family, call, m)) && m.is_unchanged()
            } else {
                m.is_refused_for(10)
            }
        },
    )
}

fn setuid(family: Family) -> Vec<Row<Moment>> {
    let sets = |name: &str, when: fn(&Request) -> bool| sets(family, SETUID, name, when);
    let denies = |name: &str, when: fn(&Request) -> bool| denies(family, SETUID, name, when);
    vec![
        sets("with SETUID, all four", |r| r.has_setuid && !r.is_own(r.a())),
        sets("with SETUID to the real ID, saved too", |r| r.has_setuid && r.a() == r.real() && r.saved() != r.real()),
        sets("without SETUID to the real ID", |r| !r.has_setuid && r.is_only(r.a(), REAL)),
        sets("without SETUID to the saved ID", |r| !r.has_setuid && r.is_only(r.a(), SAVED)),
        denies("no ID of the thread's", |r| !r.is_own(r.a())),
        denies("the effective ID alone", |r| r.is_only(r.a(), EFFECTIVE)),
        denies("the filesystem ID alone", |r| r.a() == r.filesystem() && r.a() != r.effective()),
    ]
}

fn setreuid(family: Family) -> Vec<Row<Moment>> {
    let sets = |name: &str, when: fn(&Request) -> bool| sets(family, SETREUID, name, when);
    let denies = |name: &str, when: fn(&Request) -> bool| denies(family, SETREUID, name, when);
    vec![
        sets("with SETUID, both to others", |r| r.has_setuid && r.a() != LEAVE && r.b() != LEAVE && !r.is_own(r.a())),
        sets("with SETUID, real left", |r| r.has_setuid && r.a() == LEAVE && r.b() != LEAVE && !r.is_own(r.b())),
        sets("with SETUID, effective left", |r| r.has_setuid && r.b() == LEAVE && r.a() != LEAVE && !r.is_own(r.a())),
        sets("without SETUID, real left", |r| !r.has_setuid && r.a() == LEAVE && r.b() != LEAVE),
        sets("without SETUID, effective left", |r| !r.has_setuid && r.b() == LEAVE && r.a() != LEAVE),
        sets("with SETUID, nothing given", |r| r.has_setuid && r.a() == LEAVE && r.b() == LEAVE),
        sets("without SETUID, nothing given", |r| !r.has_setuid && r.a() == LEAVE && r.b() == LEAVE),
        sets("without SETUID, real to the effective", |r| !r.has_setuid && r.is_only(r.a(), EFFECTIVE)),
        sets("without SETUID, real to the real", |r| !r.has_setuid && r.is_only(r.a(), REAL)),
        sets("without SETUID, effective to the real", |r| !r.has_setuid && r.is_only(r.b(), REAL)),
        sets("without SETUID, effective to itself", |r| !r.has_setuid && r.is_only(r.b(), EFFECTIVE)),
        sets("without SETUID, effective to the saved", |r| !r.has_setuid && r.is_only(r.b(), SAVED)),
        denies("real to the saved", |r| r.b() == LEAVE && r.is_only(r.a(), SAVED)),
        denies("real to another", |r| r.b() == LEAVE && !r.is_own(r.a())),
        denies("effective to another", |r| r.a() == LEAVE && !r.is_own(r.b())),
        denies("effective to the filesystem ID alone", |r| r.a() == LEAVE && r.b() == r.filesystem()),
        denies("real alone is allowed", |r| r.a() == r.real() && !r.is_own(r.b())),
        denies("effective alone is allowed", |r| r.b() == r.effective() && !r.is_own(r.a())),
        sets("saved moved, real given", |r| r.a() != LEAVE && r.b() == LEAVE && r.saved() != r.effective()),
        sets("saved moved, real given as it was", |r| r.a() == r.real() && r.saved() != r.effective()),
        sets("saved moved, effective given and not the old real", |r| {
            r.a() == LEAVE && r.b() != LEAVE && r.b() != r.real() && r.saved() != r.b()
        }),
        sets("saved stays, effective given as the old real", |r| {
            r.a() == LEAVE && r.b() == r.real() && r.saved() != r.b()
        }),
        sets("saved stays, nothing given", |r| r.a() == LEAVE && r.b() == LEAVE && r.saved() != r.effective()),
        sets("nothing given, filesystem becomes the effective", |r| {
            r.a() == LEAVE && r.b() == LEAVE && r.filesystem() != r.effective()
        }),
        sets("saved is the new effective, not the old", |r| r.a() != LEAVE && r.b() != LEAVE && r.b() != r.effective()),
    ]
}

fn setresuid(family: Family) -> Vec<Row<Moment>> {
    let call = SETRESUID;
    let mut rows = vec![
        sets(family, call, "with SETUID, all to others", |r| {
            r.has_setuid && r.operands.iter().all(|id| *id != LEAVE && !r.is_own(*id))
        }),
        sets(family, call, "with SETUID, nothing given", |r| r.has_setuid && r.operands == [LEAVE; 3]),
        sets(family, call, "without SETUID, nothing given", |r| !r.has_setuid && r.operands == [LEAVE; 3]),
        sets(family, call, "nothing given, filesystem becomes the effective", |r| {
            r.operands == [LEAVE; 3] && r.filesystem() != r.effective()
        }),
        denies(family, call, "the filesystem ID alone", |r| r.all_given(SETRESUID, |id| id == r.filesystem())),
    ];
    let names = ["real", "effective", "saved"];
    for (place, name) in names.into_iter().enumerate() {
        for (to, to_name) in names.into_iter().enumerate() {
            rows.push(sets(family, call, &format!("without SETUID, {name} to the {to_name}"), move |r| {
                !r.has_setuid && r.is_only(r.operands[place], to)
            }));
        }
        rows.push(denies(family, call, &format!("{name} alone to another"), move |r| {
            let is_wrong = |at: usize| r.operands[at] != LEAVE && !r.ids[..3].contains(&r.operands[at]);
            (0..3).all(|at| is_wrong(at) == (at == place))
        }));
        let is_left_alone = move |r: &Request| (0..3).all(|at| (r.operands[at] == LEAVE) == (at == place));
        let is_given_alone = move |r: &Request| (0..3).all(|at| (r.operands[at] != LEAVE) == (at == place));
        for (with, word) in [(true, "with"), (false, "without")] {
            rows.push(sets(family, call, &format!("{word} SETUID, {name} alone left"), move |r| {
                r.has_setuid == with && is_left_alone(r)
            }));
            rows.push(sets(family, call, &format!("{word} SETUID, {name} alone given"), move |r| {
                r.has_setuid == with && is_given_alone(r)
            }));
        }
    }
    rows
}

fn setfsuid(family: Family) -> Vec<Row<Moment>> {
    let sets = |name: &str, when: fn(&Request) -> bool| sets(family, SETFSUID, name, when);
    let denies = |name: &str, when: fn(&Request) -> bool| denies(family, SETFSUID, name, when);
    vec![
        sets("4294967295 asks", |r| r.a() == LEAVE && r.filesystem() != 0),
        sets("4294967295 asks, with SETUID", |r| r.a() == LEAVE && r.filesystem() != 0 && r.has_setuid),
        sets("with SETUID to another", |r| r.has_setuid && r.a() != LEAVE && r.a() != r.filesystem()),
        sets("without SETUID to the real ID", |r| !r.has_setuid && r.is_only(r.a(), REAL)),
        sets("without SETUID to the effective ID", |r| !r.has_setuid && r.is_only(r.a(), EFFECTIVE)),
        sets("without SETUID to the saved ID", |r| !r.has_setuid && r.is_only(r.a(), SAVED)),
        sets("without SETUID to itself", |r| !r.has_setuid && r.a() == r.filesystem()),
        denies("answered with the old ID", |r| r.filesystem() != 0),
    ]
}

// What each of the calls has: whom it does not help, and what it has no part in.
fn rows_of_each(family: Family, call: usize) -> Vec<Row<Moment>> {
    let other = family.other();
    let no_help = format!("{} in effect is no help", other.capability_name());
    let without_other = format!("with SETUID and without {}", other.capability_name());
    let mut rows = vec![
        denies(family, call, "SETUID permitted but not in effect", move |r| {
            r.moment.before.permitted & family.capability() != 0
        }),
        denies(family, call, &no_help, move |r| r.moment.has(other.capability())),
        denies(family, call, &format!("one of the {}", other.ids_name()), move |r| {
            r.all_given(call, |id| r.others.contains(&id) && !r.is_own(id))
        }),
        denies(family, call, "0", move |r| r.all_given(call, |id| id == 0 && !r.is_own(id))),
        denies(family, call, "for the user 0 too", |r| r.moment.before.euid == 0),
        sets(family, call, &without_other, move |r| {
            r.has_setuid && !r.moment.has(other.capability()) && r.all_given(call, |id| !r.is_own(id))
        }),
        sets(family, call, "with SETUID to 4294967294", move |r| {
            r.has_setuid && r.all_given(call, |id| id == LARGEST_ID) && r.effective() != LARGEST_ID
        }),
        sets(family, call, &format!("the {} stay", other.ids_name()), move |r| {
            family.new_ids(r.moment).is_some_and(|ids| ids != r.ids && (0..4).all(|at| ids[at] != r.others[at]))
        }),
    ];
    if call != SETFSUID {
        rows.push(sets(family, call, "the filesystem ID follows the effective", move |r| {
            let moves = |ids: Ids| ids[EFFECTIVE] != r.effective() && ids[EFFECTIVE] != r.filesystem();
            family.new_ids(r.moment).is_some_and(moves)
        }));
    }
    rows
}
