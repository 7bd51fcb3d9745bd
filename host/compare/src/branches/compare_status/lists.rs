//! Well-formed status texts beside valid sheets: 28, or the list of what differs.

use super::super::seen::NO_ROOM;
use super::super::sheet::{KEYS, SECUREBITS, USERS};
use super::super::status::{Compared, COMPARED, FLAG, IDS, LONGEST, SETS, SHORTEST};
use super::super::validity::{FULL, LARGEST_ID};
use super::super::Row;
use super::{row, Laid};

const ALL_TEN: u32 = 0x3ff;

// The places of sets among the compared keys.
const PERMITTED: usize = 4;
const INHERITABLE: usize = 5;
const EFFECTIVE: usize = 6;
const AMBIENT: usize = 8;

/// The rows of lists.
pub fn rows() -> Vec<Row<Laid>> {
    let mut rows = Vec::new();
    rows.extend(rows_of_room());
    rows.extend(rows_of_keys());
    rows.extend(rows_of_ids());
    rows.extend(rows_of_sets());
    rows.extend(rows_of_the_flag());
    rows.extend(rows_of_what_is_not_valid());
    rows.extend(rows_of_what_is_not_compared());
    rows
}

fn key(place: usize) -> &'static str {
    KEYS[COMPARED[place]]
}

// A row whose list is written, for what is predicted and what is found.
fn listed(
    name: impl std::fmt::Display,
    is_so: impl Fn(&Compared, &Compared) -> bool + Send + Sync + 'static,
) -> Row<Laid> {
    row(format!("0: {name}"), move |s| s.both().is_some_and(|(predicted, found)| is_so(predicted, found)))
}

fn is_done(s: &Laid) -> bool {
    s.both().is_some()
}

fn rows_of_room() -> Vec<Row<Laid>> {
    let of = |name: &str, when: fn(&Laid) -> bool, then: fn(&Laid) -> bool| {
        Row::new(format!("compare_status, {name}"), when, move |s: &Laid| s.is_right && then(s))
    };
    let differs = |s: &Laid| is_done(s) && s.differing != 0;
    let agrees = |s: &Laid| is_done(s) && s.differing == 0;
    vec![
        of("28: no room", is_done, |s| s.seen.no_room == NO_ROOM),
        of("28: no room, and nothing differs", agrees, |s| s.seen.no_room == NO_ROOM),
        of("28: 35 bytes, and nothing differs", agrees, |s| s.seen.one_short == NO_ROOM),
        of("28: one byte short, and something differs", differs, |s| s.seen.one_short == NO_ROOM),
        of("28: 371 bytes for the longest list", is_longest, |s| s.seen.one_short == NO_ROOM),
        of(
            "28: room for the last line and not for what differs",
            |s| is_done(s) && (SHORTEST..s.length).contains(&s.seen.some.0),
            |s| s.seen.some.1 == NO_ROOM,
        ),
        of(
            "28: less room than for the last line",
            |s| is_done(s) && (1..SHORTEST).contains(&s.seen.some.0),
            |s| s.seen.some.1 == NO_ROOM,
        ),
        of("0: just enough room", differs, |s| s.seen.exact.written() == s.length),
        of("0: more room", differs, |s| s.seen.roomy.written() == s.length),
        of("0: the last line alone, 36 bytes", agrees, |s| s.seen.exact.written() == SHORTEST),
        of("0: the longest list, 372 bytes", is_longest, |s| s.seen.exact.written() == LONGEST),
    ]
}

// Whether everything differs, and every ID has ten digits.
fn is_longest(s: &Laid) -> bool {
    let has_ten_digits =
        |predicted: &Compared, found: &Compared| (0..IDS).all(|id| predicted[id].min(found[id]) > 999_999_999);
    s.differing == ALL_TEN && s.both().is_some_and(|(predicted, found)| has_ten_digits(predicted, found))
}

fn rows_of_keys() -> Vec<Row<Laid>> {
    let mut rows = Vec::new();
    let differs_in = |name: String, keys: u32| row(format!("0: {name}"), move |s| is_done(s) && s.differing == keys);
    for place in 0..COMPARED.len() {
        rows.push(differs_in(format!("{} differs alone", key(place)), 1 << place));
        rows.push(differs_in(format!("all but {} differ", key(place)), ALL_TEN & !(1 << place)));
    }
    for (first, second) in (0..COMPARED.len()).flat_map(|one| (one + 1..COMPARED.len()).map(move |two| (one, two))) {
        rows.push(row(format!("0: {} and {} differ", key(first), key(second)), move |s| {
            s.differing >> first & s.differing >> second & 1 == 1
        }));
    }
    for count in 0..=10 {
        rows.push(row(format!("0: {count} of ten keys differ"), move |s| {
            is_done(s) && s.differing.count_ones() == count
        }));
    }
    rows.push(listed("two IDs exchanged", |p, f| has_exchanged(p, f, 0..IDS)));
    rows.push(listed("two sets exchanged", |p, f| has_exchanged(p, f, SETS)));
    rows.push(listed("permitted and inheritable exchanged", |p, f| {
        p[PERMITTED] != p[INHERITABLE] && (p[PERMITTED], p[INHERITABLE]) == (f[INHERITABLE], f[PERMITTED])
    }));
    rows
}

fn has_exchanged(predicted: &Compared, found: &Compared, mut keys: std::ops::Range<usize>) -> bool {
    let range = keys.clone();
    keys.any(|one| {
        let is_it = |two: usize| {
            predicted[one] != predicted[two] && predicted[one] == found[two] && predicted[two] == found[one]
        };
        range.clone().any(is_it)
    })
}

fn digits(id: u64) -> u32 {
    id.checked_ilog10().unwrap_or(0) + 1
}

fn rows_of_ids() -> Vec<Row<Laid>> {
    let mut rows = Vec::new();
    for count in 1..=10 {
        rows.push(listed(format!("an ID of {count} digits is found and listed"), move |p, f| {
            (0..IDS).any(|id| p[id] != f[id] && digits(f[id]) == count)
        }));
        rows.push(listed(format!("an ID of {count} digits is predicted and listed"), move |p, f| {
            (0..IDS).any(|id| p[id] != f[id] && digits(p[id]) == count)
        }));
    }
    for id in 0..IDS {
        let name = key(id);
        rows.push(listed(format!("{name} is found 0"), move |p, f| p[id] != 0 && f[id] == 0));
        rows.push(listed(format!("{name} is predicted 0"), move |p, f| p[id] == 0 && f[id] != 0));
        rows.push(listed(format!("{name} is predicted 4294967294"), move |p, f| p[id] == LARGEST_ID && f[id] != p[id]));
        rows.push(listed(format!("{name} differs by one"), move |p, f| p[id].abs_diff(f[id]) == 1));
        rows.push(listed(format!("{name} differs, its low 8 bits do not"), move |p, f| {
            p[id] != f[id] && (p[id] ^ f[id]) & 0xff == 0
        }));
        rows.push(listed(format!("{name} differs, its low 16 bits do not"), move |p, f| {
            p[id] != f[id] && (p[id] ^ f[id]) & 0xffff == 0
        }));
        rows.push(listed(format!("{name} is found with a digit more"), move |p, f| digits(f[id]) == digits(p[id]) + 1));
        rows.push(listed(format!("{name} is found with a digit less"), move |p, f| digits(f[id]) + 1 == digits(p[id])));
    }
    rows.push(row("0: four different IDs, and nothing differs", |s| {
        s.both().is_some_and(|(p, _)| s.differing == 0 && are_different(&p[..IDS]))
    }));
    rows
}

fn are_different(values: &[u64]) -> bool {
    values.iter().enumerate().all(|(at, value)| !values[..at].contains(value))
}

fn rows_of_sets() -> Vec<Row<Laid>> {
    let mut rows = Vec::new();
    for bit in 0..64 {
        rows.push(listed(format!("a set differs in bit {bit} alone"), move |p, f| {
            SETS.into_iter().any(|set| p[set] ^ f[set] == 1 << bit)
        }));
    }
    for set in SETS {
        let name = key(set);
        rows.push(listed(format!("{name} differs in its low half alone"), move |p, f| {
            p[set] != f[set] && (p[set] ^ f[set]) >> 32 == 0
        }));
        rows.push(listed(format!("{name} differs in its high half alone"), move |p, f| {
            p[set] != f[set] && (p[set] ^ f[set]) & 0xffff_ffff == 0
        }));
        rows.push(listed(format!("{name} is found empty"), move |p, f| p[set] != 0 && f[set] == 0));
        rows.push(listed(format!("{name} is predicted empty"), move |p, f| p[set] == 0 && f[set] != 0));
        rows.push(listed(format!("{name} is predicted full"), move |p, f| p[set] == FULL && f[set] != FULL));
        rows.push(listed(format!("{name} is found with all 64 bits"), move |_, f| f[set] == u64::MAX));
    }
    rows.push(row("0: five different sets, and nothing differs", |s| {
        s.both().is_some_and(|(p, _)| s.differing == 0 && are_different(&p[SETS]))
    }));
    rows.push(row("0: permitted is not inheritable, and nothing differs", |s| {
        s.both().is_some_and(|(p, _)| s.differing == 0 && p[PERMITTED] != p[INHERITABLE])
    }));
    rows
}

fn rows_of_the_flag() -> Vec<Row<Laid>> {
    let of = |predicted: u64, found: u64| {
        listed(format!("nnp {predicted} is predicted and {found} found"), move |p, f| {
            (p[FLAG], f[FLAG]) == (predicted, found)
        })
    };
    vec![of(0, 0), of(0, 1), of(1, 0), of(1, 1)]
}

// What is found need not be valid.
fn rows_of_what_is_not_valid() -> Vec<Row<Laid>> {
    let mut rows = vec![
        listed("effective is found outside permitted", |_, f| f[EFFECTIVE] & !f[PERMITTED] & FULL != 0),
        listed("ambient is found outside permitted", |_, f| f[AMBIENT] & !f[PERMITTED] & FULL != 0),
        listed("ambient is found outside inheritable", |_, f| f[AMBIENT] & !f[INHERITABLE] & FULL != 0),
    ];
    for id in 0..IDS {
        rows.push(listed(format!("{} is found 4294967295", key(id)), move |_, f| f[id] == LARGEST_ID + 1));
    }
    for set in SETS {
        for bit in [41, 63] {
            rows.push(listed(format!("{} is found with bit {bit} and no other above 40", key(set)), move |_, f| {
                f[set] & !FULL == 1 << bit
            }));
        }
        rows.push(listed(format!("{} is found right but for bits above 40", key(set)), move |p, f| {
            p[set] != f[set] && p[set] == f[set] & FULL
        }));
    }
    rows
}

fn rows_of_what_is_not_compared() -> Vec<Row<Laid>> {
    let agrees = |name: &str, is_so: fn(&Laid) -> bool| {
        row(format!("0: nothing differs, {name}"), move |s| is_done(s) && s.differing == 0 && is_so(s))
    };
    vec![
        agrees("securebits 00", |s| s.valid().is_some_and(|values| values[SECUREBITS] == 0)),
        agrees("securebits ff", |s| s.valid().is_some_and(|values| values[SECUREBITS] == 255)),
        agrees("group IDs are not the user IDs", |s| s.valid().is_some_and(|v| v[..USERS] != v[USERS..2 * USERS])),
        agrees("Gid is in the text, and other than the group IDs", |s| {
            let gid = s.text().windows(5).position(|five| five == b"\nGid:").is_some();
            gid && s.valid().is_some_and(|values| values[USERS] != 100)
        }),
    ]
}
