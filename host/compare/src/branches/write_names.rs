//! The writer of sets in names: 22, then 28, or the text of three sets.

use super::names::{self, EFFECTIVE, FULL, INHERITABLE, LONGEST, PERMITTED, SETS};
use super::seen::{Seen, NO_ROOM};
use super::Row;
use plans::CAPABILITY_NAMES;

/// Three sets, and what came back for them.
pub struct NamesWrite {
    sets: [u64; 3],
    // The text of the sets, if they have one.
    text: Option<Vec<u8>>,
    /// What came back in each buffer.
    pub seen: Seen<u8>,
    // What was read again from the text that was written.
    again: Option<Vec<u64>>,
}

impl NamesWrite {
    /// The sets, what came back in each buffer, and what was read again if a text was written.
    pub fn new(sets: [u64; 3], seen: Seen<u8>, again: Option<Vec<u64>>) -> NamesWrite {
        let text = sets.iter().all(|set| *set <= FULL).then(|| names::written(&sets));
        NamesWrite { sets, text, seen, again }
    }

    /// Whether each set has a bit above 40.
    fn wrong(&self) -> [bool; 3] {
        self.sets.map(|set| set > FULL)
    }

    fn has_text(&self) -> bool {
        self.text.is_some()
    }

    /// Whether there is a text, and it is not empty.
    fn has_clauses(&self) -> bool {
        self.text.as_ref().is_some_and(|text| !text.is_empty())
    }

    fn is_refused(&self) -> bool {
        self.seen.is_refused(22, 0)
    }

    fn is_written(&self) -> bool {
        self.text.as_ref().is_some_and(|text| self.seen.is_done(text))
    }

    /// The capabilities that are in a set.
    fn named(&self) -> u64 {
        self.sets[0] | self.sets[1] | self.sets[2]
    }

    /// The clauses that were written.
    fn clauses(&self) -> impl Iterator<Item = &[u8]> {
        self.seen.written.split(|byte| *byte == b' ')
    }
}

fn row(
    name: impl std::fmt::Display,
    when: impl Fn(&NamesWrite) -> bool + Send + Sync + 'static,
    then: impl Fn(&NamesWrite) -> bool + Send + Sync + 'static,
) -> Row<NamesWrite> {
    Row::new(format!("write_names, {name}"), when, then)
}

/// The rows of the writer.
pub fn rows() -> Vec<Row<NamesWrite>> {
    let mut rows = Vec::new();
    rows.extend(rows_of_refusals());
    rows.extend(rows_of_room());
    rows.extend(rows_of_names());
    rows.extend(rows_of_flags());
    rows.extend(rows_of_sets());
    rows.extend(rows_of_the_form());
    rows
}

fn rows_of_refusals() -> Vec<Row<NamesWrite>> {
    let mut rows = Vec::new();
    for (place, set) in SETS.into_iter().enumerate() {
        let is_it_alone = move |s: &NamesWrite| (0..3).all(|other| s.wrong()[other] == (other == place));
        for bit in 41..64 {
            let applies = move |s: &NamesWrite| is_it_alone(s) && s.sets[place] & !FULL == 1 << bit;
            rows.push(row(format!("22: bit {bit} in the {set} set"), applies, NamesWrite::is_refused));
        }
        let is_nothing_else = move |s: &NamesWrite| is_it_alone(s) && s.named() & FULL == 0;
        rows.push(row(
            format!("22: {set} has a bit above 40 and nothing else"),
            is_nothing_else,
            NamesWrite::is_refused,
        ));
        let others = move |s: &NamesWrite| (0..3).all(|other| s.wrong()[other] != (other == place));
        rows.push(row(format!("22: a bit above 40 in all but the {set} set"), others, NamesWrite::is_refused));
    }
    rows.push(row("22: a bit above 40 in all three", |s| s.wrong() == [true; 3], NamesWrite::is_refused));
    rows.push(row("22 comes before 28", |s| !s.has_text(), NamesWrite::is_refused));
    rows
}

fn rows_of_room() -> Vec<Row<NamesWrite>> {
    let length = |s: &NamesWrite| s.text.as_ref().map(Vec::len);
    vec![
        row("28: no room", NamesWrite::has_clauses, |s| s.seen.no_room == NO_ROOM),
        row("28: one byte short", NamesWrite::has_clauses, |s| s.seen.one_short == NO_ROOM),
        row("0: just enough room", NamesWrite::has_clauses, move |s| Some(s.seen.exact.written()) == length(s)),
        row("0: more room", NamesWrite::has_clauses, move |s| Some(s.seen.roomy.written()) == length(s)),
        row(
            "28: some room, but not enough",
            move |s| s.has_clauses() && s.seen.some.0 > 0 && Some(s.seen.some.0) < length(s),
            |s| s.seen.some.1 == NO_ROOM,
        ),
        row(
            "0: three empty sets, in no room and in any",
            |s| s.sets == [0; 3],
            |s| s.seen.is_done(&[]) && s.seen.no_room.code == 0,
        ),
        row(
            "0: the longest text, 748 bytes",
            |s| s.sets == [FULL; 3],
            |s| s.is_written() && s.seen.exact.written() == LONGEST,
        ),
    ]
}

fn rows_of_names() -> Vec<Row<NamesWrite>> {
    let mut rows = Vec::new();
    for (number, name) in CAPABILITY_NAMES.into_iter().enumerate() {
        rows.push(row(
            format!("0: {name} and others"),
            move |s| s.has_text() && s.named() >> number & 1 == 1 && s.named().count_ones() > 1,
            NamesWrite::is_written,
        ));
        rows.push(row(
            format!("0: others and not {name}"),
            move |s| s.has_clauses() && s.named() >> number & 1 == 0,
            NamesWrite::is_written,
        ));
        rows.push(row(
            format!("0: {name} alone"),
            move |s| s.named() == 1 << number,
            move |s| s.is_written() && s.clauses().count() == 1 && is_of(&s.seen.written, name),
        ));
    }
    rows
}

// Whether a clause is that of the name.
fn is_of(clause: &[u8], name: &str) -> bool {
    clause.strip_prefix(name.as_bytes()).is_some_and(|rest| rest.first() == Some(&b'='))
}

// Some capability that is in just those sets has just those flags, in this order.
fn rows_of_flags() -> Vec<Row<NamesWrite>> {
    let mut rows = Vec::new();
    for flags in ["e", "i", "p", "ei", "ep", "ip", "eip"] {
        let number = move |s: &NamesWrite| {
            let in_set = |flag: char, set: usize| if flags.contains(flag) { s.sets[set] } else { !s.sets[set] };
            let just_those = in_set('e', EFFECTIVE) & in_set('i', INHERITABLE) & in_set('p', PERMITTED) & FULL;
            CAPABILITY_NAMES.get(just_those.trailing_zeros() as usize)
        };
        rows.push(row(
            format!("0: ={flags}"),
            move |s| s.has_text() && number(s).is_some(),
            move |s| {
                let clause = number(s).map(|name| format!("{name}={flags}").into_bytes());
                s.is_written() && clause.is_some_and(|clause| s.clauses().any(|written| written == clause))
            },
        ));
    }
    rows
}

fn rows_of_sets() -> Vec<Row<NamesWrite>> {
    let written = |name: &str, is_so: fn(&[u64; 3]) -> bool| {
        row(format!("0: {name}"), move |s| s.has_text() && is_so(&s.sets), NamesWrite::is_written)
    };
    let mut rows = vec![
        written("effective within permitted", |sets| sets[EFFECTIVE] != 0 && sets[EFFECTIVE] & !sets[PERMITTED] == 0),
        written("effective what is not permitted", |sets| sets[EFFECTIVE] & !sets[PERMITTED] != 0),
        written("three sets that are the same", |sets| sets[0] != 0 && sets[0] == sets[1] && sets[1] == sets[2]),
        written("no capability in two sets", |sets| {
            sets.iter().all(|set| *set != 0) && sets[0] & sets[1] == 0 && (sets[0] | sets[1]) & sets[2] == 0
        }),
    ];
    for (place, set) in SETS.into_iter().enumerate() {
        let is_alone =
            move |s: &NamesWrite| s.has_text() && (0..3).all(|other| (s.sets[other] != 0) == (other == place));
        rows.push(row(format!("0: {set} alone"), is_alone, NamesWrite::is_written));
        rows.push(row(
            format!("0: {set} alone, full"),
            move |s| is_alone(s) && s.sets[place] == FULL,
            NamesWrite::is_written,
        ));
        rows.push(row(
            format!("0: capability 40 {set}"),
            move |s| s.has_text() && s.sets[place] >> 40 == 1,
            NamesWrite::is_written,
        ));
    }
    rows
}

fn rows_of_the_form() -> Vec<Row<NamesWrite>> {
    vec![
        row("0: read again, it is the sets", NamesWrite::has_text, |s| s.again.as_deref() == Some(&s.sets)),
        row("0: a clause for each capability that is in any set", NamesWrite::has_clauses, |s| {
            s.clauses().count() == s.named().count_ones() as usize
        }),
        row(
            "0: clauses by the capabilities' numbers",
            |s| s.has_text() && s.named().count_ones() > 1,
            |s| {
                let mut names = CAPABILITY_NAMES.iter();
                s.clauses().all(|clause| names.any(|name| is_of(clause, name)))
            },
        ),
        row(
            "0: one space between, and no blank else",
            |s| s.has_text() && s.named().count_ones() > 1,
            |s| {
                let blanks = s.seen.written.iter().filter(|byte| byte.is_ascii_whitespace()).count();
                s.clauses().all(|clause| !clause.is_empty()) && blanks + 1 == s.clauses().count()
            },
        ),
        row(
            "0: no blank where there is one clause",
            |s| s.has_text() && s.named().count_ones() == 1,
            |s| !s.seen.written.iter().any(u8::is_ascii_whitespace),
        ),
        row("0: lower case", NamesWrite::has_clauses, |s| !s.seen.written.iter().any(u8::is_ascii_uppercase)),
    ]
}
