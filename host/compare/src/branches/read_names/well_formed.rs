//! Texts in names that are well-formed: what can come after what, names in either case, lists, blanks, and what comes back again.

mod operators;

use super::super::names::{self, After, Clause, Effects, Next, Reading, Spelled, Subject, ALL, WORDS};
use super::super::names::{EFFECTIVE, FULL, PERMITTED, SETS};
use super::super::seen::{Seen, NO_ROOM};
use super::super::Row;
use super::malformed::described;
use plans::{NameFault, NamedKind, NamedText};

/// How many values a text has.
const VALUES: usize = 3;

/// A text that is well-formed, and what came back for it.
pub struct WellFormed {
    named: NamedText,
    reading: Reading,
    sets: [u64; VALUES],
    // The sets as they are written.
    written: Vec<u8>,
    effects: Effects,
    // The words in lower, upper and mixed case, by their numbers.
    spelled: [u64; 3],
    // For each kind of subject, the operators with their flags that it has.
    acted: [u32; 3],
    /// What came back for each number of places.
    pub seen: Seen<u64>,
    again: Option<Again>,
}

/// What was written again from the sets that were read, and what was read from that.
pub struct Again {
    pub text: Vec<u8>,
    pub sets: Vec<u64>,
}

impl WellFormed {
    /// The text and what was read of it, what came back for each number of places, and what came back again.
    pub fn new(named: NamedText, reading: Reading, seen: Seen<u64>, again: Option<Again>) -> WellFormed {
        let sets = names::sets(reading.clauses.iter().flat_map(Clause::acts));
        let mut spelled = [0; 3];
        for word in reading.clauses.iter().flat_map(Clause::words) {
            spelled[word.case()] |= 1 << word.number;
        }
        let effects = Effects::of(&reading.clauses);
        let acted = operators::acted(&reading.clauses);
        WellFormed { named, sets, written: names::written(&sets), effects, spelled, acted, reading, seen, again }
    }

    fn text(&self) -> &[u8] {
        &self.named.text
    }

    fn clauses(&self) -> &[Clause] {
        &self.reading.clauses
    }

    fn has_clause(&self, is_so: impl Fn(&Clause) -> bool) -> bool {
        self.clauses().iter().any(is_so)
    }

    /// Whether the sets of the text came back, and they are those that it was made to say.
    fn is_read(&self) -> bool {
        let is_as_made = match self.named.kind {
            NamedKind::WellFormed { sets } => sets == self.sets,
            NamedKind::Broken { place, .. } => place.is_none(),
        };
        is_as_made && self.seen.is_done(&self.sets)
    }

    fn has_fault(&self, fault: NameFault) -> bool {
        matches!(self.named.kind, NamedKind::Broken { fault: own, .. } if own == fault)
    }
}

/// A row whose text is read.
fn read(name: impl std::fmt::Display, when: impl Fn(&WellFormed) -> bool + Send + Sync + 'static) -> Row<WellFormed> {
    Row::new(format!("read_names, 0: {name}"), when, WellFormed::is_read)
}

/// The rows of well-formed texts.
pub fn rows() -> Vec<Row<WellFormed>> {
    let mut rows = Vec::new();
    rows.extend(rows_of_room());
    rows.extend(rows_of_what_comes_again());
    rows.extend(rows_of_what_can_follow());
    rows.extend(rows_of_words());
    rows.extend(rows_of_lists());
    rows.extend(operators::rows());
    rows.extend(rows_of_sets());
    rows.extend(rows_of_blanks());
    rows.extend(rows_of_lengths());
    for fault in NameFault::ALL.into_iter().filter(|fault| fault.is_blind()) {
        rows.push(read(format!("well-formed still, {}", described(fault)), move |s| s.has_fault(fault)));
    }
    rows
}

fn rows_of_room() -> Vec<Row<WellFormed>> {
    let any = |_: &WellFormed| true;
    let row = |name: &str, when: fn(&WellFormed) -> bool, then: fn(&WellFormed) -> bool| {
        Row::new(format!("read_names, {name}"), when, then)
    };
    vec![
        row("28: no place", any, |s| s.seen.no_room == NO_ROOM),
        row("28: one place", |s| s.seen.some.0 == 1, |s| s.seen.some.1 == NO_ROOM),
        row("28: two places", any, |s| s.seen.one_short == NO_ROOM),
        row("28: two places, for a text without a clause", |s| s.clauses().is_empty(), |s| s.seen.one_short == NO_ROOM),
        row("0: three places", any, |s| s.seen.exact.written() == VALUES),
        row("0: more places", any, |s| s.seen.roomy.written() == VALUES),
    ]
}

fn rows_of_what_comes_again() -> Vec<Row<WellFormed>> {
    let again = |name: &str, when: fn(&WellFormed) -> bool, then: fn(&WellFormed, &Again) -> bool| {
        Row::new(format!("read_names, 0: {name}"), when, move |s: &WellFormed| {
            s.again.as_ref().is_some_and(|again| then(s, again))
        })
    };
    vec![
        again("written again, it is the written form", |_| true, |s, again| again.text == s.written),
        again("written and read again, the sets are the same", |_| true, |s, again| again.sets == s.sets),
        again(
            "the written form, written again, is the text",
            |s| s.text() == s.written,
            |s, again| again.text == s.text(),
        ),
    ]
}

// Everything that can stand somewhere, and the end of the text, after everything that it can stand after.
fn rows_of_what_can_follow() -> Vec<Row<WellFormed>> {
    let mut rows = Vec::new();
    for after in After::ALL {
        for next in Next::ALL.into_iter().filter(|next| after.can_have(*next)) {
            let name = format!("{}, {}", after.described(), next.described());
            rows.push(read(name, move |s| s.reading.met[after as usize] >> next as u32 & 1 == 1));
        }
    }
    rows
}

fn rows_of_words() -> Vec<Row<WellFormed>> {
    let mut rows = Vec::new();
    for (number, word) in WORDS.into_iter().enumerate() {
        for (case, described) in ["lower", "upper", "mixed"].into_iter().enumerate() {
            rows.push(read(format!("{word} in {described} case"), move |s| s.spelled[case] >> number & 1 == 1));
        }
    }
    let spelled = |name: &str, is_so: fn(&Spelled) -> bool| {
        read(name, move |s| s.has_clause(|clause| clause.names().iter().any(is_so)))
    };
    rows.push(spelled("a name whose first letter alone is upper case", |name| name.upper == 1));
    rows.push(spelled("a name whose first letter alone is lower case", |name| name.upper == name.letters() & !1));
    rows.push(spelled("a name whose last letter alone is upper case", |name| {
        name.upper == 1 << (WORDS[name.number].len() - 1)
    }));
    rows
}

fn rows_of_lists() -> Vec<Row<WellFormed>> {
    let list =
        |name: &str, is_so: fn(&[Spelled]) -> bool| read(name, move |s| s.has_clause(|clause| is_so(clause.names())));
    let mut rows = vec![
        list("one name", |names| names.len() == 1),
        list("two names", |names| names.len() == 2),
        list("three names or more", |names| names.len() >= 3),
        list("41 names", |names| names.len() == ALL),
        list("more than 41 names", |names| names.len() > ALL),
        list("more than 255 names", |names| names.len() > 255),
        list("names not by their numbers", |names| names.windows(2).any(|pair| pair[0].number > pair[1].number)),
        list("a name twice, one after the other", |names| {
            names.windows(2).any(|pair| pair[0].number == pair[1].number)
        }),
        list("a name twice, in either case", |names| {
            names.windows(2).any(|pair| pair[0].number == pair[1].number && pair[0].upper != pair[1].upper)
        }),
        list("a name twice, another between", |names| {
            names.windows(3).any(|three| three[0].number == three[2].number && three[0].number != three[1].number)
        }),
    ];
    let has_twice = |clause: &Clause| clause.names().len() > clause.capabilities().count_ones() as usize;
    for operator in *b"=+-" {
        rows.push(read(format!("a name twice before `{}`", char::from(operator)), move |s| {
            s.has_clause(|clause| has_twice(clause) && clause.actions[0].operator == operator)
        }));
    }
    rows
}

fn rows_of_sets() -> Vec<Row<WellFormed>> {
    let of = |name: &str, is_so: fn(&[u64; 3]) -> bool| read(name, move |s| !s.clauses().is_empty() && is_so(&s.sets));
    let mut rows = vec![
        of("three empty sets of some clauses", |sets| *sets == [0; 3]),
        of("three full sets", |sets| *sets == [FULL; 3]),
        of("effective what is not permitted", |sets| sets[EFFECTIVE] & !sets[PERMITTED] != 0),
        of("three sets that are the same", |sets| sets[0] == sets[1] && sets[1] == sets[2] && sets[0] != 0),
        of("three sets that all differ", |sets| sets[0] != sets[1] && sets[1] != sets[2] && sets[0] != sets[2]),
    ];
    for (place, set) in SETS.into_iter().enumerate() {
        let alone = move |value: u64| {
            let mut sets = [0; 3];
            sets[place] = value;
            sets
        };
        rows.push(read(format!("capability 0 {set} alone"), move |s| s.sets == alone(1)));
        rows.push(read(format!("capability 40 {set} alone"), move |s| s.sets == alone(1 << 40)));
        rows.push(read(format!("{set} alone is not empty"), move |s| {
            s.sets[place] != 0 && s.sets == alone(s.sets[place])
        }));
    }
    rows
}

fn is_blank(byte: &u8) -> bool {
    b" \t\n".contains(byte)
}

fn rows_of_blanks() -> Vec<Row<WellFormed>> {
    let between = |name: &str, is_so: fn(&[u8]) -> bool| read(name, move |s| is_so(s.text().trim_ascii()));
    let mut rows = vec![
        read("empty text", |s| s.text().is_empty()),
        between("several blanks between clauses", |text| text.windows(2).any(|pair| pair.iter().all(is_blank))),
        between("blanks of all kinds between two clauses", |text| {
            text.split(|byte| !is_blank(byte)).any(|run| b" \t\n".iter().all(|blank| run.contains(blank)))
        }),
        read("more than 255 blanks in a row", |s| {
            s.text().len() > 255 && s.text().split(|byte| !is_blank(byte)).any(|run| run.len() > 255)
        }),
        read("no blank at all", |s| !s.clauses().is_empty() && !s.text().iter().any(is_blank)),
    ];
    for (blank, name) in [(b' ', "space"), (b'\t', "tab"), (b'\n', "newline")] {
        let has_clauses = |s: &WellFormed| !s.clauses().is_empty();
        rows.push(read(format!("{name}s alone"), move |s| {
            !s.text().is_empty() && s.text().iter().all(|byte| *byte == blank)
        }));
        rows.push(read(format!("a {name} at the front"), move |s| has_clauses(s) && s.text().first() == Some(&blank)));
        rows.push(read(format!("a {name} at the end"), move |s| has_clauses(s) && s.text().last() == Some(&blank)));
        rows.push(read(format!("one {name} between two clauses"), move |s| {
            let is_it = |three: &[u8]| three[1] == blank && !is_blank(&three[0]) && !is_blank(&three[2]);
            s.text().windows(3).any(is_it)
        }));
    }
    rows
}

fn rows_of_lengths() -> Vec<Row<WellFormed>> {
    vec![
        read("made to be well-formed", |s| matches!(s.named.kind, NamedKind::WellFormed { .. })),
        read("one clause", |s| s.clauses().len() == 1),
        read("two clauses", |s| s.clauses().len() == 2),
        read("more than a hundred clauses", |s| s.clauses().len() > 100),
        read("more than a thousand clauses", |s| s.clauses().len() > 1000),
        read("a clause without names after others", |s| {
            s.clauses().iter().skip(1).any(|clause| matches!(clause.subject, Subject::Nothing))
        }),
        read("more than 748 bytes", |s| s.text().len() > names::LONGEST),
        read("more than 4,000 bytes", |s| s.text().len() > 4000),
        read("more than 65,535 bytes", |s| s.text().len() > 65_535),
    ]
}
