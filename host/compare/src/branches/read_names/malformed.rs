//! Texts in names that are malformed: what comes after what, each name nearly right, each kind of fault, and its place.

use super::super::names::{After, Next, Stop, ALL, WORDS};
use super::super::seen::Seen;
use super::super::Row;
use plans::{NameFault, NamedKind, NamedText};

/// A text that is malformed, and what came back for it.
pub struct Malformed {
    pub named: NamedText,
    /// Where it is malformed.
    pub stop: Stop,
    /// What came back for each number of places.
    pub seen: Seen<u64>,
}

impl Malformed {
    fn text(&self) -> &[u8] {
        &self.named.text
    }

    fn has(&self, fault: NameFault) -> bool {
        matches!(self.named.kind, NamedKind::Broken { fault: own, .. } if own == fault)
    }

    /// Whether it was refused with its place, and that is where the fault was put.
    fn is_refused(&self) -> bool {
        let is_where_put = match self.named.kind {
            NamedKind::WellFormed { .. } => false,
            NamedKind::Broken { place, .. } => place.is_none_or(|place| place == self.stop.place),
        };
        is_where_put && self.seen.is_refused(70, self.stop.place as u32)
    }
}

fn row(name: impl std::fmt::Display, when: impl Fn(&Malformed) -> bool + Send + Sync + 'static) -> Row<Malformed> {
    Row::new(format!("read_names, 70: {name}"), when, Malformed::is_refused)
}

/// The rows of malformed texts.
pub fn rows() -> Vec<Row<Malformed>> {
    let mut rows = vec![Row::new("read_names, 70 comes before 28", |_: &Malformed| true, Malformed::is_refused)];
    rows.extend(rows_of_stops());
    rows.extend(rows_of_names());
    for fault in NameFault::ALL {
        rows.push(row(described(fault), move |s| s.has(fault)));
    }
    rows.extend(rows_of_places());
    rows
}

// Everything that cannot stand somewhere, and the end of the text, after everything that a text can have before it.
fn rows_of_stops() -> Vec<Row<Malformed>> {
    let mut rows = Vec::new();
    for after in After::ALL {
        for next in Next::ALL.into_iter().filter(|next| after.can_stop_at(*next)) {
            let name = format!("{}, {}", after.described(), next.described());
            rows.push(row(name, move |s| s.stop.after == after && s.stop.next == next));
        }
    }
    rows
}

// Each name without its last letter, and with a letter more.
fn rows_of_names() -> Vec<Row<Malformed>> {
    let mut rows = Vec::new();
    for (number, name) in WORDS.into_iter().enumerate().take(ALL) {
        rows.push(row(format!("{name} without its last letter"), move |Malformed { stop, .. }| {
            stop.after == After::PartOfName && stop.could_be == 1 << number && stop.length == name.len() - 1
        }));
        rows.push(row(format!("{name} with a letter more"), move |Malformed { stop, .. }| {
            let is_letter = matches!(stop.next, Next::Flag | Next::UpperFlag | Next::OtherLetter | Next::Underscore);
            stop.after == After::Name && stop.could_be == 1 << number && is_letter
        }));
    }
    rows
}

/// A fault in a few words.
pub fn described(fault: NameFault) -> &'static str {
    match fault {
        NameFault::CutInName => "cut within a name",
        NameFault::CutInAll => "cut within `all`",
        NameFault::CutAfterName => "cut after a name or `all`",
        NameFault::CutAfterComma => "cut after a comma",
        NameFault::CutAfterSign => "cut after `+` or `-`",
        NameFault::LetterChanged => "a letter of a name changed",
        NameFault::LetterLost => "a letter of a name lost",
        NameFault::LetterAdded => "a letter added to a name",
        NameFault::NamesRunTogether => "names run together",
        NameFault::UnknownName => "unknown name",
        NameFault::Number => "number for a name",
        NameFault::AllBeforeNames => "`all` before names",
        NameFault::AllAmongNames => "`all` among names",
        NameFault::CommaDoubled => "comma doubled",
        NameFault::CommaAtFront => "comma before the first name",
        NameFault::CommaTrailing => "comma after the last name",
        NameFault::CommaBehindFlags => "comma behind flags",
        NameFault::BlankInName => "blank in a name",
        NameFault::BlankBeforeComma => "blank before a comma",
        NameFault::BlankAfterComma => "blank after a comma",
        NameFault::BlankBeforeOperator => "blank between names and operator",
        NameFault::BlankBeforeSign => "blank before a later `+` or `-`",
        NameFault::BlankAfterSign => "blank between `+` or `-` and its flags",
        NameFault::BlankBeforeFlag => "blank before a flag",
        NameFault::UpperFlag => "flag in upper case",
        NameFault::OtherFlag => "unknown flag",
        NameFault::SignWithoutNames => "`+` or `-` without names",
        NameFault::NoFlagsBeforeBlank => "`+` or `-` without flags before a blank",
        NameFault::NoFlagsBeforeOperator => "`+` or `-` without flags before an operator",
        NameFault::CarriageReturn => "carriage return",
        NameFault::VerticalTab => "vertical tab",
        NameFault::FormFeed => "form feed",
        NameFault::Nul => "zero byte",
        NameFault::HighByte => "byte above 127",
        NameFault::OtherScript => "letter or blank that is not ASCII",
        NameFault::StrayByte => "stray byte",
        NameFault::ByteChanged => "byte changed",
        NameFault::ByteInserted => "byte inserted",
        NameFault::ByteDeleted => "byte deleted",
        NameFault::BytesChanged => "several bytes changed",
        NameFault::CutAnywhere => "cut anywhere",
        NameFault::PiecesMoved => "names and signs moved",
        NameFault::PiecesAtRandom => "names and signs at random",
        NameFault::Noise => "noise",
        NameFault::ClausesThenNoise => "noise after clauses",
    }
}

fn rows_of_places() -> Vec<Row<Malformed>> {
    let at = |name: &str, is_so: fn(&Malformed, usize) -> bool| row(name, move |s| is_so(s, s.stop.place));
    let within_a_name = |name: &str, is_so: fn(&Malformed, &Stop) -> bool| {
        row(name, move |s| s.stop.after == After::PartOfName && is_so(s, &s.stop))
    };
    vec![
        at("place 0", |_, place| place == 0),
        at("the place is the whole length", |s, place| place == s.text().len()),
        at("the last byte alone is at fault", |s, place| place + 1 == s.text().len()),
        at("more than 1,000 bytes follow", |s, place| place + 1000 < s.text().len()),
        at("place above 255", |_, place| place > 255),
        at("place above 1,000", |_, place| place > 1000),
        at("place above 65,535", |_, place| place > 65_535),
        at("in the second line", |s, place| s.text()[..place].iter().filter(|byte| **byte == b'\n').count() == 1),
        at("in the first clause", |s, _| s.stop.clauses == 1),
        at("in the second clause", |s, _| s.stop.clauses == 2),
        at("past a hundred clauses", |s, _| s.stop.clauses > 100),
        at("after blanks alone", |s, place| place > 0 && s.text()[..place].iter().all(|byte| b" \t\n".contains(byte))),
        within_a_name("one letter into a name", |_, stop| stop.length == 1),
        within_a_name("four letters into a name, which any can be", |_, stop| stop.length == 4),
        within_a_name("in a name that two or more can be still", |_, stop| {
            stop.length > 4 && stop.could_be.count_ones() > 1
        }),
        within_a_name("ten letters or more into a name", |_, stop| stop.length >= 10),
        within_a_name("in the first name of a later clause", |s, stop| {
            let before = &s.text()[..stop.place - stop.length];
            stop.clauses > 0 && !before.ends_with(b",")
        }),
        within_a_name("in a later name of a list", |s, stop| s.text()[..stop.place - stop.length].ends_with(b",")),
    ]
}
