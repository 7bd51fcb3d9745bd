//! Status texts that are malformed: each kind of fault in each line, what stands where another line is due, the end, and the line that is told.

use super::super::status::{What, WANTED};
use super::super::Row;
use super::{row, Laid};
use plans::StatusFault;

/// The values by the places of faults.
const VALUES: [&str; 10] = [
    "the real ID of Uid",
    "the effective ID of Uid",
    "the saved ID of Uid",
    "the filesystem ID of Uid",
    "CapInh",
    "CapPrm",
    "CapEff",
    "CapBnd",
    "CapAmb",
    "NoNewPrivs",
];

/// The rows of malformed texts.
pub fn rows() -> Vec<Row<Laid>> {
    let mut rows = vec![row("70 comes before 28", |_| true)];
    rows.extend(rows_of_faults());
    rows.extend(rows_out_of_turn());
    rows.extend(rows_of_ends());
    rows.extend(rows_of_lines());
    rows.extend(rows_of_orders());
    rows
}

// Every fault in every value or line that can have it. Where the fault's line is known when it is made, it is that.
fn rows_of_faults() -> Vec<Row<Laid>> {
    let mut rows = Vec::new();
    for fault in StatusFault::ALL {
        for place in fault.places() {
            let of = if fault.is_of_a_value() { VALUES[*place] } else { WANTED[*place] };
            rows.push(row(format!("70: {}, {of}", described(fault)), move |s| s.made() == Some((fault, *place))));
        }
        if fault.is_blind() {
            rows.push(row(format!("70: {}", described(fault)), move |s| s.made() == Some((fault, 0))));
        }
    }
    rows
}

/// A fault in a few words.
pub fn described(fault: StatusFault) -> &'static str {
    match fault {
        StatusFault::NoDigits => "no digits after the tab",
        StatusFault::ValueLost => "value missing",
        StatusFault::SpaceForTab => "space for the tab",
        StatusFault::TabDoubled => "two tabs",
        StatusFault::TabLost => "no tab",
        StatusFault::BlankBeforeValue => "space after the tab",
        StatusFault::NotADigit => "no digit in a value",
        StatusFault::Sign => "sign",
        StatusFault::LeadingZero => "leading zero",
        StatusFault::TooLarge => "number too large",
        StatusFault::UpperCase => "upper-case hex",
        StatusFault::DigitLost => "digits missing",
        StatusFault::HexPrefix => "0x before the digits",
        StatusFault::DigitAdded => "digit added",
        StatusFault::FurtherValue => "further value",
        StatusFault::BlankBehind => "blank behind the value",
        StatusFault::CarriageReturn => "carriage return at the end",
        StatusFault::Nul => "zero byte",
        StatusFault::HighByte => "byte above 127",
        StatusFault::ColonDoubled => "two colons",
        StatusFault::LineSplit => "newline within the line",
        StatusFault::LinesJoined => "no newline behind the line",
        StatusFault::LineLost => "line lost",
        StatusFault::LineDoubled => "line doubled",
        StatusFault::LineBehind => "line again after all seven",
        StatusFault::LinesExchanged => "line exchanged with the next",
        StatusFault::OutOfTurn => "another wanted line before it",
        StatusFault::NoColon => "name without a colon",
        StatusFault::BlankBeforeName => "blank before the name",
        StatusFault::OtherCase => "name in another case",
        StatusFault::NameLonger => "name with a letter more",
        StatusFault::NameShorter => "name with letters less",
        StatusFault::BlankBeforeColon => "blank before the colon",
        StatusFault::ByteBeforeName => "byte before the name",
        StatusFault::CutInName => "cut in the name",
        StatusFault::CutInValues => "cut in the values",
        StatusFault::CutAfterLine => "cut after the line",
        StatusFault::NoWantedLine => "no wanted line, from the first on",
        StatusFault::ByteChanged => "byte changed",
        StatusFault::ByteInserted => "byte inserted",
        StatusFault::ByteDeleted => "byte deleted",
        StatusFault::BytesChanged => "several bytes changed",
        StatusFault::CutAnywhere => "cut anywhere",
        StatusFault::LinesMoved => "lines moved",
        StatusFault::LinesAtRandom => "lines at random",
        StatusFault::Noise => "noise",
        StatusFault::StatusThenNoise => "noise after a status text",
    }
}

// Each of the seven where another is due, and after all of them.
fn rows_out_of_turn() -> Vec<Row<Laid>> {
    let mut rows = Vec::new();
    for (name, wanted) in WANTED.into_iter().enumerate() {
        for (due, other) in WANTED.into_iter().enumerate().filter(|(due, _)| *due != name) {
            let is_it = move |s: &Laid| s.has_fault(|fault| fault.due == due && fault.what == What::OutOfTurn(name));
            rows.push(row(format!("70: {wanted} where {other} is due"), is_it));
        }
        let is_it = move |s: &Laid| s.has_fault(|f| f.due == WANTED.len() && f.what == What::OutOfTurn(name));
        rows.push(row(format!("70: {wanted} where nothing is due"), is_it));
    }
    rows
}

// Each of the seven still due at the end, with the last newline and without.
fn rows_of_ends() -> Vec<Row<Laid>> {
    let mut rows = Vec::new();
    for (due, wanted) in WANTED.into_iter().enumerate() {
        for (is_there, newline) in [(true, "there"), (false, "missing")] {
            let name = format!("70: {wanted} still due at the end, the last newline {newline}");
            rows.push(row(name, move |s| {
                let is_it = s.has_fault(|fault| fault.due == due && fault.what == What::End);
                is_it && s.reading.has_last_newline == is_there && !s.text().is_empty()
            }));
        }
    }
    let told = |name: &str, line: u32, is_so: fn(&[u8]) -> bool| {
        let is_refused = move |s: &Laid| s.is_right && s.seen.is_refused(70, line);
        Row::new(format!("compare_status, 70: {name}, line {line}"), move |s: &Laid| is_so(s.text()), is_refused)
    };
    rows.push(told("empty text", 1, <[u8]>::is_empty));
    rows.push(told("a newline alone", 2, |text| text == b"\n"));
    rows.push(told("two newlines alone", 3, |text| text == b"\n\n"));
    rows.push(told("one line that is passed over, no newline", 2, |text| text == b"x"));
    rows.push(told("one line that is passed over, and its newline", 2, |text| text == b"x\n"));
    rows
}

fn rows_of_lines() -> Vec<Row<Laid>> {
    let at = |name: &str, is_so: fn(&Laid, usize) -> bool| {
        row(format!("70: {name}"), move |s| s.has_fault(|fault| is_so(s, fault.line)))
    };
    vec![
        at("in line 1", |_, line| line == 1),
        at("in line 2", |_, line| line == 2),
        at("in the last line, its newline there", |s, line| line == s.reading.lines && s.reading.has_last_newline),
        at("in the last line, its newline missing", |s, line| line == s.reading.lines && !s.reading.has_last_newline),
        at("in the last line but one", |s, line| line + 1 == s.reading.lines),
        at("after an empty last line", |s, line| line == s.reading.lines + 1 && s.text().ends_with(b"\n\n")),
        at("ten lines or more follow", |s, line| line + 10 <= s.reading.lines),
        at("line above 255", |_, line| line > 255),
        at("line above 255, after the last", |s, line| line > 255 && line > s.reading.lines),
        at("line above 65,535", |_, line| line > 65_535),
        at("line 1, and nothing else in the text", |s, line| line == 1 && s.reading.lines == 1),
        row("70: the first fault decides, where a malformed line follows", |s| s.has_fault(|fault| fault.is_followed)),
        row("70: more than 65,535 bytes", |s| s.text().len() > 65_535),
    ]
}

// What is wrong with the sheet does not matter.
fn rows_of_orders() -> Vec<Row<Laid>> {
    let mut rows = Vec::new();
    for (of, what) in [("a malformed line", 0), ("a line not due", 1), ("the end", 2)] {
        let is_it = move |s: &Laid| {
            s.has_fault(|fault| match fault.what {
                What::Malformed => what == 0,
                What::OutOfTurn(_) => what == 1,
                What::End => what == 2,
            })
        };
        rows.push(row(format!("70 comes before 70 of the sheet: {of}"), move |s| is_it(s) && s.is_sheet_malformed()));
        rows.push(row(format!("70 comes before 72: {of}"), move |s| is_it(s) && s.invalid().is_some()));
        rows.push(row(format!("70: {of}, and a valid sheet"), move |s| is_it(s) && s.valid().is_some()));
    }
    rows.push(row("70 comes before 70 of the sheet: both empty", |s| {
        s.text().is_empty() && s.input.sheet.text.is_empty()
    }));
    rows
}
