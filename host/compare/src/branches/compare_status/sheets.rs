//! Well-formed status texts beside sheets that are refused: 70 with line 0, then 72, each before 28.

use super::super::sheet::{self, KEYS, LINE_PAST_THE_SHEET};
use super::super::texts::described;
use super::super::validity;
use super::super::Row;
use super::Laid;
use plans::{Fault, Kind};

/// The rows of sheets that are refused.
pub fn rows() -> Vec<Row<Laid>> {
    let mut rows = Vec::new();
    rows.extend(rows_of_malformed_sheets());
    rows.extend(rows_of_orders());
    for kind in validity::kinds() {
        let applies = move |s: &Laid| s.invalid().is_some_and(&kind.holds);
        rows.push(refused(format!("72: {}", kind.name), 72, applies));
    }
    rows
}

// A row whose sheet is refused with that code and line 0.
fn refused(name: impl std::fmt::Display, code: u32, when: impl Fn(&Laid) -> bool + Send + Sync + 'static) -> Row<Laid> {
    Row::new(format!("compare_status, {name}"), when, move |s: &Laid| s.is_right && s.seen.is_refused(code, 0))
}

fn fault(s: &Laid) -> Option<Fault> {
    match s.input.sheet.kind {
        Kind::Broken { fault, .. } => Some(fault),
        _ => None,
    }
}

fn rows_of_malformed_sheets() -> Vec<Row<Laid>> {
    let malformed = |name: String, is_so: Box<dyn Fn(&Laid) -> bool + Send + Sync>| {
        refused(format!("70 of the sheet: {name}"), 70, move |s| s.is_sheet_malformed() && is_so(s))
    };
    let is_at = |s: &Laid, line: u32| s.sheet == sheet::Reading::Malformed { line };
    let mut rows = Vec::new();
    for (key, line) in KEYS.into_iter().zip(1..) {
        rows.push(malformed(format!("at fault in {key}"), Box::new(move |s| is_at(s, line))));
    }
    rows.push(malformed("text past it".into(), Box::new(move |s| is_at(s, LINE_PAST_THE_SHEET))));
    for fault in Fault::ALL.into_iter().filter(|fault| fault.is_in_sheets()) {
        rows.push(malformed(described(fault).into(), Box::new(move |s| self::fault(s) == Some(fault))));
    }
    rows.push(malformed("empty".into(), Box::new(|s| s.input.sheet.text.is_empty())));
    rows.push(malformed("the steps of a plan".into(), Box::new(|s| matches!(s.input.sheet.kind, Kind::Runs(_)))));
    rows.push(malformed("the status text itself".into(), Box::new(|s| s.input.sheet.text == s.input.status)));
    rows
}

fn rows_of_orders() -> Vec<Row<Laid>> {
    let is_flawed = |s: &Laid| matches!(s.input.sheet.kind, Kind::Broken { valid: false, .. });
    vec![
        refused("70 of the sheet comes before 28", 70, Laid::is_sheet_malformed),
        refused("72 comes before 28", 72, |s| s.invalid().is_some()),
        refused("70 of the sheet comes before 72: in a sheet that was not valid", 70, move |s| {
            is_flawed(s) && s.is_sheet_malformed() && !matches!(s.sheet, sheet::Reading::Malformed { line: 16 })
        }),
        refused("70 of the sheet comes before 72: past a sheet that is not valid", 70, move |s| {
            is_flawed(s) && matches!(s.sheet, sheet::Reading::Malformed { line: LINE_PAST_THE_SHEET })
        }),
        refused("72: what is found is as it is predicted", 72, |s| {
            let found = s.reading.found.as_ref().ok();
            s.invalid().is_some_and(|values| found.is_some_and(|found| super::status::compared(values) == *found))
        }),
    ]
}
