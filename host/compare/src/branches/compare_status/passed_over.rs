//! Lines that are passed over, in texts that are read and before a fault; and the last newline.

use super::super::status::{PassedOver, Position, WANTED};
use super::super::Row;
use super::malformed::described;
use super::{row, Laid};
use plans::StatusFault;

/// The rows of what may stand in a well-formed text besides the seven lines.
pub fn rows() -> Vec<Row<Laid>> {
    let mut rows = Vec::new();
    for kind in PassedOver::ALL {
        for position in Position::ALL {
            let name = format!("passed over {}: {}", position.described(), kind.described());
            rows.push(row(name, move |s| s.reading.passed_over.has_at(kind, position)));
        }
    }
    for kind in PassedOver::ALL.into_iter().filter(|kind| kind.is_near_miss()) {
        for (name, wanted) in WANTED.into_iter().enumerate() {
            rows.push(row(format!("passed over: {}, {wanted}", kind.described()), move |s| {
                s.reading.passed_over.has_near(kind, name)
            }));
        }
    }
    rows.extend(rows_of_gaps());
    rows.extend(rows_of_the_last_newline());
    for fault in StatusFault::ALL.into_iter().filter(|fault| fault.is_blind() && *fault != StatusFault::Noise) {
        let name = format!("well-formed still, {}", described(fault));
        rows.push(row(name, move |s| s.made() == Some((fault, 0))));
    }
    rows
}

/// The rows of what is passed over before a fault, where each counts as a line.
pub fn rows_before_a_fault() -> Vec<Row<Laid>> {
    let mut rows = Vec::new();
    for kind in PassedOver::ALL {
        rows.push(row(format!("70: past {}", kind.described()), move |s| s.reading.passed_over.has(kind)));
    }
    rows
}

fn rows_of_gaps() -> Vec<Row<Laid>> {
    let mut rows = vec![
        row("the seven lines alone", |s| s.reading.lines == WANTED.len()),
        row("more than 255 lines are passed over", |s| s.reading.passed_over.count() > 255),
        row("more than 65,535 lines are passed over", |s| s.reading.passed_over.count() > 65_535),
        row("a text of more than 65,535 bytes", |s| s.text().len() > 65_535),
        row("lines in all eight gaps", |s| (0..=WANTED.len()).all(|gap| s.reading.passed_over.behind(gap) > 0)),
        row("a kernel's own file", |s| s.text().starts_with(b"Name:\t") && s.reading.lines == 57),
    ];
    for gap in 0..=WANTED.len() {
        let name = match gap {
            0 => format!("lines before {} alone", WANTED[0]),
            _ => format!("lines behind {} alone", WANTED[gap - 1]),
        };
        rows.push(row(name, move |s| {
            let passed_over = &s.reading.passed_over;
            passed_over.behind(gap) > 0 && passed_over.behind(gap) == passed_over.count()
        }));
    }
    rows
}

fn rows_of_the_last_newline() -> Vec<Row<Laid>> {
    let ends = |name: &str, is_there: bool, is_behind: bool| {
        row(name, move |s| {
            s.reading.has_last_newline == is_there && (s.reading.passed_over.behind(WANTED.len()) > 0) == is_behind
        })
    };
    vec![
        ends("NoNewPrivs is the last line, and has its newline", true, false),
        ends("NoNewPrivs is the last line, and has no newline", false, false),
        ends("the last line is passed over, and has its newline", true, true),
        ends("the last line is passed over, and has no newline", false, true),
        row("an empty last line", |s| s.text().ends_with(b"\n\n")),
    ]
}
