//! The end of a slot plan's report, slot by slot.

use crate::credentials::{Credentials, SHEET_VALUES};
use crate::report::results;
use crate::sheet::{read_sheet, SheetReading};
use crate::slot_plan::SLOTS;

/// The slots in use at the end of a slot plan's report, the lowest first, each with its credentials.
#[derive(Clone, Debug)]
pub struct Slots<'a> {
    rest: &'a [u8],
    /// The lowest slot that can still come.
    due: u8,
}

/// The slots in use after the results in `report`, which the run of a slot plan has written. Of any other text they are those after the results at
/// its front, as far as they have the form of slots: a slot that is at most 95 and above the one before it, and the sheet of valid credentials.
///
/// ```
/// use urrezkalu::slots;
///
/// let report = b"code=0\nvalue=0000000000000000\ncause=0\nslot=7\nruid=1002\neuid=1002\nsuid=1002\nfsuid=1002\n\
///     rgid=1000\negid=1000\nsgid=1000\nfsgid=1000\n\
///     permitted=0000000000000000\ninheritable=0000000000020000\neffective=0000000000000000\n\
///     bounding=000001ffffffffff\nambient=0000000000000000\nsecurebits=00\nnnp=1\n";
/// let mut slots = slots(report);
/// let (slot, credentials) = slots.next().expect("a slot is in use");
/// assert_eq!((slot, credentials.ruid, credentials.inheritable), (7, 1002, 1 << 17));
/// assert_eq!(slots.next(), None);
/// assert_eq!(slots.rest(), b"");
/// ```
#[must_use]
pub fn slots(report: &[u8]) -> Slots<'_> {
    let mut results = results(report);
    results.by_ref().for_each(drop);
    Slots { rest: results.rest(), due: 0 }
}

impl<'a> Slots<'a> {
    /// What has not been read: nothing, after the last slot of a report.
    #[must_use]
    pub const fn rest(&self) -> &'a [u8] {
        self.rest
    }
}

impl Iterator for Slots<'_> {
    type Item = (u8, Credentials);

    fn next(&mut self) -> Option<(u8, Credentials)> {
        let (slot, rest) = slot(self.rest).filter(|(slot, _)| *slot >= self.due)?;
        let (sheet, rest) = sheet(rest)?;
        let SheetReading::Sheet(credentials) = read_sheet(sheet) else { return None };
        self.rest = rest;
        self.due = slot + 1;
        Some((slot, credentials))
    }
}

/// The slot of the line that `text` begins with, and what stands after the line.
fn slot(text: &[u8]) -> Option<(u8, &[u8])> {
    let (slot, rest) = match text.strip_prefix(b"slot=")? {
        [ones @ b'0'..=b'9', b'\n', rest @ ..] => (ones - b'0', rest),
        [tens @ b'1'..=b'9', ones @ b'0'..=b'9', b'\n', rest @ ..] => ((tens - b'0') * 10 + (ones - b'0'), rest),
        _ => return None,
    };
    (usize::from(slot) < SLOTS).then_some((slot, rest))
}

/// The first fifteen lines of `text`, and what stands after them.
fn sheet(text: &[u8]) -> Option<(&[u8], &[u8])> {
    let mut newlines = text.iter().enumerate().filter(|(_, byte)| **byte == b'\n');
    let (last, _) = newlines.nth(SHEET_VALUES - 1)?;
    Some(text.split_at(last + 1))
}

#[cfg(test)]
mod tests {
    extern crate std;

    use super::slots;
    use crate::LONGEST_SLOT_REPORT;
    use std::format;
    use std::string::String;
    use std::vec::Vec;

    const RESULTS: &str = "code=0\nvalue=0000000000000007\ncause=0\ncode=3\nvalue=0000000000000000\ncause=0\n";

    /// The longest sheet, but for its real user ID.
    fn sheet(ruid: u32) -> String {
        let (id, full) = (u32::MAX - 1, "000001ffffffffff");
        format!(
            "ruid={ruid}\neuid={id}\nsuid={id}\nfsuid={id}\nrgid={id}\negid={id}\nsgid={id}\nfsgid={id}\npermitted={full}\n\
             inheritable={full}\neffective={full}\nbounding={full}\nambient={full}\nsecurebits=ff\nnnp=1\n"
        )
    }

    fn in_slot(slot: &str, ruid: u32) -> String {
        format!("slot={slot}\n{}", sheet(ruid))
    }

    fn numbers(report: &str) -> Vec<(u8, u64)> {
        slots(report.as_bytes()).map(|(slot, credentials)| (slot, credentials.ruid)).collect()
    }

    #[test]
    fn slots_come_in_their_order_behind_the_results() {
        let end = [in_slot("0", 10), in_slot("7", 0), in_slot("95", 9)].concat();
        assert_eq!(numbers(&end), [(0, 10), (7, 0), (95, 9)]);
        let report = [RESULTS, &end].concat();
        assert_eq!(numbers(&report), [(0, 10), (7, 0), (95, 9)]);
        let mut found = slots(report.as_bytes());
        assert_eq!(found.by_ref().count(), 3);
        assert_eq!(found.rest(), b"");
    }

    #[test]
    fn a_report_can_end_after_the_results() {
        for report in ["", RESULTS] {
            let mut found = slots(report.as_bytes());
            assert_eq!((found.next(), found.rest()), (None, &b""[..]));
        }
    }

    // 95 forks and 161 steps that are refused with 22.
    #[test]
    fn all_96() {
        let forks: String = (1..96).map(|slot| format!("code=0\nvalue={slot:016x}\ncause=0\n")).collect();
        let refused = "code=22\nvalue=0000000000000000\ncause=0\n".repeat(161);
        let end: String = (0..96_u8).map(|slot| in_slot(&format!("{slot}"), u32::MAX - 1)).collect();
        let report = [forks, refused, end].concat();
        assert_eq!(report.len(), LONGEST_SLOT_REPORT);
        assert!(slots(report.as_bytes()).map(|(slot, _)| slot).eq(0..96));
    }

    #[test]
    fn a_report_cut_short_has_the_slots_before_the_cut() {
        let report = [RESULTS, &in_slot("0", 10), &in_slot("95", 9)].concat();
        let ends = [76, 76 + 7 + 276, 76 + 7 + 276 + 8 + 275];
        assert_eq!(report.len(), ends[2]);
        for length in 76..=report.len() {
            let whole = ends.into_iter().filter(|end| *end <= length).count() - 1;
            let mut found = slots(&report.as_bytes()[..length]);
            assert_eq!(found.by_ref().count(), whole, "{length}");
            assert_eq!(found.rest(), &report.as_bytes()[ends[whole]..length], "{length}");
        }
    }

    #[test]
    fn other_lines_are_no_slots() {
        for line in [
            "slot=96",
            "slot=99",
            "slot=100",
            "slot=00",
            "slot=07",
            "slot=",
            "slot= 7",
            "slot=7 ",
            "slot=+7",
            "slot=7a",
            "slot=7\r",
            "slot 7",
            "Slot=7",
            " slot=7",
            "slots=7",
            "call=7",
            "slot=256",
            "slot=263",
            "slot=\u{667}",
        ] {
            let text = format!("{RESULTS}{line}\n{}", sheet(7));
            let mut found = slots(text.as_bytes());
            assert_eq!(found.next(), None, "{line:?}");
            assert_eq!(found.rest(), &text.as_bytes()[RESULTS.len()..], "{line:?}");
        }
        // A plan's report has no slot, and a slot has no result in it.
        assert_eq!(numbers(&[RESULTS, &sheet(7)].concat()), []);
        assert_eq!(numbers(&["slot=7\n", RESULTS, &sheet(7)].concat()), []);
    }

    #[test]
    fn what_is_no_sheet_of_valid_credentials_is_none_of_a_slot() {
        let good = in_slot("7", 7);
        for (part, other) in [
            ("ruid=7", "ruid=4294967295"),
            ("ruid=7", "ruid=07"),
            ("ambient=000001ffffffffff", "ambient=000003ffffffffff"),
            ("nnp=1", "nnp=2"),
            ("nnp=1\n", "nnp=1"),
            ("nnp=1\n", ""),
            ("ruid=7\n", "\nruid=7\n"),
        ] {
            let broken = good.replace(part, other);
            assert_eq!(numbers(&[in_slot("3", 3), broken, in_slot("9", 9)].concat()), [(3, 3)], "{other:?}");
        }
    }

    #[test]
    fn slots_out_of_order_or_repeated_end_them() {
        for (order, count) in [(["3", "3"], 1), (["3", "2"], 1), (["95", "0"], 1), (["0", "1"], 2), (["9", "10"], 2)] {
            let report: String = order.iter().map(|slot| in_slot(slot, 7)).collect();
            assert_eq!(numbers(&report).len(), count, "{order:?}");
        }
    }
}
