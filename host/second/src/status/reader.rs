//! Reads a captured /proc/PID/status: seven wanted lines in their order, among any others.

use super::found::Found;
use crate::reader::{flag, id, word};
use crate::refusal::Refusal;

const UID: &str = "Uid:";
const CAP_INH: &str = "CapInh:";
const CAP_PRM: &str = "CapPrm:";
const CAP_EFF: &str = "CapEff:";
const CAP_BND: &str = "CapBnd:";
const CAP_AMB: &str = "CapAmb:";
const NO_NEW_PRIVS: &str = "NoNewPrivs:";

/// What the wanted lines begin with, in the order in which they are due.
const WANTED: [&str; 7] = [UID, CAP_INH, CAP_PRM, CAP_EFF, CAP_BND, CAP_AMB, NO_NEW_PRIVS];

/// Reads a whole status; no wanted line may come again after the seven.
pub(super) fn read(status: &[u8]) -> Result<Found, Refusal> {
    let mut reader = Reader { rest: status, lines: 0 };
    let [ruid, euid, suid, fsuid] = reader.due(UID, four_ids)?;
    let inheritable = reader.due(CAP_INH, set)?;
    let permitted = reader.due(CAP_PRM, set)?;
    let effective = reader.due(CAP_EFF, set)?;
    let bounding = reader.due(CAP_BND, set)?;
    let ambient = reader.due(CAP_AMB, set)?;
    let nnp = reader.due(NO_NEW_PRIVS, no_new_privs)?;
    reader.none_due()?;
    Ok(Found { ruid, euid, suid, fsuid, permitted, inheritable, effective, bounding, ambient, nnp })
}

/// The text still to be read, and how many of its lines are read.
struct Reader<'t> {
    rest: &'t [u8],
    lines: usize,
}

impl<'t> Reader<'t> {
    /// Reads the next wanted line, which must have this name and values that `read` takes. "One still due at the end" is
    /// a fault at "the line after the last".
    fn due<T>(&mut self, name: &str, read: impl Fn(&[u8]) -> Option<T>) -> Result<T, Refusal> {
        let Some(line) = self.next_wanted() else { return Err(fault(self.lines + 1)) };
        line.strip_prefix(name.as_bytes()).and_then(read).ok_or(fault(self.lines))
    }

    /// Reads to the end of the text, where no wanted line may come any more.
    fn none_due(&mut self) -> Result<(), Refusal> {
        match self.next_wanted() {
            Some(_) => Err(fault(self.lines)),
            None => Ok(()),
        }
    }

    /// The next wanted line; "all other lines are passed over, whatever bytes they hold".
    fn next_wanted(&mut self) -> Option<&'t [u8]> {
        loop {
            let line = self.next_line()?;
            if is_wanted(line) {
                return Some(line);
            }
        }
    }

    /// The next line without its newline, which may be missing at the end; "no line begins after the last newline".
    fn next_line(&mut self) -> Option<&'t [u8]> {
        if self.rest.is_empty() {
            return None;
        }
        self.lines += 1;
        let end = self.rest.iter().position(|&byte| byte == b'\n').unwrap_or(self.rest.len());
        let line = &self.rest[..end];
        self.rest = self.rest.get(end + 1..).unwrap_or(&[]);
        Some(line)
    }
}

fn fault(line: usize) -> Refusal {
    Refusal::MalformedStatus { line }
}

/// Whether the line begins with one of the wanted names and a colon. Most lines differ from all of them in their first
/// byte, so that is looked at first.
fn is_wanted(line: &[u8]) -> bool {
    matches!(line.first(), Some(b'U' | b'C' | b'N')) && WANTED.iter().any(|name| line.starts_with(name.as_bytes()))
}

/// The real, effective, saved and filesystem user IDs, each after one tab.
fn four_ids(values: &[u8]) -> Option<[u32; 4]> {
    let mut values = after_tab(values)?.split(|&byte| byte == b'\t');
    let ids = [id(values.next()?)?, id(values.next()?)?, id(values.next()?)?, id(values.next()?)?];
    match values.next() {
        Some(_) => None,
        None => Some(ids),
    }
}

/// A capability set after one tab.
fn set(values: &[u8]) -> Option<u64> {
    word(after_tab(values)?)
}

/// The no-new-privs flag after one tab.
fn no_new_privs(values: &[u8]) -> Option<bool> {
    flag(after_tab(values)?)
}

fn after_tab(values: &[u8]) -> Option<&[u8]> {
    values.strip_prefix(b"\t")
}

#[cfg(test)]
mod tests {
    use super::*;

    fn lines(text: &[u8]) -> Vec<&[u8]> {
        let mut reader = Reader { rest: text, lines: 0 };
        let mut lines = Vec::new();
        while let Some(line) = reader.next_line() {
            lines.push(line);
            assert_eq!(reader.lines, lines.len());
        }
        assert_eq!(reader.lines, lines.len());
        lines
    }

    #[test]
    fn lines_are_parted_at_newlines_and_none_begins_after_the_last() {
        assert!(lines(b"").is_empty());
        assert_eq!(lines(b"\n"), [b""]);
        assert_eq!(lines(b"x"), [b"x"]);
        assert_eq!(lines(b"x\n"), [b"x"]);
        assert_eq!(lines(b"\nx"), [&b""[..], b"x"]);
        assert_eq!(lines(b"x\n\n"), [&b"x"[..], b""]);
        assert_eq!(lines(b"x\r\0\ny"), [&b"x\r\0"[..], b"y"]);
    }

    #[test]
    fn wanted_lines_begin_with_a_name_and_a_colon() {
        for name in WANTED {
            assert!(is_wanted(name.as_bytes()), "{name}");
            assert!(is_wanted(format!("{name}\0x").as_bytes()), "{name}");
            assert!(!is_wanted(name.trim_end_matches(':').as_bytes()), "{name}");
            assert!(!is_wanted(format!(" {name}").as_bytes()), "{name}");
            assert!(!is_wanted(name.to_lowercase().as_bytes()), "{name}");
            assert!(!is_wanted(name.to_uppercase().as_bytes()), "{name}");
        }
        assert!(!is_wanted(b""));
    }

    #[test]
    fn ids_are_four_after_one_tab_each() {
        assert_eq!(four_ids(b"\t0\t1000\t7\t4294967295"), Some([0, 1000, 7, u32::MAX]));
        for wrong in ["", "\t", "\t1\t2\t3", "1\t2\t3\t4", "\t1\t2\t3\t4\t", "\t1\t2\t3\t4\t5", "\t1\t\t2\t3\t4"] {
            assert_eq!(four_ids(wrong.as_bytes()), None, "{wrong:?}");
        }
    }

    #[test]
    fn sets_and_flags_are_one_value_after_one_tab() {
        assert_eq!(set(b"\tffffffffffffffff"), Some(u64::MAX));
        assert_eq!(no_new_privs(b"\t1"), Some(true));
        for wrong in ["", "\t", "1", " 1", "\t\t1", "\t1\t", "\t1\t1", "\t1 "] {
            assert_eq!(set(wrong.replace('1', "0123456789abcdef").as_bytes()), None, "{wrong:?}");
            assert_eq!(no_new_privs(wrong.as_bytes()), None, "{wrong:?}");
        }
    }
}
