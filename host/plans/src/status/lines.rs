//! The lines of a status text, what is known of each, and where its first fault is.

/// The names of the seven wanted lines, in the order in which they are due.
pub const WANTED: [&str; 7] = ["Uid", "CapInh", "CapPrm", "CapEff", "CapBnd", "CapAmb", "NoNewPrivs"];

/// How many values they have.
pub const FOUND: usize = 10;

/// Their values, in the order of a sheet: ruid, euid, suid, fsuid, permitted, inheritable, effective, bounding, ambient, nnp.
pub type Found = [u64; FOUND];

/// A line, without its newline.
#[derive(Clone)]
pub(super) struct Line {
    pub(super) bytes: Vec<u8>,
    pub(super) role: Role,
}

/// What a line is to the reader.
#[derive(Clone, Copy, PartialEq, Eq)]
pub(super) enum Role {
    /// It begins with none of the names and a colon.
    PassedOver,
    /// It begins with that name, by its place, and a colon.
    Wanted { number: usize, is_right: bool },
}

/// A status text by its lines. An empty last line without a newline is none.
#[derive(Clone)]
pub(super) struct Lines {
    pub(super) lines: Vec<Line>,
    pub(super) has_last_newline: bool,
}

impl Line {
    pub(super) fn passed_over(bytes: Vec<u8>) -> Line {
        Line { bytes, role: Role::PassedOver }
    }

    /// A wanted line that is malformed.
    pub(super) fn wrong(number: usize, bytes: Vec<u8>) -> Line {
        Line { bytes, role: Role::Wanted { number, is_right: false } }
    }

    /// One of the seven lines of those values.
    pub(super) fn right(number: usize, found: &Found) -> Line {
        let [ruid, euid, suid, fsuid, permitted, inheritable, effective, bounding, ambient, nnp] = found;
        let values = match number {
            0 => format!("{ruid}\t{euid}\t{suid}\t{fsuid}"),
            1 => format!("{inheritable:016x}"),
            2 => format!("{permitted:016x}"),
            3 => format!("{effective:016x}"),
            4 => format!("{bounding:016x}"),
            5 => format!("{ambient:016x}"),
            _ => format!("{nnp}"),
        };
        let bytes = format!("{}:\t{values}", WANTED[number]).into_bytes();
        Line { bytes, role: Role::Wanted { number, is_right: true } }
    }

    pub(super) fn is_wanted(&self) -> bool {
        self.role != Role::PassedOver
    }
}

impl Lines {
    /// The seven lines of those values alone.
    pub(super) fn of(found: &Found) -> Lines {
        let lines = (0..WANTED.len()).map(|number| Line::right(number, found)).collect();
        Lines { lines, has_last_newline: true }
    }

    pub(super) fn text(&self) -> Vec<u8> {
        let mut text = Vec::new();
        for line in &self.lines {
            text.extend_from_slice(&line.bytes);
            text.push(b'\n');
        }
        if !self.has_last_newline {
            text.pop();
        }
        text
    }

    /// How many lines the text has.
    pub(super) fn count(&self) -> usize {
        let is_none = !self.has_last_newline && self.lines.last().is_some_and(|line| line.bytes.is_empty());
        self.lines.len() - usize::from(is_none)
    }

    /// The place among all lines of the wanted line of that number that comes first.
    pub(super) fn place_of(&self, number: usize) -> usize {
        let is_it = |line: &Line| matches!(line.role, Role::Wanted { number: own, .. } if own == number);
        self.lines.iter().position(is_it).expect("no wanted line is lost before a fault is made")
    }

    /// The line of the first fault, if there is one: a wanted line that is malformed or not the next one due, or the line after the last.
    pub(super) fn fault(&self) -> Option<usize> {
        let mut due = 0;
        for (place, line) in self.lines.iter().enumerate() {
            match line.role {
                Role::PassedOver => {}
                Role::Wanted { number, is_right: true } if number == due => due += 1,
                Role::Wanted { .. } => return Some(place + 1),
            }
        }
        (due < WANTED.len()).then_some(self.count() + 1)
    }
}

#[cfg(test)]
mod tests {
    use super::*;

    const FOUND_VALUES: Found = [0, 1000, 1001, 4_294_967_295, 1, 2, 3, 1 << 63, 5, 1];

    #[test]
    fn the_seven_lines_byte_for_byte() {
        let expected = "Uid:\t0\t1000\t1001\t4294967295\nCapInh:\t0000000000000002\nCapPrm:\t0000000000000001\n\
            CapEff:\t0000000000000003\nCapBnd:\t8000000000000000\nCapAmb:\t0000000000000005\nNoNewPrivs:\t1\n";
        let mut lines = Lines::of(&FOUND_VALUES);
        assert_eq!(lines.text(), expected.as_bytes());
        lines.has_last_newline = false;
        assert_eq!(lines.text(), expected.trim_end().as_bytes());
        assert_eq!((lines.count(), lines.fault()), (7, None));
    }

    // "Lines are parted at newlines, and no line begins after the last newline": 1 for empty text, 2 for `x` and for `x\n`.
    #[test]
    fn a_line_still_due_is_after_the_last() {
        let of = |lines: &[&str], has_last_newline| {
            let lines = lines.iter().map(|line| Line::passed_over(line.as_bytes().to_vec())).collect();
            Lines { lines, has_last_newline }
        };
        for (lines, text, fault) in [
            (of(&[], true), "", 1),
            (of(&[], false), "", 1),
            (of(&["x"], false), "x", 2),
            (of(&["x"], true), "x\n", 2),
            (of(&["x", ""], false), "x\n", 2),
            (of(&["x", ""], true), "x\n\n", 3),
            (of(&[""], true), "\n", 2),
            (of(&[""], false), "", 1),
        ] {
            assert_eq!((lines.text(), lines.fault()), (text.as_bytes().to_vec(), Some(fault)));
        }
    }

    #[test]
    fn the_first_fault_is_that_of_a_line_not_due() {
        let mut lines = Lines::of(&FOUND_VALUES);
        lines.lines.insert(3, Line::passed_over(b"Gid:".to_vec()));
        lines.lines.push(Line::right(0, &FOUND_VALUES));
        assert_eq!(lines.fault(), Some(9));
        lines.lines[4] = Line::wrong(3, b"CapEff:".to_vec());
        assert_eq!(lines.fault(), Some(5));
        lines.lines.swap(1, 2);
        assert_eq!(lines.fault(), Some(2));
    }
}
