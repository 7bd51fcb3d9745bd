//! Lines of a status text that are passed over: what they look like, and where they stand.

use super::WANTED;

/// Where a line stands that is passed over.
#[derive(Clone, Copy, Debug, PartialEq, Eq)]
pub enum Position {
    Before,
    Between,
    After,
}

impl Position {
    /// All of them.
    pub const ALL: [Position; 3] = [Position::Before, Position::Between, Position::After];

    /// In a few words.
    pub fn described(self) -> &'static str {
        match self {
            Position::Before => "before the seven",
            Position::Between => "between two of the seven",
            Position::After => "after the seven",
        }
    }
}

/// What a line looks like that is passed over. Those up to `ByteBefore` are near misses of one of the seven names.
#[derive(Clone, Copy, Debug, PartialEq, Eq)]
pub enum Kind {
    NameAlone,
    NoColon,
    BlankBeforeColon,
    Longer,
    LetterLost,
    OtherCase,
    SpaceBefore,
    TabBefore,
    ByteBefore,
    AfterCarriageReturn,
    AfterZeroByte,
    AfterFormFeed,
    AfterLineSeparator,
    BehindAnotherName,
    Empty,
    NoName,
    Blanks,
    OneByte,
    CarriageReturnBehind,
    CarriageReturnAlone,
    ZeroByte,
    HighByte,
    Proc,
    Gid,
    SignalSet,
    LongerThan255,
    LongerThan4095,
    LongerThan65535,
}

impl Kind {
    /// All of them.
    pub const ALL: [Kind; 28] = [
        Kind::NameAlone,
        Kind::NoColon,
        Kind::BlankBeforeColon,
        Kind::Longer,
        Kind::LetterLost,
        Kind::OtherCase,
        Kind::SpaceBefore,
        Kind::TabBefore,
        Kind::ByteBefore,
        Kind::AfterCarriageReturn,
        Kind::AfterZeroByte,
        Kind::AfterFormFeed,
        Kind::AfterLineSeparator,
        Kind::BehindAnotherName,
        Kind::Empty,
        Kind::NoName,
        Kind::Blanks,
        Kind::OneByte,
        Kind::CarriageReturnBehind,
        Kind::CarriageReturnAlone,
        Kind::ZeroByte,
        Kind::HighByte,
        Kind::Proc,
        Kind::Gid,
        Kind::SignalSet,
        Kind::LongerThan255,
        Kind::LongerThan4095,
        Kind::LongerThan65535,
    ];

    /// Whether it is about one of the seven names.
    pub fn is_near_miss(self) -> bool {
        self as usize <= Kind::BehindAnotherName as usize
    }

    /// In a few words.
    pub fn described(self) -> &'static str {
        match self {
            Kind::NameAlone => "a name alone",
            Kind::NoColon => "a name without a colon",
            Kind::BlankBeforeColon => "a blank before the colon",
            Kind::Longer => "a letter behind the name",
            Kind::LetterLost => "the name without its last letter",
            Kind::OtherCase => "a name in another case",
            Kind::SpaceBefore => "a space before the name",
            Kind::TabBefore => "a tab before the name",
            Kind::ByteBefore => "another byte before the name",
            Kind::AfterCarriageReturn => "a wanted line after a carriage return",
            Kind::AfterZeroByte => "a wanted line after a zero byte",
            Kind::AfterFormFeed => "a wanted line after a form feed or vertical tab",
            Kind::AfterLineSeparator => "a wanted line after a line separator of Unicode",
            Kind::BehindAnotherName => "a wanted line behind another name",
            Kind::Empty => "an empty line",
            Kind::NoName => "a colon first",
            Kind::Blanks => "blanks alone",
            Kind::OneByte => "one byte",
            Kind::CarriageReturnBehind => "a carriage return at the end",
            Kind::CarriageReturnAlone => "carriage returns alone",
            Kind::ZeroByte => "a zero byte",
            Kind::HighByte => "a byte 255",
            Kind::Proc => "a line of proc(5)",
            Kind::Gid => "Gid",
            Kind::SignalSet => "a signal set",
            Kind::LongerThan255 => "more than 255 bytes",
            Kind::LongerThan4095 => "more than 4,095 bytes",
            Kind::LongerThan65535 => "more than 65,535 bytes",
        }
    }
}

/// The kinds that a text has, for each position, and for each of the seven names the near misses of it.
#[derive(Default)]
pub struct Seen {
    at: [u32; 3],
    of: [u32; 7],
    // How many lines stand before the first wanted one, and behind each.
    gaps: [usize; 8],
}

impl Seen {
    /// The kinds of the lines that are not among the wanted ones, which are given by their places.
    pub fn of(lines: &[&[u8]], wanted: &[(usize, usize)]) -> Seen {
        let mut seen = Seen::default();
        let mut wanted = wanted.iter().map(|(at, _)| *at).peekable();
        let mut before = 0;
        let mut before_it = None;
        for (at, line) in lines.iter().enumerate() {
            if wanted.next_if_eq(&at).is_some() {
                before += 1;
                continue;
            }
            let position = match before {
                0 => Position::Before,
                7.. => Position::After,
                _ => Position::Between,
            };
            if let Some(gap) = seen.gaps.get_mut(before) {
                *gap += 1;
            }
            // The same line again, as in texts of very many lines, has no other kinds.
            if before_it != Some((line, position)) {
                seen.add(line, position);
            }
            before_it = Some((line, position));
        }
        seen
    }

    // Adds the kinds of one line.
    fn add(&mut self, line: &[u8], position: Position) {
        let mut kinds = kinds(line);
        for (name, of) in self.of.iter_mut().enumerate() {
            let near = near_misses(line, WANTED[name].as_bytes());
            *of |= near;
            kinds |= near;
        }
        self.at[position as usize] |= kinds;
    }

    /// Whether a line of that kind stands there.
    pub fn has_at(&self, kind: Kind, position: Position) -> bool {
        self.at[position as usize] >> kind as u32 & 1 == 1
    }

    /// Whether a line of that kind stands anywhere.
    pub fn has(&self, kind: Kind) -> bool {
        Position::ALL.iter().any(|position| self.has_at(kind, *position))
    }

    /// Whether one is a near miss of that kind of that name.
    pub fn has_near(&self, kind: Kind, name: usize) -> bool {
        self.of[name] >> kind as u32 & 1 == 1
    }

    /// How many lines stand behind so many wanted ones, before the next.
    pub fn behind(&self, wanted: usize) -> usize {
        self.gaps[wanted]
    }

    /// How many lines there are.
    pub fn count(&self) -> usize {
        self.gaps.iter().sum()
    }
}

// The kinds of a line, but for near misses.
fn kinds(line: &[u8]) -> u32 {
    let is_signal_set = |name: &&str| line.starts_with(name.as_bytes());
    let of = [
        (Kind::Empty, line.is_empty()),
        (Kind::NoName, line.starts_with(b":\t")),
        (Kind::Blanks, !line.is_empty() && line.iter().all(|byte| b" \t".contains(byte))),
        (Kind::OneByte, line.len() == 1),
        (Kind::CarriageReturnBehind, line.len() > 1 && line.ends_with(b"\r")),
        (Kind::CarriageReturnAlone, !line.is_empty() && line.iter().all(|byte| *byte == b'\r')),
        (Kind::ZeroByte, line.contains(&0)),
        (Kind::HighByte, line.contains(&0xff)),
        (Kind::Proc, line.starts_with(b"Vm") || line.starts_with(b"Seccomp:\t")),
        (Kind::Gid, line.starts_with(b"Gid:\t")),
        (Kind::SignalSet, ["SigPnd:\t", "ShdPnd:\t", "SigBlk:\t", "SigIgn:\t", "SigCgt:\t"].iter().any(is_signal_set)),
        (Kind::LongerThan255, line.len() > 255),
        (Kind::LongerThan4095, line.len() > 4095),
        (Kind::LongerThan65535, line.len() > 65_535),
    ];
    of.into_iter().filter(|(_, is_so)| *is_so).fold(0, |kinds, (kind, _)| kinds | 1 << kind as u32)
}

// The near misses of a name that a line is.
fn near_misses(line: &[u8], name: &[u8]) -> u32 {
    let mut kinds = 0;
    if let Some(rest) = line.strip_prefix(name) {
        kinds |= match rest {
            [] => 1 << Kind::NameAlone as u32,
            [b'\t', rest @ ..] if !rest.starts_with(b":") => 1 << Kind::NoColon as u32,
            [b' ' | b'\t', ..] if rest.trim_ascii_start().starts_with(b":") => 1 << Kind::BlankBeforeColon as u32,
            [letter, b':', ..] if letter.is_ascii_alphabetic() => 1 << Kind::Longer as u32,
            _ => 0,
        };
    }
    let (front, end) = line.split_at(line.len().min(name.len()));
    if front.eq_ignore_ascii_case(name) && front != name && end.starts_with(b":") {
        kinds |= 1 << Kind::OtherCase as u32;
    }
    if line.strip_prefix(&name[..name.len() - 1]).is_some_and(|rest| rest.starts_with(b":")) {
        kinds |= 1 << Kind::LetterLost as u32;
    }
    if let Some(at) = position_within(line, name) {
        kinds |= 1
            << match &line[..at] {
                [b' '] => Kind::SpaceBefore,
                [b'\t'] => Kind::TabBefore,
                [.., b'\r'] => Kind::AfterCarriageReturn,
                [.., 0] => Kind::AfterZeroByte,
                [.., 0x0b | 0x0c] => Kind::AfterFormFeed,
                [.., 0xc2, 0x85] | [.., 0xe2, 0x80, 0xa8] => Kind::AfterLineSeparator,
                [.., b'\t'] => Kind::BehindAnotherName,
                _ => Kind::ByteBefore,
            } as u32;
    }
    kinds
}

// Where a name and a colon stand within a line, but not at its front.
fn position_within(line: &[u8], name: &[u8]) -> Option<usize> {
    let most = line.len().saturating_sub(name.len());
    (1..most).find(|at| line[at + name.len()] == b':' && line[*at..].starts_with(name))
}

#[cfg(test)]
mod tests {
    use super::*;

    #[test]
    fn near_misses_are_told_apart() {
        for (line, kind) in [
            ("CapInh", Kind::NameAlone),
            ("CapInh\t0", Kind::NoColon),
            ("CapInh :\t0", Kind::BlankBeforeColon),
            ("CapInhX:\t0", Kind::Longer),
            ("CapIn:\t0", Kind::LetterLost),
            ("capinh:\t0", Kind::OtherCase),
            (" CapInh:\t0", Kind::SpaceBefore),
            ("\tCapInh:\t0", Kind::TabBefore),
            ("xCapInh:\t0", Kind::ByteBefore),
            ("Name:\tx\rCapInh:\t0", Kind::AfterCarriageReturn),
            ("Name:\tCapInh:\t0", Kind::BehindAnotherName),
        ] {
            let seen = Seen::of(&[line.as_bytes()], &[]);
            let kinds: Vec<Kind> = Kind::ALL.into_iter().filter(|kind| seen.has_near(*kind, 1)).collect();
            assert_eq!(kinds, [kind], "{line:?}");
            assert!((0..7).filter(|name| *name != 1).all(|name| seen.of[name] == 0), "{line:?}");
        }
    }

    #[test]
    fn lines_are_told_by_where_they_stand() {
        let lines: Vec<&[u8]> = vec![b"x", b"Uid:", b"", b"\r"];
        let seen = Seen::of(&lines, &[(1, 0)]);
        assert!(seen.has_at(Kind::OneByte, Position::Before) && seen.has_at(Kind::Empty, Position::Between));
        assert!(!seen.has_at(Kind::OneByte, Position::After) && seen.has(Kind::CarriageReturnAlone));
        assert_eq!((seen.behind(0), seen.behind(1), seen.count()), (1, 2, 3));
    }
}
