//! Where a text in names stops being the beginning of a well-formed one: what stands before, and what comes.

/// What stands before a byte of a text.
#[derive(Clone, Copy, Debug, PartialEq, Eq)]
pub enum After {
    Start,
    Blank,
    PartOfName,
    Name,
    PartOfAll,
    All,
    Comma,
    Equals,
    Plus,
    Minus,
    Flag,
}

/// What kind of byte comes, or that the text ends.
#[derive(Clone, Copy, Debug, PartialEq, Eq)]
pub enum Next {
    End,
    Space,
    Tab,
    Newline,
    Comma,
    Equals,
    Plus,
    Minus,
    Flag,
    UpperFlag,
    OtherLetter,
    Underscore,
    Digit,
    CarriageReturn,
    VerticalTab,
    FormFeed,
    Nul,
    Control,
    Punctuation,
    High,
}

/// The place where a text is malformed.
#[derive(Clone, Copy, Debug, PartialEq, Eq)]
pub struct Stop {
    /// The length of its longest beginning that well-formed text can have.
    pub place: usize,
    /// What that ends with.
    pub after: After,
    /// What comes then.
    pub next: Next,
    /// The words that the last word can be, by their numbers.
    pub could_be: u64,
    /// How many letters of it there are.
    pub length: usize,
    /// How many clauses have begun: a clause begins with its first whole word, or with its operator.
    pub clauses: usize,
}

impl After {
    /// All of them.
    pub const ALL: [After; 11] = [
        After::Start,
        After::Blank,
        After::PartOfName,
        After::Name,
        After::PartOfAll,
        After::All,
        After::Comma,
        After::Equals,
        After::Plus,
        After::Minus,
        After::Flag,
    ];

    /// Whether a text can end there.
    pub fn can_end(self) -> bool {
        matches!(self, After::Start | After::Blank | After::Equals | After::Flag)
    }

    /// In a few words.
    pub fn described(self) -> &'static str {
        match self {
            After::Start => "at the start",
            After::Blank => "after a blank",
            After::PartOfName => "within a name",
            After::Name => "after a name",
            After::PartOfAll => "within `all`",
            After::All => "after `all`",
            After::Comma => "after a comma",
            After::Equals => "after `=`",
            After::Plus => "after `+`",
            After::Minus => "after `-`",
            After::Flag => "after a flag",
        }
    }

    /// Whether some well-formed text has such a byte, or its end, there.
    pub fn can_have(self, next: Next) -> bool {
        use Next::*;
        match self {
            // a and c are letters that a word begins with.
            After::Start | After::Blank => {
                matches!(next, End | Space | Tab | Newline | Next::Equals | OtherLetter)
            }
            After::PartOfName => matches!(next, Next::Flag | UpperFlag | OtherLetter | Underscore),
            After::PartOfAll | After::Comma => next == OtherLetter,
            After::Name => matches!(next, Next::Comma | Next::Equals | Next::Plus | Next::Minus),
            After::All => matches!(next, Next::Equals | Next::Plus | Next::Minus),
            After::Plus | After::Minus => next == Next::Flag,
            After::Equals | After::Flag => {
                matches!(next, End | Space | Tab | Newline | Next::Equals | Next::Plus | Next::Minus | Next::Flag)
            }
        }
    }

    /// Whether some text is malformed by such a byte, or its end, there. Letters and underscores may go on with a word or not.
    pub fn can_stop_at(self, next: Next) -> bool {
        let begins_or_is_in_a_word = match self {
            After::Start | After::Blank | After::Comma | After::PartOfAll => next == Next::OtherLetter,
            After::PartOfName => true,
            _ => false,
        };
        begins_or_is_in_a_word || !self.can_have(next)
    }
}

impl Next {
    /// All of them.
    pub const ALL: [Next; 20] = [
        Next::End,
        Next::Space,
        Next::Tab,
        Next::Newline,
        Next::Comma,
        Next::Equals,
        Next::Plus,
        Next::Minus,
        Next::Flag,
        Next::UpperFlag,
        Next::OtherLetter,
        Next::Underscore,
        Next::Digit,
        Next::CarriageReturn,
        Next::VerticalTab,
        Next::FormFeed,
        Next::Nul,
        Next::Control,
        Next::Punctuation,
        Next::High,
    ];

    /// The kind of a byte.
    pub fn of(byte: u8) -> Next {
        match byte {
            b' ' => Next::Space,
            b'\t' => Next::Tab,
            b'\n' => Next::Newline,
            b',' => Next::Comma,
            b'=' => Next::Equals,
            b'+' => Next::Plus,
            b'-' => Next::Minus,
            b'e' | b'i' | b'p' => Next::Flag,
            b'E' | b'I' | b'P' => Next::UpperFlag,
            b'a'..=b'z' | b'A'..=b'Z' => Next::OtherLetter,
            b'_' => Next::Underscore,
            b'0'..=b'9' => Next::Digit,
            b'\r' => Next::CarriageReturn,
            0x0b => Next::VerticalTab,
            0x0c => Next::FormFeed,
            0 => Next::Nul,
            1..=31 | 127 => Next::Control,
            128.. => Next::High,
            _ => Next::Punctuation,
        }
    }

    /// In a few words.
    pub fn described(self) -> &'static str {
        match self {
            Next::End => "the end of the text",
            Next::Space => "a space",
            Next::Tab => "a tab",
            Next::Newline => "a newline",
            Next::Comma => "a comma",
            Next::Equals => "`=`",
            Next::Plus => "`+`",
            Next::Minus => "`-`",
            Next::Flag => "e, i or p",
            Next::UpperFlag => "E, I or P",
            Next::OtherLetter => "another letter",
            Next::Underscore => "an underscore",
            Next::Digit => "a digit",
            Next::CarriageReturn => "a carriage return",
            Next::VerticalTab => "a vertical tab",
            Next::FormFeed => "a form feed",
            Next::Nul => "a zero byte",
            Next::Control => "another control character",
            Next::Punctuation => "another sign",
            Next::High => "a byte above 127",
        }
    }
}

#[cfg(test)]
mod tests {
    use super::*;

    #[test]
    fn each_stands_in_its_place() {
        assert!(After::ALL.iter().enumerate().all(|(place, after)| *after as usize == place));
        assert!(Next::ALL.iter().enumerate().all(|(place, next)| *next as usize == place));
    }

    #[test]
    fn everything_can_stand_or_stop_and_few_do_both() {
        for after in After::ALL {
            assert_eq!(after.can_end(), after.can_have(Next::End));
            for next in Next::ALL {
                assert!(after.can_have(next) || after.can_stop_at(next));
                let is_both = after.can_have(next) && after.can_stop_at(next);
                let is_in_words = matches!(next, Next::Flag | Next::UpperFlag | Next::OtherLetter | Next::Underscore);
                assert!(!is_both || is_in_words, "{after:?} {next:?}");
            }
        }
    }
}
