//! The kinds of fault of a status text.

/// What is wrong with a status text.
#[derive(Clone, Copy, Debug, PartialEq, Eq)]
pub enum StatusFault {
    /// A value of no digits, after its tab.
    NoDigits,
    /// A value lost with its tab.
    ValueLost,
    /// A space for the tab before a value, or several.
    SpaceForTab,
    /// A tab more before a value.
    TabDoubled,
    /// No tab before a value.
    TabLost,
    /// A space between the tab and its value.
    BlankBeforeValue,
    /// A byte that is no digit in a value.
    NotADigit,
    /// A sign before a value.
    Sign,
    /// A decimal number with zeros before it.
    LeadingZero,
    /// A decimal number that is too large, such as one that is right in its low bits.
    TooLarge,
    /// An upper-case hex digit.
    UpperCase,
    /// A set that lacks digits.
    DigitLost,
    /// `0x` before a set's digits or for the first two.
    HexPrefix,
    /// A set with digits more, or two digits for the flag.
    DigitAdded,
    /// A value more after the last.
    FurtherValue,
    /// A blank behind the last value.
    BlankBehind,
    /// A carriage return before the newline, in one line or in every line from it on.
    CarriageReturn,
    /// A zero byte after the colon.
    Nul,
    /// A byte above 127 after the colon.
    HighByte,
    /// A colon more.
    ColonDoubled,
    /// A newline within the line, after the colon.
    LineSplit,
    /// No newline behind the line, where another follows.
    LinesJoined,
    /// A wanted line left out.
    LineLost,
    /// A wanted line twice.
    LineDoubled,
    /// A wanted line again after all seven.
    LineBehind,
    /// A wanted line exchanged with the next.
    LinesExchanged,
    /// Another wanted line before the one due.
    OutOfTurn,
    /// A name without its colon, so that the line is passed over.
    NoColon,
    /// The same by a blank before the name.
    BlankBeforeName,
    /// The same by a letter in another case.
    OtherCase,
    /// The same by a letter more.
    NameLonger,
    /// The same by letters less.
    NameShorter,
    /// The same by a blank before the colon.
    BlankBeforeColon,
    /// The same by another byte before the name.
    ByteBeforeName,
    /// The text ends in a wanted line's name, or before its colon.
    CutInName,
    /// The text ends after a wanted line's colon, where values lack.
    CutInValues,
    /// The text ends after a wanted line, or after others behind it.
    CutAfterLine,
    /// No wanted line at all.
    NoWantedLine,
    /// One byte is another.
    ByteChanged,
    /// One byte more.
    ByteInserted,
    /// One byte less.
    ByteDeleted,
    /// Several bytes are others.
    BytesChanged,
    /// The text ends anywhere.
    CutAnywhere,
    /// A line lost, doubled or exchanged with another.
    LinesMoved,
    /// Wanted lines and others in any order.
    LinesAtRandom,
    /// Bytes of every kind, from none to some kilobytes.
    Noise,
    /// The same after a status text.
    StatusThenNoise,
}

// Places of values: the four of Uid, the five sets in the file's order, the flag. Places of lines: those of the seven.
const TEN: &[usize] = &[0, 1, 2, 3, 4, 5, 6, 7, 8, 9];
const DECIMAL: &[usize] = &[0, 1, 2, 3, 9];
const SETS: &[usize] = &[4, 5, 6, 7, 8];
const SETS_AND_FLAG: &[usize] = &[4, 5, 6, 7, 8, 9];
const SEVEN: &[usize] = &[0, 1, 2, 3, 4, 5, 6];
const SIX: &[usize] = &[0, 1, 2, 3, 4, 5];
const FIRST: &[usize] = &[0];

impl StatusFault {
    /// All of them.
    pub const ALL: [StatusFault; 47] = [
        StatusFault::NoDigits,
        StatusFault::ValueLost,
        StatusFault::SpaceForTab,
        StatusFault::TabDoubled,
        StatusFault::TabLost,
        StatusFault::BlankBeforeValue,
        StatusFault::NotADigit,
        StatusFault::Sign,
        StatusFault::LeadingZero,
        StatusFault::TooLarge,
        StatusFault::UpperCase,
        StatusFault::DigitLost,
        StatusFault::HexPrefix,
        StatusFault::DigitAdded,
        StatusFault::FurtherValue,
        StatusFault::BlankBehind,
        StatusFault::CarriageReturn,
        StatusFault::Nul,
        StatusFault::HighByte,
        StatusFault::ColonDoubled,
        StatusFault::LineSplit,
        StatusFault::LinesJoined,
        StatusFault::LineLost,
        StatusFault::LineDoubled,
        StatusFault::LineBehind,
        StatusFault::LinesExchanged,
        StatusFault::OutOfTurn,
        StatusFault::NoColon,
        StatusFault::BlankBeforeName,
        StatusFault::OtherCase,
        StatusFault::NameLonger,
        StatusFault::NameShorter,
        StatusFault::BlankBeforeColon,
        StatusFault::ByteBeforeName,
        StatusFault::CutInName,
        StatusFault::CutInValues,
        StatusFault::CutAfterLine,
        StatusFault::NoWantedLine,
        StatusFault::ByteChanged,
        StatusFault::ByteInserted,
        StatusFault::ByteDeleted,
        StatusFault::BytesChanged,
        StatusFault::CutAnywhere,
        StatusFault::LinesMoved,
        StatusFault::LinesAtRandom,
        StatusFault::Noise,
        StatusFault::StatusThenNoise,
    ];

    /// Whether it is a fault of one value, and its places are those of values: the four of Uid, the five sets in the file's order, the flag.
    pub fn is_of_a_value(self) -> bool {
        use StatusFault::*;
        matches!(
            self,
            NoDigits
                | ValueLost
                | SpaceForTab
                | TabDoubled
                | TabLost
                | BlankBeforeValue
                | NotADigit
                | Sign
                | LeadingZero
                | TooLarge
                | UpperCase
                | DigitLost
                | HexPrefix
                | DigitAdded
        )
    }

    /// Whether its line is not known when it is made, and the text may be well-formed still.
    pub fn is_blind(self) -> bool {
        self.places().is_empty()
    }

    /// Where it can be made: in which values, or in which of the seven lines.
    pub fn places(self) -> &'static [usize] {
        use StatusFault::*;
        match self {
            NoDigits | ValueLost | SpaceForTab | TabDoubled | TabLost | BlankBeforeValue | NotADigit | Sign => TEN,
            LeadingZero | TooLarge => DECIMAL,
            UpperCase | DigitLost | HexPrefix => SETS,
            DigitAdded => SETS_AND_FLAG,
            FurtherValue | BlankBehind | CarriageReturn | Nul | HighByte | ColonDoubled | LineSplit | LinesJoined
            | LineLost | LineDoubled | LineBehind | OutOfTurn | NoColon | BlankBeforeName | OtherCase | NameLonger
            | NameShorter | BlankBeforeColon | ByteBeforeName | CutInName | CutInValues => SEVEN,
            LinesExchanged | CutAfterLine => SIX,
            NoWantedLine => FIRST,
            ByteChanged | ByteInserted | ByteDeleted | BytesChanged | CutAnywhere | LinesMoved | LinesAtRandom
            | Noise | StatusThenNoise => &[],
        }
    }
}
