//! The kinds of fault.

/// What is wrong with a text.
#[derive(Clone, Copy, Debug, PartialEq, Eq)]
pub enum Fault {
    /// A byte that is no digit in a value.
    NotADigit,
    /// An upper-case hex digit.
    UpperCase,
    /// A decimal number with zeros before it.
    LeadingZero,
    /// A number with a sign before it.
    Sign,
    /// A number that is too large, such as one that is right in its low 32 or 64 bits.
    TooLarge,
    /// No value at all where one has to be.
    NoDigits,
    /// A hex value that lacks a digit.
    DigitLost,
    /// A hex value with a digit more.
    DigitAdded,
    /// An attribute of more than 48 digits.
    LongAttribute,
    /// A blank or a tab before or after a value.
    Blank,
    /// Another key, or none.
    WrongKey,
    /// The key of a group ID where a user ID's has to be, or the other way round.
    OtherFamily,
    /// A carriage return before the newline.
    CarriageReturn,
    /// A zero byte in a line.
    Nul,
    /// A byte above 127 in a line.
    NotAscii,
    /// A line with nothing in it.
    BlankLine,
    /// A line left out.
    LineLost,
    /// A line written twice.
    LineDoubled,
    /// A line exchanged with the next.
    LinesExchanged,
    /// A sheet without the lines of its group IDs.
    GroupsLost,
    /// A sheet whose group IDs stand elsewhere: before the user IDs, among them, after the sets or at the end.
    GroupsMoved,
    /// The text ends within a line.
    CutInLine,
    /// The text ends between two lines of the sheet or of a step.
    CutBetweenLines,
    /// The last line has no newline.
    LastNewlineLost,
    /// Text after the last line.
    Appended,
    /// More than 256 steps.
    TooManySteps,
    /// One byte is another.
    ByteChanged,
    /// One byte more.
    ByteInserted,
    /// One byte less.
    ByteDeleted,
    /// Several bytes are others.
    BytesChanged,
    /// Bytes of every kind, from none to megabytes.
    Noise,
    /// The same after a sheet.
    SheetThenNoise,
}

impl Fault {
    /// All of them.
    pub const ALL: [Fault; 32] = [
        Fault::NotADigit,
        Fault::UpperCase,
        Fault::LeadingZero,
        Fault::Sign,
        Fault::TooLarge,
        Fault::NoDigits,
        Fault::DigitLost,
        Fault::DigitAdded,
        Fault::LongAttribute,
        Fault::Blank,
        Fault::WrongKey,
        Fault::OtherFamily,
        Fault::CarriageReturn,
        Fault::Nul,
        Fault::NotAscii,
        Fault::BlankLine,
        Fault::LineLost,
        Fault::LineDoubled,
        Fault::LinesExchanged,
        Fault::GroupsLost,
        Fault::GroupsMoved,
        Fault::CutInLine,
        Fault::CutBetweenLines,
        Fault::LastNewlineLost,
        Fault::Appended,
        Fault::TooManySteps,
        Fault::ByteChanged,
        Fault::ByteInserted,
        Fault::ByteDeleted,
        Fault::BytesChanged,
        Fault::Noise,
        Fault::SheetThenNoise,
    ];

    /// Whether a sheet by itself can have the fault: it has no attribute and no steps.
    pub fn is_in_sheets(self) -> bool {
        !matches!(self, Fault::LongAttribute | Fault::TooManySteps)
    }
}
