//! The kinds of fault of a text in names.

/// What is wrong with a text in names.
#[derive(Clone, Copy, Debug, PartialEq, Eq, Hash)]
pub enum NameFault {
    /// The text ends within a name.
    CutInName,
    /// The text ends within `all`.
    CutInAll,
    /// The text ends after a name or `all`.
    CutAfterName,
    /// The text ends after a comma.
    CutAfterComma,
    /// The text ends after `+` or `-`.
    CutAfterSign,
    /// One letter of a name is another.
    LetterChanged,
    /// A name lacks a letter.
    LetterLost,
    /// A name has a letter more.
    LetterAdded,
    /// Two names, or a name and `all`, with nothing between.
    NamesRunTogether,
    /// A word that is no name.
    UnknownName,
    /// A number for a name.
    Number,
    /// `all` at the front of a list of names.
    AllBeforeNames,
    /// `all` in a list, after a name.
    AllAmongNames,
    /// Two commas for one.
    CommaDoubled,
    /// A comma at the front of a clause.
    CommaAtFront,
    /// A comma after the last name, or after `all`.
    CommaTrailing,
    /// A comma behind flags, or behind `=` without flags.
    CommaBehindFlags,
    /// A blank within a name.
    BlankInName,
    /// A blank before a comma.
    BlankBeforeComma,
    /// A blank after a comma.
    BlankAfterComma,
    /// A blank between the names and the first operator.
    BlankBeforeOperator,
    /// A blank before a later `+` or `-`.
    BlankBeforeSign,
    /// A blank between `+` or `-` and its first flag.
    BlankAfterSign,
    /// A blank before any other flag.
    BlankBeforeFlag,
    /// A flag in upper case.
    UpperFlag,
    /// Another letter or digit for a flag.
    OtherFlag,
    /// A clause without names that begins with `+` or `-`.
    SignWithoutNames,
    /// `+` or `-` without flags, before a blank.
    NoFlagsBeforeBlank,
    /// `+` or `-` without flags, before another operator.
    NoFlagsBeforeOperator,
    /// A carriage return.
    CarriageReturn,
    /// A vertical tab.
    VerticalTab,
    /// A form feed.
    FormFeed,
    /// A zero byte.
    Nul,
    /// A byte above 127.
    HighByte,
    /// A letter or a blank that is not ASCII, in UTF-8; among them those that are letters of a name in their other case.
    OtherScript,
    /// A byte that no well-formed text has after what stands before it, anywhere.
    StrayByte,
    /// One byte is another.
    ByteChanged,
    /// One byte more.
    ByteInserted,
    /// One byte less.
    ByteDeleted,
    /// Several bytes are others.
    BytesChanged,
    /// The text ends anywhere.
    CutAnywhere,
    /// A name, a sign, a flag or the blanks lost, doubled or exchanged with another.
    PiecesMoved,
    /// Names, signs, flags and blanks in any order.
    PiecesAtRandom,
    /// Bytes of every kind, from none to many.
    Noise,
    /// The same after well-formed text.
    ClausesThenNoise,
}

impl NameFault {
    /// All of them.
    pub const ALL: [NameFault; 45] = [
        NameFault::CutInName,
        NameFault::CutInAll,
        NameFault::CutAfterName,
        NameFault::CutAfterComma,
        NameFault::CutAfterSign,
        NameFault::LetterChanged,
        NameFault::LetterLost,
        NameFault::LetterAdded,
        NameFault::NamesRunTogether,
        NameFault::UnknownName,
        NameFault::Number,
        NameFault::AllBeforeNames,
        NameFault::AllAmongNames,
        NameFault::CommaDoubled,
        NameFault::CommaAtFront,
        NameFault::CommaTrailing,
        NameFault::CommaBehindFlags,
        NameFault::BlankInName,
        NameFault::BlankBeforeComma,
        NameFault::BlankAfterComma,
        NameFault::BlankBeforeOperator,
        NameFault::BlankBeforeSign,
        NameFault::BlankAfterSign,
        NameFault::BlankBeforeFlag,
        NameFault::UpperFlag,
        NameFault::OtherFlag,
        NameFault::SignWithoutNames,
        NameFault::NoFlagsBeforeBlank,
        NameFault::NoFlagsBeforeOperator,
        NameFault::CarriageReturn,
        NameFault::VerticalTab,
        NameFault::FormFeed,
        NameFault::Nul,
        NameFault::HighByte,
        NameFault::OtherScript,
        NameFault::StrayByte,
        NameFault::ByteChanged,
        NameFault::ByteInserted,
        NameFault::ByteDeleted,
        NameFault::BytesChanged,
        NameFault::CutAnywhere,
        NameFault::PiecesMoved,
        NameFault::PiecesAtRandom,
        NameFault::Noise,
        NameFault::ClausesThenNoise,
    ];

    /// Whether its place is not known when it is made, and the text may be well-formed still.
    pub fn is_blind(self) -> bool {
        use NameFault::*;
        matches!(
            self,
            ByteChanged
                | ByteInserted
                | ByteDeleted
                | BytesChanged
                | CutAnywhere
                | PiecesMoved
                | PiecesAtRandom
                | Noise
                | ClausesThenNoise
        )
    }
}
