//! The codes that go into the entries and the numbers that come out of them.

/// A type of integer. Every `bits` can be asked for; all but 8, 16, 32 and 64 are refused with [`refusal::TYPE`].
#[derive(Clone, Copy, Debug, PartialEq, Eq)]
pub struct Kind {
    pub bits: u32,
    pub signed: bool,
}

impl Kind {
    pub const U8: Kind = Kind { bits: 8, signed: false };
    pub const I8: Kind = Kind { bits: 8, signed: true };
    pub const U16: Kind = Kind { bits: 16, signed: false };
    pub const I16: Kind = Kind { bits: 16, signed: true };
    pub const U32: Kind = Kind { bits: 32, signed: false };
    pub const I32: Kind = Kind { bits: 32, signed: true };
    pub const U64: Kind = Kind { bits: 64, signed: false };
    pub const I64: Kind = Kind { bits: 64, signed: true };

    pub const ALL: [Kind; 8] = [Kind::U8, Kind::I8, Kind::U16, Kind::I16, Kind::U32, Kind::I32, Kind::U64, Kind::I64];
}

/// The formats. A code above these is refused with [`refusal::OPTIONS`].
pub mod format {
    pub const DECIMAL: u32 = 0;
    pub const BINARY: u32 = 1;
    pub const OCTAL: u32 = 2;
    pub const LOWER_HEX: u32 = 3;
    pub const UPPER_HEX: u32 = 4;
    pub const LOWER_EXP: u32 = 5;
    pub const UPPER_EXP: u32 = 6;
}

/// The alignments. A code above these is refused with [`refusal::OPTIONS`].
pub mod align {
    pub const UNSET: u32 = 0;
    pub const LEFT: u32 = 1;
    pub const CENTRE: u32 = 2;
    pub const RIGHT: u32 = 3;
}

/// The numbers of the refusals, as in [`Answer::number`](crate::Answer::number).
pub mod refusal {
    /// None of the others: it is done.
    pub const DONE: u64 = 0;
    /// A text to read has length 0.
    pub const EMPTY: u64 = 1;
    /// A text to read is not of the format's shape.
    pub const SHAPE: u64 = 2;
    /// A text to read has the shape and breaks a rule of writing.
    pub const NOT_CANONICAL: u64 = 3;
    /// The number read is no value of the type.
    pub const RANGE: u64 = 4;
    /// The bits are not 8, 16, 32 or 64.
    pub const TYPE: u64 = 5;
    /// An unknown code, or a fill outside 32 to 126.
    pub const OPTIONS: u64 = 6;
    /// The number to write is no value of the type.
    pub const VALUE: u64 = 7;
    /// The text is longer than the buffer.
    pub const NO_ROOM: u64 = 8;
    /// A copied part leaves its source. No entry of the archive takes parts.
    pub const PART: u64 = 9;
    /// An exponent above 99. No number that the entries take has one.
    pub const EXPONENT: u64 = 10;
}
