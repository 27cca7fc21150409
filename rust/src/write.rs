//! The writer: a number as text at the start of a lent buffer.

use crate::codes::{align, refusal, Kind};
use crate::raw::{self, Answer};

/// How a text is laid out. The default is the house default: no flag, fill space, alignment unset, width 0 and no
/// precision.
#[derive(Clone, Copy, Debug, PartialEq, Eq)]
pub struct Options {
    /// `+` in front of what is not negative.
    pub plus: bool,
    /// `0b`, `0o` or `0x` in front of binary, octal and hex digits.
    pub alternate: bool,
    /// Zeros up to the width, behind sign and prefix; fill and alignment are then ignored.
    pub zero: bool,
    /// A byte from 32 to 126. All others are refused, used or not.
    pub fill: u32,
    /// One of [`align`].
    pub align: u32,
    pub width: u16,
    /// Digits behind the point. Only the exponent forms heed it.
    pub precision: Option<u16>,
}

impl Default for Options {
    fn default() -> Self {
        let fill = u32::from(b' ');
        Options { plus: false, alternate: false, zero: false, fill, align: align::UNSET, width: 0, precision: None }
    }
}

impl Answer {
    /// The length of the text that was written; `None` after a refusal.
    pub fn length(self) -> Option<usize> {
        (self.number == refusal::DONE).then_some(self.value as usize)
    }
}

/// Writes a number at the start of `out`. `value` is its 64-bit two's complement pattern; an unsigned number is its own.
///
/// If it is done, the answer's value is the text's length, and bytes behind the text are as before. The refusals, of
/// which the first that applies is given, are [`refusal::TYPE`], [`refusal::VALUE`] (not a value of the type),
/// [`refusal::OPTIONS`] and [`refusal::NO_ROOM`], whose value is the length needed. After each, `out` is as before.
///
/// ```
/// use larguviet::{format, refusal, write, Answer, Kind, Options};
///
/// let mut out = *b"..........";
/// let options = Options { zero: true, width: 8, ..Options::default() };
/// assert_eq!(write(Kind::I32, -1i64 as u64, format::DECIMAL, &options, &mut out).length(), Some(8));
/// assert_eq!(&out, b"-0000001..");
///
/// let short = write(Kind::I32, -1i64 as u64, format::DECIMAL, &options, &mut out[..7]);
/// assert_eq!(short, Answer { number: refusal::NO_ROOM, value: 8 });
/// ```
pub fn write(kind: Kind, value: u64, format: u32, options: &Options, out: &mut [u8]) -> Answer {
    // SAFETY: a slice is valid for its own length.
    unsafe {
        raw::lgv_write(
            kind.bits,
            kind.signed.into(),
            value,
            format,
            options.plus.into(),
            options.alternate.into(),
            options.zero.into(),
            options.fill,
            options.align,
            options.width,
            options.precision.is_some().into(),
            options.precision.unwrap_or(0),
            out.as_mut_ptr(),
            out.len(),
        )
    }
}

/// [`write()`] at the house default.
///
/// ```
/// use larguviet::{format, write_short, Kind};
///
/// let mut out = [0; 64];
/// let length = write_short(Kind::I8, -1i64 as u64, format::LOWER_HEX, &mut out).length().unwrap();
/// assert_eq!(&out[..length], b"ff");
/// ```
pub fn write_short(kind: Kind, value: u64, format: u32, out: &mut [u8]) -> Answer {
    // SAFETY: a slice is valid for its own length.
    unsafe { raw::lgv_write_short(kind.bits, kind.signed.into(), value, format, out.as_mut_ptr(), out.len()) }
}
