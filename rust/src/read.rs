//! The reader: a plain text back to its number.

use crate::codes::Kind;
use crate::raw::{self, Answer};

/// Reads the number of a text that [`write_short`](crate::write_short) writes, and of no other.
///
/// If it is done, the answer's value is the number's 64-bit two's complement pattern. The refusals, of which the first
/// that applies is given, are those in [`refusal`](crate::refusal): `TYPE`, `OPTIONS` (the format), `EMPTY`, `SHAPE`,
/// whose value is the place of the fault, `NOT_CANONICAL` and `RANGE`.
///
/// ```
/// use larguviet::{format, read, refusal, Answer, Kind};
///
/// assert_eq!(read(Kind::I8, format::DECIMAL, b"-128"), Answer { number: refusal::DONE, value: -128i64 as u64 });
/// assert_eq!(read(Kind::U8, format::DECIMAL, b"12a"), Answer { number: refusal::SHAPE, value: 2 });
/// assert_eq!(read(Kind::U8, format::DECIMAL, b"007"), Answer { number: refusal::NOT_CANONICAL, value: 0 });
/// ```
pub fn read(kind: Kind, format: u32, text: &[u8]) -> Answer {
    // SAFETY: a slice is valid for its own length.
    unsafe { raw::lgv_read(kind.bits, kind.signed.into(), format, text.as_ptr(), text.len()) }
}
