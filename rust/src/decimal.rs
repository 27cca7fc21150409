//! The end entries: the plain decimal of a number, at the end of a lent buffer.

use crate::raw;

/// Writes the decimal of `value` at the end of `out` and gives its start.
///
/// Without room it changes nothing and gives `out.len()`. Bytes in front of the text stay as they are.
///
/// ```
/// let mut out = *b"......";
/// assert_eq!(larguviet::decimal_end_at_u64(1972, &mut out), 2);
/// assert_eq!(&out, b"..1972");
/// assert_eq!(larguviet::decimal_end_at_u64(1972, &mut out[..3]), 3);
/// ```
pub fn decimal_end_at_u64(value: u64, out: &mut [u8]) -> usize {
    // SAFETY: a slice is valid for its own length.
    unsafe { raw::lgv_decimal_end_u64(value, out.as_mut_ptr(), out.len()) }
}

/// [`decimal_end_at_u64`] for a signed number: a negative one has a `-` in front.
pub fn decimal_end_at_i64(value: i64, out: &mut [u8]) -> usize {
    // SAFETY: a slice is valid for its own length.
    unsafe { raw::lgv_decimal_end_i64(value, out.as_mut_ptr(), out.len()) }
}

/// Writes the decimal of `value` at the end of `out` and hands back that part; `None`, and nothing changed, without room.
///
/// ```
/// let mut out = [0; 20];
/// assert_eq!(larguviet::decimal_end_u64(1972, &mut out).as_deref(), Some(&b"1972"[..]));
/// assert_eq!(larguviet::decimal_end_u64(1972, &mut out[..3]), None);
/// ```
pub fn decimal_end_u64(value: u64, out: &mut [u8]) -> Option<&mut [u8]> {
    let start = decimal_end_at_u64(value, out);
    end_part(start, out)
}

/// [`decimal_end_u64`] for a signed number.
///
/// ```
/// let mut out = [0; 20];
/// let text = larguviet::decimal_end_i64(i64::MIN, &mut out).unwrap();
/// assert_eq!(text, b"-9223372036854775808");
/// ```
pub fn decimal_end_i64(value: i64, out: &mut [u8]) -> Option<&mut [u8]> {
    let start = decimal_end_at_i64(value, out);
    end_part(start, out)
}

/// No number's decimal is empty, so an empty part is a refusal.
fn end_part(start: usize, out: &mut [u8]) -> Option<&mut [u8]> {
    let part = &mut out[start..];
    if part.is_empty() {
        None
    } else {
        Some(part)
    }
}
