//! Plain decimal of 64-bit numbers: the end entries and the short form, Rust's own, itoa, C++, fmt and C.

use crate::measure::Subject;
use crate::writers::{ours, peer, subject};
use crate::{from_c, rust_write, values};
use core::fmt::NumBuffer;
use larguviet::{format, raw};
use std::hint::black_box;

from_c!(u64: peer_to_chars_u64 peer_snprintf_u64 peer_fmt_u64);
from_c!(i64: peer_to_chars_i64 peer_snprintf_i64 peer_fmt_i64);

/// The subject of a type, with the number that says whether it is signed.
macro_rules! subject {
    ($name:expr, $type:ident, $signed:expr, $values:expr, $end:ident, $to_chars:ident, $snprintf:ident, $fmt:ident) => {{
        unsafe extern "C" fn short(value: $type, out: *mut u8, len: usize) -> usize {
            raw::lgv_write_short(64, $signed, value as u64, format::DECIMAL, out, len).value as usize
        }
        extern "C" fn format_into(value: $type, _: *mut u8, _: usize) -> usize {
            let mut buffer = NumBuffer::new();
            black_box(value.format_into(&mut buffer)).len()
        }
        #[cfg(itoa)]
        extern "C" fn itoa(value: $type, _: *mut u8, _: usize) -> usize {
            let mut buffer = ::itoa::Buffer::new();
            black_box(buffer.format(value)).len()
        }
        #[cfg(not(itoa))]
        use crate::writers::missing as itoa;
        rust_write!(display, $type, "{}");
        subject(
            $name,
            $values,
            vec![
                ours(stringify!($end), raw::$end),
                ours("lgv_write_short", short),
                peer("Rust format_into", format_into),
                peer("Rust write!", display),
                peer("itoa", itoa),
                peer("C++ std::to_chars", $to_chars),
                peer("C snprintf", $snprintf),
                peer("fmt::format_int", $fmt),
            ],
        )
    }};
}

pub fn unsigned() -> Subject {
    subject!(
        "decimal-u64",
        u64,
        0,
        values::unsigned(),
        lgv_decimal_end_u64,
        peer_to_chars_u64,
        peer_snprintf_u64,
        peer_fmt_u64
    )
}

pub fn signed() -> Subject {
    subject!(
        "decimal-i64",
        i64,
        1,
        values::signed(),
        lgv_decimal_end_i64,
        peer_to_chars_i64,
        peer_snprintf_i64,
        peer_fmt_i64
    )
}
