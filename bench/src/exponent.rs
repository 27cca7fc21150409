//! The exponent form of 64-bit numbers, in full and rounded: Rust's `{:e}` and `{:.3e}`, and C, whose long double holds
//! 64 bits but whose text has a sign and two digits in the exponent.

use crate::measure::Subject;
use crate::writers::{ours, peer, subject};
use crate::{from_c, rust_write, values};
use larguviet::{format, raw};

from_c!(u64: peer_snprintf_exponent);

unsafe extern "C" fn short(value: u64, out: *mut u8, len: usize) -> usize {
    raw::lgv_write_short(64, 0, value, format::LOWER_EXP, out, len).value as usize
}
unsafe extern "C" fn rounded(value: u64, out: *mut u8, len: usize) -> usize {
    raw::lgv_write(64, 0, value, format::LOWER_EXP, 0, 0, 0, 32, 0, 0, 1, 3, out, len).value as usize
}
rust_write!(rust_full, u64, "{:e}");
rust_write!(rust_rounded, u64, "{:.3e}");

pub fn in_full() -> Subject {
    subject("exponent-u64", values::unsigned(), vec![ours("lgv_write_short", short), peer("Rust {:e}", rust_full)])
}

pub fn to_three_places() -> Subject {
    subject(
        "exponent-3-u64",
        values::unsigned(),
        vec![
            ours("lgv_write", rounded),
            peer("Rust {:.3e}", rust_rounded),
            peer("C snprintf %.3Le", peer_snprintf_exponent),
        ],
    )
}
