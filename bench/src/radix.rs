//! Hex, octal and binary of 64-bit numbers: the short form, Rust's `{:x}`, `{:o}` and `{:b}`, C++, fmt and C.

use crate::measure::Subject;
use crate::writers::{ours, peer, subject};
use crate::{from_c, rust_write, values};
use larguviet::{format, raw};

from_c!(u64: peer_to_chars_hex peer_to_chars_octal peer_to_chars_binary peer_snprintf_hex peer_snprintf_octal
    peer_fmt_hex peer_fmt_octal peer_fmt_binary);

unsafe extern "C" fn short_hex(value: u64, out: *mut u8, len: usize) -> usize {
    raw::lgv_write_short(64, 0, value, format::LOWER_HEX, out, len).value as usize
}
unsafe extern "C" fn short_octal(value: u64, out: *mut u8, len: usize) -> usize {
    raw::lgv_write_short(64, 0, value, format::OCTAL, out, len).value as usize
}
unsafe extern "C" fn short_binary(value: u64, out: *mut u8, len: usize) -> usize {
    raw::lgv_write_short(64, 0, value, format::BINARY, out, len).value as usize
}
rust_write!(rust_hex, u64, "{:x}");
rust_write!(rust_octal, u64, "{:o}");
rust_write!(rust_binary, u64, "{:b}");

pub fn hex() -> Subject {
    subject(
        "hex-u64",
        values::unsigned(),
        vec![
            ours("lgv_write_short", short_hex),
            peer("Rust {:x}", rust_hex),
            peer("C++ std::to_chars, 16", peer_to_chars_hex),
            peer("C snprintf %x", peer_snprintf_hex),
            peer("fmt {:x}", peer_fmt_hex),
        ],
    )
}

pub fn octal() -> Subject {
    subject(
        "octal-u64",
        values::unsigned(),
        vec![
            ours("lgv_write_short", short_octal),
            peer("Rust {:o}", rust_octal),
            peer("C++ std::to_chars, 8", peer_to_chars_octal),
            peer("C snprintf %o", peer_snprintf_octal),
            peer("fmt {:o}", peer_fmt_octal),
        ],
    )
}

pub fn binary() -> Subject {
    subject(
        "binary-u64",
        values::unsigned(),
        vec![
            ours("lgv_write_short", short_binary),
            peer("Rust {:b}", rust_binary),
            peer("C++ std::to_chars, 2", peer_to_chars_binary),
            peer("fmt {:b}", peer_fmt_binary),
        ],
    )
}
