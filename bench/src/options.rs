//! Options: decimal at the default ones, a signed number at a width, and hex with its prefix. The entries take their options at run time, as Rust's
//! Formatter does; in `write!` and fmt they are fixed when the program is compiled.

use crate::measure::Subject;
use crate::writers::{ours, peer, subject, Text};
use crate::{from_c, rust_write, values};
use larguviet::{format, raw};
use std::fmt::{Display, Formatter, FormattingOptions, LowerHex, Sign};
use std::hint::black_box;

from_c!(u64: peer_snprintf_u64 peer_fmt_plain);
from_c!(i64: peer_snprintf_plus_zero peer_fmt_plus_zero);
from_c!(u64: peer_snprintf_prefix peer_fmt_prefix);

unsafe extern "C" fn plain(value: u64, out: *mut u8, len: usize) -> usize {
    raw::lgv_write(64, 0, value, format::DECIMAL, 0, 0, 0, 32, 0, 0, 0, 0, out, len).value as usize
}
unsafe extern "C" fn run_time_plain(value: u64, out: *mut u8, len: usize) -> usize {
    let mut text = Text::new(out, len);
    Display::fmt(&value, &mut Formatter::new(&mut text, black_box(FormattingOptions::new()))).unwrap();
    text.len
}
rust_write!(rust_plain, u64, "{}");

unsafe extern "C" fn plus_zero(value: i64, out: *mut u8, len: usize) -> usize {
    raw::lgv_write(64, 1, value as u64, format::DECIMAL, 1, 0, 1, 32, 0, 12, 0, 0, out, len).value as usize
}
unsafe extern "C" fn run_time_plus_zero(value: i64, out: *mut u8, len: usize) -> usize {
    let mut options = FormattingOptions::new();
    options.sign(Some(Sign::Plus)).sign_aware_zero_pad(true).width(Some(12));
    let mut text = Text::new(out, len);
    Display::fmt(&value, &mut Formatter::new(&mut text, black_box(options))).unwrap();
    text.len
}
rust_write!(rust_plus_zero, i64, "{:+012}");

unsafe extern "C" fn prefix(value: u64, out: *mut u8, len: usize) -> usize {
    raw::lgv_write(64, 0, value, format::LOWER_HEX, 0, 1, 0, 32, 0, 0, 0, 0, out, len).value as usize
}
unsafe extern "C" fn run_time_prefix(value: u64, out: *mut u8, len: usize) -> usize {
    let mut options = FormattingOptions::new();
    options.alternate(true);
    let mut text = Text::new(out, len);
    LowerHex::fmt(&value, &mut Formatter::new(&mut text, black_box(options))).unwrap();
    text.len
}
rust_write!(rust_prefix, u64, "{:#x}");

pub fn default_options() -> Subject {
    subject(
        "default-u64",
        values::unsigned(),
        vec![
            ours("lgv_write", plain),
            peer("Rust Formatter", run_time_plain),
            peer("Rust {}", rust_plain),
            peer("C snprintf", peer_snprintf_u64),
            peer("fmt {}", peer_fmt_plain),
        ],
    )
}

pub fn signed_at_a_width() -> Subject {
    subject(
        "plus-zero-12-i64",
        values::signed(),
        vec![
            ours("lgv_write", plus_zero),
            peer("Rust Formatter", run_time_plus_zero),
            peer("Rust {:+012}", rust_plus_zero),
            peer("C snprintf %+012", peer_snprintf_plus_zero),
            peer("fmt {:+012}", peer_fmt_plus_zero),
        ],
    )
}

pub fn hex_with_prefix() -> Subject {
    subject(
        "hex-prefix-u64",
        values::unsigned(),
        vec![
            ours("lgv_write", prefix),
            peer("Rust Formatter", run_time_prefix),
            peer("Rust {:#x}", rust_prefix),
            peer("C snprintf %#x", peer_snprintf_prefix),
            peer("fmt {:#x}", peer_fmt_prefix),
        ],
    )
}
