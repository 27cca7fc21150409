//! Reading 64-bit numbers: lgv_read, Rust's parse and from_str_radix, C++ from_chars, C strtoull. An integer in exponent
//! form is read by no peer; strtold comes nearest, as a long double holds 64 bits.

use crate::measure::{Contender, Kind, Subject};
use crate::values;
use larguviet::{format, raw};
use std::hint::black_box;

/// Reads a text that a zero byte follows, as strtoull wants it; gives the number.
type Reader = unsafe extern "C" fn(*const u8, usize) -> u64;

extern "C" {
    fn peer_from_chars(text: *const u8, len: usize) -> u64;
    fn peer_from_chars_hex(text: *const u8, len: usize) -> u64;
    fn peer_strtoull(text: *const u8, len: usize) -> u64;
    fn peer_strtoull_hex(text: *const u8, len: usize) -> u64;
    fn peer_strtold(text: *const u8, len: usize) -> u64;
}

extern "C" fn empty(_: *const u8, len: usize) -> u64 {
    len as u64
}
unsafe extern "C" fn read_decimal(text: *const u8, len: usize) -> u64 {
    raw::lgv_read(64, 0, format::DECIMAL, text, len).value
}
unsafe extern "C" fn read_hex(text: *const u8, len: usize) -> u64 {
    raw::lgv_read(64, 0, format::LOWER_HEX, text, len).value
}
unsafe extern "C" fn read_exponent(text: *const u8, len: usize) -> u64 {
    raw::lgv_read(64, 0, format::LOWER_EXP, text, len).value
}
unsafe extern "C" fn rust_parse(text: *const u8, len: usize) -> u64 {
    str_of(text, len).parse().unwrap_or(0)
}
unsafe extern "C" fn rust_radix(text: *const u8, len: usize) -> u64 {
    u64::from_str_radix(str_of(text, len), 16).unwrap_or(0)
}

unsafe fn str_of<'a>(text: *const u8, len: usize) -> &'a str {
    std::str::from_utf8_unchecked(std::slice::from_raw_parts(text, len))
}

pub fn decimal() -> Subject {
    let texts = texts(|value| value.to_string());
    subject(
        "read-decimal-u64",
        texts,
        vec![
            ("lgv_read", Kind::Ours, read_decimal),
            ("Rust parse", Kind::Peer, rust_parse),
            ("C++ std::from_chars", Kind::Peer, peer_from_chars),
            ("C strtoull", Kind::Peer, peer_strtoull),
        ],
    )
}

pub fn hex() -> Subject {
    let texts = texts(|value| format!("{value:x}"));
    subject(
        "read-hex-u64",
        texts,
        vec![
            ("lgv_read", Kind::Ours, read_hex),
            ("Rust from_str_radix", Kind::Peer, rust_radix),
            ("C++ std::from_chars, 16", Kind::Peer, peer_from_chars_hex),
            ("C strtoull, 16", Kind::Peer, peer_strtoull_hex),
        ],
    )
}

pub fn exponent() -> Subject {
    let texts = texts(|value| format!("{value:e}"));
    subject(
        "read-exponent-u64",
        texts,
        vec![("lgv_read", Kind::Ours, read_exponent), ("C strtold", Kind::Peer, peer_strtold)],
    )
}

/// Texts with where each starts and how long it is.
struct Texts {
    bytes: Vec<u8>,
    places: Vec<(usize, usize)>,
}

fn texts(text_of: impl Fn(u64) -> String) -> &'static Texts {
    let mut texts = Texts { bytes: Vec::new(), places: Vec::new() };
    for value in values::unsigned() {
        let text = text_of(value);
        texts.places.push((texts.bytes.len(), text.len()));
        texts.bytes.extend(text.bytes().chain([0]));
    }
    Box::leak(Box::new(texts))
}

fn subject(name: &'static str, texts: &'static Texts, readers: Vec<(&'static str, Kind, Reader)>) -> Subject {
    let all = std::iter::once(("empty", Kind::Empty, empty as Reader)).chain(readers);
    let contenders =
        all.map(|(name, kind, read)| Contender { name, kind, run: Box::new(move || read_all(read, texts)) });
    Subject { name, calls: values::COUNT, contenders: contenders.collect(), absent: Vec::new() }
}

/// The one loop that all readers are called from, so that it cancels out with the empty call.
#[inline(never)]
fn read_all(read: Reader, texts: &Texts) {
    let read = black_box(read);
    let mut sum = 0u64;
    for &(start, len) in &texts.places {
        // SAFETY: the text is there, and a zero byte behind it.
        sum = sum.wrapping_add(unsafe { read(texts.bytes.as_ptr().add(start), len) });
    }
    black_box(sum);
}
