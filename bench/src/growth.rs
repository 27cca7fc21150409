//! Growth: what a byte costs in long texts, at a tenth of the length and at the whole. Where both are the same, the cost
//! grows as the text does.

use crate::writers::Text;
use larguviet::{format, raw};
use std::fmt::Write;
use std::hint::black_box;
use std::time::Instant;

const ROUNDS: usize = 40;
const WIDEST: usize = 65_535;
const DIGITS: usize = 1_000_000;

extern "C" {
    fn peer_snprintf_width(value: u64, width: u32, out: *mut u8, len: usize) -> usize;
    fn peer_snprintf_precision(value: u64, precision: u32, out: *mut u8, len: usize) -> usize;
}

/// Makes or reads a text of about so many bytes.
type Work = fn(usize, &mut [u8]);

pub fn print() {
    let jobs: [(&str, usize, Work); 10] = [
        ("lgv_write, width, fill", WIDEST, |size, out| write(size, 0, None, out)),
        ("lgv_write, width, zeros", WIDEST, |size, out| write(size, 1, None, out)),
        ("Rust write!, width, fill", WIDEST, |size, out| rust(out, format_args!("{:>size$}", black_box(VALUE)))),
        ("Rust write!, width, zeros", WIDEST, |size, out| rust(out, format_args!("{:0size$}", black_box(VALUE)))),
        ("C snprintf, width, fill", WIDEST, |size, out| {
            // SAFETY: the bytes are lent for the call.
            unsafe { peer_snprintf_width(black_box(VALUE), size as u32, out.as_mut_ptr(), out.len()) };
        }),
        ("lgv_write, precision", WIDEST, |size, out| write(0, 0, Some(size), out)),
        ("Rust write!, precision", WIDEST, |size, out| rust(out, format_args!("{:.size$e}", black_box(VALUE)))),
        ("C snprintf, precision", WIDEST, |size, out| {
            // SAFETY: the bytes are lent for the call.
            unsafe { peer_snprintf_precision(black_box(VALUE), size as u32, out.as_mut_ptr(), out.len()) };
        }),
        ("lgv_read, decimal digits", DIGITS, |size, out| read(format::DECIMAL, &out[..size])),
        ("lgv_read, hex digits", DIGITS, |size, out| read(format::LOWER_HEX, &out[..size])),
    ];
    println!("growth: ns a byte at a tenth of the length and at the whole");
    for (name, size, work) in jobs {
        println!(
            "  {name:26} {:7} bytes {:7.3} {size:9} bytes {:7.3}",
            size / 10,
            a_byte(size / 10, work),
            a_byte(size, work)
        );
    }
    println!();
}

const VALUE: u64 = 1972;

/// The best of the rounds.
fn a_byte(size: usize, work: Work) -> f64 {
    let mut out = vec![b'7'; size + 64];
    let mut best = f64::MAX;
    for _ in 0..ROUNDS {
        let start = Instant::now();
        work(black_box(size), &mut out);
        best = best.min(start.elapsed().as_nanos() as f64);
    }
    best / size as f64
}

fn write(width: usize, zero: u32, precision: Option<usize>, out: &mut [u8]) {
    let format = if precision.is_some() { format::LOWER_EXP } else { format::DECIMAL };
    let (given, precision) = (precision.is_some().into(), precision.unwrap_or(0) as u16);
    let (width, len) = (width as u16, out.len());
    // SAFETY: the bytes are lent for the call.
    let answer = unsafe {
        raw::lgv_write(
            64,
            0,
            black_box(VALUE),
            format,
            0,
            0,
            zero,
            42,
            0,
            width,
            given,
            precision,
            out.as_mut_ptr(),
            len,
        )
    };
    assert_eq!(answer.number, 0);
}

fn rust(out: &mut [u8], words: std::fmt::Arguments) {
    // SAFETY: the bytes are lent for the call.
    let mut text = unsafe { Text::new(out.as_mut_ptr(), out.len()) };
    text.write_fmt(words).expect("the text has room");
    black_box(text.len);
}

/// So long a number is in no type.
fn read(format: u32, text: &[u8]) {
    // SAFETY: the bytes are lent for the call.
    let answer = unsafe { raw::lgv_read(64, 0, format, text.as_ptr(), text.len()) };
    assert_eq!(answer.number, 4);
}
