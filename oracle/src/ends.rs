//! The end entries against `format_into` and `to_string`.

use crate::frame::Frame;
use crate::report::{Report, Tally, SHARES};
use crate::values::{limits, signed_limits, Random};
use core::fmt::NumBuffer;
use std::fmt::Display;

const LONGEST: usize = 24;
const RANDOM_CALLS: u64 = 10_000_000;
const SEED: u64 = 1972;

/// A type of Rust and the entry that serves it.
trait Number: Copy + Display {
    const NAME: &'static str;
    /// Whether `format_into` gives `text`.
    fn formats_as(self, text: &str) -> bool;
    fn end_at(self, out: &mut [u8]) -> usize;
    fn end(self, out: &mut [u8]) -> Option<&mut [u8]>;
    fn size(self) -> u64;
    fn random(random: &mut Random) -> Self;
}

macro_rules! number {
    ($type:ident, $wide:ident, $end_at:ident, $end:ident, $size:expr, $random:expr) => {
        impl Number for $type {
            const NAME: &'static str = stringify!($type);
            fn formats_as(self, text: &str) -> bool {
                self.format_into(&mut NumBuffer::new()) == text
            }
            fn end_at(self, out: &mut [u8]) -> usize {
                larguviet::$end_at($wide::from(self), out)
            }
            fn end(self, out: &mut [u8]) -> Option<&mut [u8]> {
                larguviet::$end($wide::from(self), out)
            }
            fn size(self) -> u64 {
                $size(self)
            }
            fn random(random: &mut Random) -> Self {
                $random(random)
            }
        }
    };
}

macro_rules! unsigned {
    ($($type:ident)*) => { $(number!(
        $type, u64, decimal_end_at_u64, decimal_end_u64,
        u64::from, |random: &mut Random| random.magnitude($type::BITS) as $type
    );)* };
}

macro_rules! signed {
    ($($type:ident)*) => { $(number!(
        $type, i64, decimal_end_at_i64, decimal_end_i64,
        |value: $type| value.unsigned_abs().into(),
        |random: &mut Random| {
            let magnitude = random.magnitude($type::BITS - 1) as $type;
            if random.below(2) == 0 { magnitude } else { -magnitude }
        }
    );)* };
}

unsigned!(u8 u16 u32 u64);
signed!(i8 i16 i32 i64);

pub fn run(report: &mut Report) {
    report.part("decimal-end u8, i8: every value, every length", |share, tally| {
        every_length(u8::MIN..=u8::MAX, share, tally);
        every_length(i8::MIN..=i8::MAX, share, tally);
    });
    report.part("decimal-end u16, i16: every value, every length", |share, tally| {
        every_length(u16::MIN..=u16::MAX, share, tally);
        every_length(i16::MIN..=i16::MAX, share, tally);
    });
    report.part("decimal-end u64, i64: the limits, every length", |share, tally| {
        every_length(limits().into_iter(), share, tally);
        every_length(signed_limits().into_iter(), share, tally);
    });
    report.part("decimal-end u32: random", random::<u32>);
    report.part("decimal-end i32: random", random::<i32>);
    report.part("decimal-end u64: random", random::<u64>);
    report.part("decimal-end i64: random", random::<i64>);
    report.part("decimal-end u64, i64: the part handed back", |share, tally| {
        every_part(limits().into_iter(), share, tally);
        every_part(signed_limits().into_iter(), share, tally);
    });
}

fn every_length<N: Number>(values: impl Iterator<Item = N>, share: u64, tally: &mut Tally) {
    let mut frame = Frame::new(LONGEST);
    for value in of_share(values, share) {
        let text = text_of(value, tally);
        for len in 0..=LONGEST {
            check(value, &text, len, &mut frame, tally);
        }
    }
}

/// Random values, in turn into a buffer that just fits, lacks a byte, has one to spare, or is of any length.
fn random<N: Number>(share: u64, tally: &mut Tally) {
    let mut random = Random::new(SEED + share);
    let mut frame = Frame::new(LONGEST);
    for turn in 0..RANDOM_CALLS / SHARES {
        let value = N::random(&mut random);
        let text = text_of(value, tally);
        let len = match turn % 4 {
            0 => text.len(),
            1 => text.len() - 1,
            2 => text.len() + 1,
            _ => random.below(LONGEST as u64 + 1) as usize,
        };
        check(value, &text, len, &mut frame, tally);
    }
}

/// The form that hands back the text: it must be the end part of the lent buffer itself, or nothing.
fn every_part<N: Number>(values: impl Iterator<Item = N>, share: u64, tally: &mut Tally) {
    let mut frame = Frame::new(LONGEST);
    for value in of_share(values, share) {
        let text = text_of(value, tally);
        for len in 0..=LONGEST {
            let out = frame.lend(len);
            let wanted = len.checked_sub(text.len()).map(|start| &raw const out[start..]);
            let given = value.end(out).map(|part| &raw const *part);
            let stands = frame.holds(start_of(&text, len), text_that_fits(&text, len));
            tally.count(given == wanted && stands, (value.size(), len), || {
                let part = if given == wanted { "the right part" } else { "another part" };
                format!("{} {value} into {len} bytes: {part}, {}", N::NAME, frame.show())
            });
        }
    }
}

fn of_share<N>(values: impl Iterator<Item = N>, share: u64) -> impl Iterator<Item = N> {
    values.skip(share as usize).step_by(SHARES as usize)
}

/// Rust's text of a value. That both of Rust's ways give it is checked too.
fn text_of<N: Number>(value: N, tally: &mut Tally) -> String {
    let text = value.to_string();
    tally.expect(value.formats_as(&text), (value.size(), 0), || format!("{} {value}: Rust's own ways differ", N::NAME));
    text
}

fn check<N: Number>(value: N, text: &str, len: usize, frame: &mut Frame, tally: &mut Tally) {
    let start = value.end_at(frame.lend(len));
    let wanted = start_of(text, len);
    let stands = frame.holds(wanted, text_that_fits(text, len));
    tally.count(start == wanted && stands, (value.size(), len), || {
        format!("{} {value} into {len} bytes: start {start}, wanted {wanted}, {}", N::NAME, frame.show())
    });
}

/// Where the text must start: the buffer's length if it has no room.
fn start_of(text: &str, len: usize) -> usize {
    len.checked_sub(text.len()).unwrap_or(len)
}

fn text_that_fits(text: &str, len: usize) -> &[u8] {
    if text.len() <= len {
        text.as_bytes()
    } else {
        b""
    }
}
