//! lgv_read beside Rust's own `parse` and `from_str_radix`: what both read they read alike, and what only one of them
//! reads has one of the causes below, which docs/DIFFERENCES.md lists.

use crate::report::Report;
use larguviet::{Answer, Kind};
use std::sync::atomic::{AtomicU64, Ordering::Relaxed};

const CAUSES: [&str; 7] = [
    "read alike by both",
    "a plus in front: only Rust reads it",
    "a minus in binary, octal or hex: only Rust reads it",
    "a hex letter in the other case: only Rust reads it",
    "a leading zero: only Rust reads it",
    "-0: only Rust reads it",
    "the pattern of a negative number in binary, octal or hex: only lgv_read reads it",
];
const ALIKE: usize = 0;
const PLUS: usize = 1;
const MINUS: usize = 2;
const OTHER_CASE: usize = 3;
const LEADING_ZERO: usize = 4;
const MINUS_ZERO: usize = 5;
const PATTERN: usize = 6;

static TOTALS: [AtomicU64; CAUSES.len()] = [const { AtomicU64::new(0) }; CAUSES.len()];

/// How often each was seen by one thread; added to the totals in the end.
#[derive(Default)]
pub struct Counts([u64; CAUSES.len()]);

impl Drop for Counts {
    fn drop(&mut self) {
        for (total, count) in TOTALS.iter().zip(self.0) {
            total.fetch_add(count, Relaxed);
        }
    }
}

impl Counts {
    /// Whether the archive's answer and Rust's go together. Rust's integers have no exponent form to compare.
    pub fn agree(&mut self, kind: Kind, format: u32, text: &[u8], given: Answer) -> bool {
        if format > 4 || !matches!(kind.bits, 8 | 16 | 32 | 64) {
            return true;
        }
        let text = std::str::from_utf8(text).unwrap_or("");
        let ours = (given.number == 0).then_some(given.value);
        let cause = match (ours, number(kind, format, text)) {
            (None, None) => return true,
            (Some(ours), Some(rust)) if ours == rust => Some(ALIKE),
            (None, Some(_)) => cause(format, text),
            (Some(ours), None) => is_pattern(kind, format, text, ours).then_some(PATTERN),
            (Some(_), Some(_)) => None,
        };
        cause.inspect(|&cause| self.0[cause] += 1).is_some()
    }
}

/// Why Rust reads a text that is refused here.
fn cause(format: u32, text: &str) -> Option<usize> {
    let digits = text.strip_prefix('-').unwrap_or(text);
    let other_case = |byte: u8| if format == 3 { byte.is_ascii_uppercase() } else { byte.is_ascii_lowercase() };
    match text {
        _ if text.starts_with('+') => Some(PLUS),
        _ if text.starts_with('-') && format > 0 => Some(MINUS),
        _ if format >= 3 && text.bytes().any(other_case) => Some(OTHER_CASE),
        _ if digits.starts_with('0') && digits.len() > 1 => Some(LEADING_ZERO),
        "-0" => Some(MINUS_ZERO),
        _ => None,
    }
}

/// Whether the number is a negative one that Rust reads from the same text as the unsigned number of its bits.
fn is_pattern(kind: Kind, format: u32, text: &str, ours: u64) -> bool {
    let low = u64::MAX >> (64 - kind.bits);
    let unsigned = number(Kind { signed: false, ..kind }, format, text);
    format > 0 && kind.signed && (ours as i64) < 0 && unsigned == Some(ours & low)
}

/// What Rust reads, as a 64-bit two's complement pattern.
fn number(kind: Kind, format: u32, text: &str) -> Option<u64> {
    macro_rules! read {
        ($type:ident) => {
            match format {
                0 => text.parse::<$type>(),
                _ => $type::from_str_radix(text, [2, 8, 16, 16][format as usize - 1]),
            }
            .ok()
            .map(|number| number as u64)
        };
    }
    match (kind.bits, kind.signed) {
        (8, false) => read!(u8),
        (8, true) => read!(i8),
        (16, false) => read!(u16),
        (16, true) => read!(i16),
        (32, false) => read!(u32),
        (32, true) => read!(i32),
        (64, false) => read!(u64),
        _ => read!(i64),
    }
}

/// Says how often each cause was seen in the parts before; each must have been.
pub fn close(report: &mut Report) {
    report.part("read beside Rust's parse and from_str_radix: every listed difference", |share, tally| {
        for (cause, total) in CAUSES.iter().zip(&TOTALS).filter(|_| share == 0) {
            let count = total.load(Relaxed);
            println!("oracle read beside Rust: {count} texts, {cause}");
            tally.count(count > 0, (0, 0), || format!("no text was {cause}"));
        }
    });
}
