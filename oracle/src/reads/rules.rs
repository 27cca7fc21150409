//! What a call must answer, from the rules of reading alone: shape, place, canonical form and range, each by its meaning.

use larguviet::{Answer, Kind};

const DONE: u64 = 0;
const EMPTY: u64 = 1;
const SHAPE: u64 = 2;
const NOT_CANONICAL: u64 = 3;
const RANGE: u64 = 4;
const TYPE: u64 = 5;
const OPTIONS: u64 = 6;

pub fn answer(kind: Kind, format: u32, text: &[u8]) -> Answer {
    let refuse = |number| Answer { number, value: 0 };
    if ![8, 16, 32, 64].contains(&kind.bits) {
        return refuse(TYPE);
    }
    if format > 6 {
        return refuse(OPTIONS);
    }
    if text.is_empty() {
        return refuse(EMPTY);
    }
    let Some(parsed) = parse(kind, format, text) else {
        return Answer { number: SHAPE, value: place(kind, format, text) as u64 };
    };
    if !parsed.is_canonical() {
        return refuse(NOT_CANONICAL);
    }
    match parsed.pattern(kind, format) {
        Some(value) => Answer { number: DONE, value },
        None => refuse(RANGE),
    }
}

/// The first byte after which the bytes so far begin no text of the shape; the text's length if there is none.
fn place(kind: Kind, format: u32, text: &[u8]) -> usize {
    (0..text.len()).find(|&at| !begins(kind, format, &text[..=at])).unwrap_or(text.len())
}

/// Whether some text of the shape begins so. What begins one is one, or lacks no more than one of these.
fn begins(kind: Kind, format: u32, text: &[u8]) -> bool {
    let mut endings = [&b""[..], b"0", b"e0", b"0e0", b"E0", b"0E0"].into_iter();
    endings.any(|ending| parse(kind, format, &[text, ending].concat()).is_some())
}

/// A text of the shape, in its pieces.
struct Parsed<'a> {
    minus: bool,
    base: u128,
    /// All digits, or those before the point.
    lead: &'a [u8],
    fraction: &'a [u8],
    /// In the exponent forms.
    exponent: Option<&'a [u8]>,
}

/// The pieces of a text, if it is of the shape.
fn parse(kind: Kind, format: u32, text: &[u8]) -> Option<Parsed<'_>> {
    let base = [10, 2, 8, 16, 16, 10, 10][format as usize];
    let is_exponent = format >= 5;
    let digits = |run: &[u8]| !run.is_empty() && run.iter().all(|&byte| digit(byte, base, format).is_some());
    let (minus, rest) = match text.strip_prefix(b"-") {
        Some(rest) if kind.signed && (format == 0 || is_exponent) => (true, rest),
        _ => (false, text),
    };
    if !is_exponent {
        return digits(rest).then_some(Parsed { minus, base, lead: rest, fraction: b"", exponent: None });
    }
    let letter = if format == 5 { b'e' } else { b'E' };
    let (number, exponent) = split(rest, letter)?;
    let (lead, fraction) = match split(number, b'.') {
        Some((lead, fraction)) if digits(fraction) => (lead, fraction),
        Some(_) => return None,
        None => (number, &b""[..]),
    };
    let right = digits(lead) && lead.len() == 1 && digits(exponent) && exponent.len() <= 2;
    right.then_some(Parsed { minus, base, lead, fraction, exponent: Some(exponent) })
}

fn split(text: &[u8], at: u8) -> Option<(&[u8], &[u8])> {
    let place = text.iter().position(|&byte| byte == at)?;
    Some((&text[..place], &text[place + 1..]))
}

fn digit(byte: u8, base: u128, format: u32) -> Option<u128> {
    let letter_case = if format == 4 { byte.is_ascii_uppercase() } else { byte.is_ascii_lowercase() };
    if !byte.is_ascii_digit() && !letter_case {
        return None;
    }
    char::from(byte).to_digit(base as u32).map(u128::from)
}

impl Parsed<'_> {
    fn is_canonical(&self) -> bool {
        let leading_zero = match self.exponent {
            None => self.lead.len() > 1 && self.lead[0] == b'0',
            Some(exponent) => self.lead == b"0" && !(self.fraction.is_empty() && exponent == b"0"),
        };
        let minus_zero = self.minus && self.magnitude() == Some(0);
        let loose_fraction = self.fraction.ends_with(b"0");
        let loose_exponent = self.exponent.is_some_and(|exponent| exponent.len() == 2 && exponent[0] == b'0');
        let not_whole = self.exponent.is_some() && self.power() < self.fraction.len();
        !(leading_zero || minus_zero || loose_fraction || loose_exponent || not_whole)
    }

    fn power(&self) -> usize {
        self.exponent.unwrap_or(b"").iter().fold(0, |power, byte| power * 10 + usize::from(byte - b'0'))
    }

    /// The number without its sign, if it has less than 128 bits; of a fraction, 0 only if it is 0.
    fn magnitude(&self) -> Option<u128> {
        let mut zeros = self.power().saturating_sub(self.fraction.len());
        let all = self.lead.iter().chain(self.fraction);
        let mut sum = all
            .map(|&byte| char::from(byte).to_digit(16).map_or(0, u128::from))
            .try_fold(0, |sum: u128, digit| sum.checked_mul(self.base)?.checked_add(digit))?;
        while zeros > 0 && sum > 0 {
            sum = sum.checked_mul(10)?;
            zeros -= 1;
        }
        Some(sum)
    }

    /// The 64-bit pattern of the value, if it is in the type.
    fn pattern(&self, kind: Kind, format: u32) -> Option<u64> {
        let magnitude = i128::try_from(self.magnitude()?).ok()?;
        let whole = 1i128 << kind.bits;
        if (1..=4).contains(&format) {
            let sign = kind.signed && magnitude >= whole / 2;
            return (magnitude < whole).then_some(if sign { magnitude - whole } else { magnitude } as u64);
        }
        let value = if self.minus { -magnitude } else { magnitude };
        let range = if kind.signed { -whole / 2..whole / 2 } else { 0..whole };
        range.contains(&value).then_some(value as u64)
    }
}
