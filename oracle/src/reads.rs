//! lgv_read: Rust's plain texts give back their numbers, and every other text is refused as the rules say. Every text is
//! also given to Rust's own `parse` or `from_str_radix`.

mod beside;
mod rules;
mod texts;

use crate::frame::Frame;
use crate::report::{Report, Tally, SHARES};
use crate::values::Random;
use crate::writes::{every_value, text_of, Call};
use larguviet::{format, raw, Answer, Kind};

const SEED: u64 = 1972;
/// Longer than any text that a test makes.
const LONGEST: usize = 128;
const RANDOM_VALUES: u64 = 20_000_000;
const SPOILT_TEXTS: u64 = 10_000_000;
const BAD_BITS: [u32; 6] = [0, 7, 128, 256 + 8, 70_000, u32::MAX];
const BAD_FORMATS: [u32; 5] = [7, 255, 256 + 3, 70_000, u32::MAX];

pub fn run(report: &mut Report) {
    report.part("read u8, i8, u16, i16: every value's text, in every format", |share, tally| {
        let mut reader = Reader::new(share, tally);
        for kind in [Kind::U8, Kind::I8, Kind::U16, Kind::I16] {
            for value in every_value(kind, share) {
                (0..7).for_each(|format| reader.round_trip(kind, value, format));
            }
        }
    });
    report.part("read, each type: random values' texts", |share, tally| {
        let mut reader = Reader::new(share, tally);
        for _ in 0..RANDOM_VALUES / SHARES {
            let kind = Kind::ALL[reader.random.below(8) as usize];
            let value = reader.random.value(kind);
            let format = reader.random.below(7) as u32;
            reader.round_trip(kind, value, format);
        }
    });
    report.part("read, each type: the limits and numbers beyond", |share, tally| {
        let mut reader = Reader::new(share, tally);
        for (format, text) in texts::of_limits().into_iter().skip(share as usize).step_by(SHARES as usize) {
            Kind::ALL.into_iter().for_each(|kind| reader.call(kind, format, text.as_bytes()));
        }
    });
    report.part("read, each type: every text of up to two bytes", |share, tally| {
        let mut reader = Reader::new(share, tally);
        texts::of_bytes(share, |text| reader.in_every_way(text));
    });
    report.part("read, each type: every text of up to three bytes that matter in some format", |share, tally| {
        let mut reader = Reader::new(share, tally);
        texts::of_all_that_matter(share, |text| reader.in_every_way(text));
    });
    report.part("read, each type: every text of up to five bytes that matter", |share, tally| {
        let mut reader = Reader::new(share, tally);
        for format in 0..7 {
            texts::of_alphabet(format, share, |text| {
                Kind::ALL.into_iter().for_each(|kind| reader.call(kind, format, text))
            });
        }
    });
    report.part("read, each type: random texts with a fault or two", |share, tally| {
        let mut reader = Reader::new(share, tally);
        for _ in 0..SPOILT_TEXTS / SHARES {
            reader.spoilt_text();
        }
    });
    report.part("read: faults of the call and of the text at once", |share, tally| {
        let mut reader = Reader::new(share, tally);
        for bits in BAD_BITS.into_iter().chain([8, 64]) {
            for format in BAD_FORMATS.into_iter().chain(0..7) {
                for text in [&b""[..], b"-", b"x", b"007", b"-0", b"99999999999999999999", b"1", b"1e99", b"1E99"] {
                    reader.call(Kind { bits, signed: share == 0 }, format, text);
                }
            }
        }
    });
    beside::close(report);
}

struct Reader<'a> {
    random: Random,
    frame: Frame,
    text: String,
    beside: beside::Counts,
    tally: &'a mut Tally,
}

impl<'a> Reader<'a> {
    fn new(share: u64, tally: &'a mut Tally) -> Self {
        let (random, beside) = (Random::new(SEED + share), beside::Counts::default());
        Reader { random, frame: Frame::new(LONGEST), text: String::new(), beside, tally }
    }

    /// The number must come back, and the judge must say so too.
    fn round_trip(&mut self, kind: Kind, value: u64, format: u32) {
        text_of(&Call::plain(kind, value, format), &mut self.text);
        let text = std::mem::take(&mut self.text);
        let wanted = rules::answer(kind, format, text.as_bytes());
        self.tally.expect(wanted == Answer { number: 0, value }, (value, text.len()), || {
            format!("{kind:?} {text} in format {format}: the judge says {wanted:?}")
        });
        self.call(kind, format, text.as_bytes());
        self.text = text;
    }

    /// Rust's text of a number, with bytes changed, put in or left out, read in its format or another, as its type or another.
    fn spoilt_text(&mut self) {
        let random = &mut self.random;
        let kind = Kind::ALL[random.below(8) as usize];
        let format = random.below(7) as u32;
        text_of(&Call::plain(kind, random.value(kind), format), &mut self.text);
        let mut text = self.text.clone().into_bytes();
        for _ in 0..random.below(3) {
            texts::spoil(&mut text, random);
        }
        let read_as = if random.below(2) == 0 { kind } else { Kind::ALL[random.below(8) as usize] };
        let format = if random.below(8) == 0 { random.below(7) as u32 } else { format };
        self.call(read_as, format, &text);
    }

    fn in_every_way(&mut self, text: &[u8]) {
        for kind in Kind::ALL {
            for format in format::DECIMAL..=format::UPPER_EXP {
                self.call(kind, format, text);
            }
        }
    }

    /// One call, from watched bytes that must stay as they are. Any number but 0 means signed.
    fn call(&mut self, kind: Kind, format: u32, text: &[u8]) {
        let wanted = rules::answer(kind, format, text);
        let lent = self.frame.lend(text.len());
        lent.copy_from_slice(text);
        let signed = if kind.signed { 1 << (text.len() % 32) } else { 0 };
        // SAFETY: a slice is valid for its own length.
        let given = unsafe { raw::lgv_read(kind.bits, signed, format, lent.as_ptr(), lent.len()) };
        let agrees = given == wanted && self.frame.holds(0, text);
        self.tally.count(agrees, (text.len() as u64, format as usize), || {
            let text = text.escape_ascii();
            format!("{kind:?} \"{text}\" in format {format}: {given:?}, wanted {wanted:?}, {}", self.frame.show())
        });
        let agrees = self.beside.agree(kind, format, text, given);
        self.tally.expect(agrees, (text.len() as u64, format as usize), || {
            let text = text.escape_ascii();
            format!(
                "{kind:?} \"{text}\" in format {format}: {given:?}, and Rust's own reading differs in a way not listed"
            )
        });
    }
}
