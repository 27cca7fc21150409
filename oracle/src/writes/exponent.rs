//! The exponent forms: without precision, and rounded to every number of fraction digits.

use super::{every_value, widened, Call, Worker};
use crate::report::{Report, Tally, SHARES};
use crate::values::{limits, Random};
use larguviet::{format, Kind, Options};

const FORMATS: [u32; 2] = [format::LOWER_EXP, format::UPPER_EXP];
/// More than any number has digits.
const LARGE: u64 = 24;
/// What is not a fraction digit: a minus, the lead, the point, the letter and two digits.
const AROUND_FRACTION: usize = 6;
const RANDOM_CALLS: u64 = 10_000_000;
/// Random prefixes of each length, beside those that round up to the next one and those that must not.
const PREFIXES: usize = 8;

pub fn run(report: &mut Report) {
    report.part("exponent u8, i8: every value, precisions none and 0 to 6", |share, tally| {
        every([Kind::U8, Kind::I8], share, tally)
    });
    report.part("exponent u16, i16: every value, precisions none and 0 to 6", |share, tally| {
        every([Kind::U16, Kind::I16], share, tally)
    });
    report.part("exponent, each type: the limits, precisions none and 0 to 24", |share, tally| {
        let mut worker = Worker::new(share, LARGE as usize + AROUND_FRACTION, tally);
        for number in limits().into_iter().skip(share as usize).step_by(SHARES as usize) {
            at_precisions(number, LARGE as u16, &mut worker);
        }
    });
    report.part("exponent, each type: ties and their neighbours, every prefix length", |share, tally| {
        let mut worker = Worker::new(share, LARGE as usize + AROUND_FRACTION, tally);
        for number in ties().into_iter().skip(share as usize).step_by(SHARES as usize) {
            at_precisions(number, number.ilog10() as u16, &mut worker);
        }
    });
    report.part("exponent, each type: random, precisions none and 0 to 24", |share, tally| {
        let mut worker = Worker::new(share, LARGE as usize + AROUND_FRACTION, tally);
        for turn in 0..RANDOM_CALLS / SHARES {
            let precision = worker.random.below(LARGE + 2).checked_sub(1);
            random_call(precision, turn, &mut worker);
        }
    });
    report.part("exponent, each type: every precision", |share, tally| {
        let mut worker = Worker::new(share, u16::MAX as usize + AROUND_FRACTION, tally);
        for precision in (share..1 << 16).step_by(SHARES as usize) {
            random_call(Some(precision), precision / SHARES, &mut worker);
        }
        for format in FORMATS {
            worker.around(&exponent(Kind::I64, i64::MIN as u64, format, Some(u16::MAX)));
        }
    });
}

fn every(kinds: [Kind; 2], share: u64, tally: &mut Tally) {
    let mut worker = Worker::new(share, LARGE as usize, tally);
    for kind in kinds {
        for value in every_value(kind, share) {
            rounded(kind, value, 6, &mut worker);
        }
    }
}

/// The number and its negative, in each type, without precision and with 0 to `most`.
fn at_precisions(number: u64, most: u16, worker: &mut Worker) {
    for kind in Kind::ALL {
        for value in [number, number.wrapping_neg()] {
            if widened(kind, value) == value {
                rounded(kind, value, most, worker);
            }
        }
    }
}

fn rounded(kind: Kind, value: u64, most: u16, worker: &mut Worker) {
    for precision in std::iter::once(None).chain((0..=most).map(Some)) {
        for format in FORMATS {
            worker.around(&exponent(kind, value, format, precision));
        }
    }
}

fn random_call(precision: Option<u64>, turn: u64, worker: &mut Worker) {
    let kind = Kind::ALL[worker.random.below(8) as usize];
    let value = worker.random.value(kind);
    let format = FORMATS[worker.random.below(2) as usize];
    worker.in_turn(&exponent(kind, value, format, precision.map(|digits| digits as u16)), turn);
}

fn exponent(kind: Kind, value: u64, format: u32, precision: Option<u16>) -> Call {
    Call { kind, value, format, options: Options { precision, ..Options::default() } }
}

/// Numbers that lie half way between two shorter ones, or just beside: a prefix and then 5, 50, .., 49, 51, 499, 501, ..
fn ties() -> Vec<u64> {
    let mut random = Random::new(super::SEED);
    let mut all = Vec::new();
    for tail in 1..=19 {
        let unit = 10u64.pow(tail);
        for length in 1..=20 - tail {
            for prefix in prefixes(length, &mut random) {
                let tie = prefix.checked_mul(unit).and_then(|number| number.checked_add(unit / 2));
                all.extend(tie.into_iter().flat_map(|tie| [tie - 1, tie, tie + 1]));
            }
        }
    }
    all.sort_unstable();
    all.dedup();
    all
}

/// Numbers of so many digits: the least, the greatest and those beside them, so both odd and even, and a few more.
fn prefixes(length: u32, random: &mut Random) -> Vec<u64> {
    let least = 10u64.pow(length - 1);
    let greatest = least.saturating_mul(10) - 1;
    let mut all = vec![least, least + 1, greatest - 1, greatest];
    all.extend((0..PREFIXES).map(|_| least + random.below(greatest - least + 1)));
    all
}
