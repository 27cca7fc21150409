//! Flags, fill, alignment, width and precision in all formats.

use super::{every_value, Call, Worker};
use crate::report::{Report, Tally, SHARES};
use crate::values::Random;
use larguviet::{Kind, Options};

/// The longest text: a width of 65,535 is shorter than what goes around a fraction of 65,535 digits.
const LONGEST: usize = 65_535 + 6;
const RANDOM_CALLS: u64 = 50_000_000;
/// One in so many random calls has a width or a precision of up to 65,535, which takes Rust some 100 times as long.
const SHORT_TO_LONG: u64 = 2_000;
/// Above the longest text without options, which has 64 digits.
const SHORT: u64 = 80;

pub fn run(report: &mut Report) {
    report.part("options u8, i8: every value, flags, alignment, width 0 to 12, format", |share, tally| {
        let mut worker = Worker::new(share, LONGEST, tally);
        for kind in [Kind::U8, Kind::I8] {
            for value in every_value(kind, share) {
                every_layout(kind, value, &mut worker);
            }
        }
    });
    report.part("options, each type: every fill", every_fill);
    report.part("options, each type: every width", |share, tally| {
        let mut worker = Worker::new(share, LONGEST, tally);
        for width in (share..1 << 16).step_by(SHARES as usize) {
            let mut call = any_call(1, 26, &mut worker.random);
            call.options.width = width as u16;
            worker.in_turn(&call, width / SHARES);
        }
        for format in 0..7 {
            let mut call = any_call(1, 1 << 16, &mut worker.random);
            call.format = format;
            call.options.width = u16::MAX;
            worker.around(&call);
        }
    });
    report.part("options, each type: random", |share, tally| {
        let mut worker = Worker::new(share, LONGEST, tally);
        for turn in 0..RANDOM_CALLS / SHARES {
            let call = short_or_long(&mut worker.random);
            worker.in_turn(&call, turn);
        }
    });
}

/// All sets of flags and all alignments at every width to 12, a fill for each; the exponent forms also at precision 2.
fn every_layout(kind: Kind, value: u64, worker: &mut Worker) {
    for flags in 0..8 {
        for align in 0..4 {
            for width in 0..=12 {
                let fill = 32 + worker.random.below(95) as u32;
                let flag = |bit| flags & bit != 0;
                let options =
                    Options { plus: flag(1), alternate: flag(2), zero: flag(4), fill, align, width, precision: None };
                for format in 0..7 {
                    worker.around(&Call { kind, value, format, options });
                }
                for format in 5..7 {
                    worker.around(&Call { kind, value, format, options: Options { precision: Some(2), ..options } });
                }
            }
        }
    }
}

fn every_fill(share: u64, tally: &mut Tally) {
    let mut worker = Worker::new(share, SHORT as usize, tally);
    for fill in (32..=126).skip(share as usize).step_by(SHARES as usize) {
        for kind in Kind::ALL {
            for format in 0..7 {
                for align in 0..4 {
                    let options = Options { fill, align, width: SHORT as u16, ..Options::default() };
                    let value = worker.random.value(kind);
                    worker.around(&Call { kind, value, format, options });
                }
            }
        }
    }
}

/// Mostly a short text.
fn short_or_long(random: &mut Random) -> Call {
    if random.below(SHORT_TO_LONG) == 0 {
        any_call(1 << 16, 1 << 16, random)
    } else {
        any_call(SHORT, 26, random)
    }
}

/// Any call that only the room can refuse, with a width below `widths` and a precision below `precisions`, or none.
pub fn any_call(widths: u64, precisions: u64, random: &mut Random) -> Call {
    let bits = random.next();
    let flag = |bit: u32| bits >> bit & 1 != 0;
    let kind = Kind::ALL[random.below(8) as usize];
    let options = Options {
        plus: flag(0),
        alternate: flag(1),
        zero: flag(2),
        fill: 32 + random.below(95) as u32,
        align: random.below(4) as u32,
        width: if flag(3) { random.below(widths) as u16 } else { 0 },
        precision: flag(4).then(|| random.below(precisions) as u16),
    };
    Call { kind, value: random.value(kind), format: random.below(7) as u32, options }
}
