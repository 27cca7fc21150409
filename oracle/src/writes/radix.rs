//! Binary, octal, lower and upper hex.

use super::{every_value, widened, Call, Worker};
use crate::report::{Report, Tally, SHARES};
use crate::values::limits;
use larguviet::{format, Kind};

const FORMATS: [u32; 4] = [format::BINARY, format::OCTAL, format::LOWER_HEX, format::UPPER_HEX];
const LONGEST: usize = 64;
const RANDOM_CALLS: u64 = 10_000_000;

pub fn run(report: &mut Report) {
    report.part("radix u8, i8: every value, every length", |share, tally| {
        let mut worker = Worker::new(share, LONGEST, tally);
        for call in every_call([Kind::U8, Kind::I8], share) {
            worker.every_length(&call, 10);
        }
    });
    report.part("radix u16, i16: every value, the lengths around", |share, tally| {
        let mut worker = Worker::new(share, LONGEST, tally);
        every_call([Kind::U16, Kind::I16], share).for_each(|call| worker.around(&call));
    });
    report.part("radix, each type: the limits, every length", |share, tally| {
        let mut worker = Worker::new(share, LONGEST, tally);
        for number in limits().into_iter().skip(share as usize).step_by(SHARES as usize) {
            for (kind, format) in Kind::ALL.into_iter().flat_map(in_each_format) {
                worker.every_length(&Call::plain(kind, widened(kind, number), format), LONGEST + 2);
                worker.every_length(&Call::plain(kind, widened(kind, number.wrapping_neg()), format), LONGEST + 2);
            }
        }
    });
    report.part("radix u32, i32: random", |share, tally| random([Kind::U32, Kind::I32], share, tally));
    report.part("radix u64, i64: random", |share, tally| random([Kind::U64, Kind::I64], share, tally));
}

fn in_each_format(kind: Kind) -> impl Iterator<Item = (Kind, u32)> {
    FORMATS.into_iter().map(move |format| (kind, format))
}

fn every_call(kinds: [Kind; 2], share: u64) -> impl Iterator<Item = Call> {
    kinds
        .into_iter()
        .flat_map(in_each_format)
        .flat_map(move |(kind, format)| every_value(kind, share).map(move |value| Call::plain(kind, value, format)))
}

fn random(kinds: [Kind; 2], share: u64, tally: &mut Tally) {
    let mut worker = Worker::new(share, LONGEST, tally);
    for turn in 0..RANDOM_CALLS / SHARES {
        let kind = kinds[worker.random.below(2) as usize];
        let format = FORMATS[worker.random.below(4) as usize];
        let value = worker.random.value(kind);
        worker.in_turn(&Call::plain(kind, value, format), turn);
    }
}
