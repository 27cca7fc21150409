//! The short form: it answers and leaves what lgv_write does at the house default, also where that refuses.

use super::{every_value, judge, refusals, rules, Call, Worker};
use crate::report::{Report, SHARES};
use larguviet::{format, Kind};

const LONGEST: usize = 64;
const RANDOM_CALLS: u64 = 5_000_000;

pub fn run(report: &mut Report) {
    report.part("short form u8, i8, u16, i16: every value and format", |share, tally| {
        let mut worker = Worker::new(share, LONGEST, tally);
        for kind in [Kind::U8, Kind::I8, Kind::U16, Kind::I16] {
            for value in every_value(kind, share) {
                for format in format::DECIMAL..=format::UPPER_EXP {
                    worker.short(&Call::plain(kind, value, format));
                }
            }
        }
    });
    report.part("short form, each type: random, also what is refused", |share, tally| {
        let mut worker = Worker::new(share, LONGEST, tally);
        for _ in 0..RANDOM_CALLS / SHARES {
            let Call { kind, value, format, .. } = refusals::some_call(&mut worker.random);
            worker.short(&Call::plain(kind, value, format));
        }
    });
}

impl Worker<'_> {
    /// Both forms, each into a buffer of a random length.
    fn short(&mut self, call: &Call) {
        let len = self.random.below(LONGEST as u64 + 1) as usize;
        let (wanted, left) = rules::answer(call, len, &mut self.text);
        let given = call.write_short(self.frame.lend(len));
        judge(call, given, wanted, left, &self.frame, self.tally);
        let given = call.write(self.frame.lend(len));
        judge(call, given, wanted, left, &self.frame, self.tally);
    }
}
