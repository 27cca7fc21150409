//! Refused calls on purpose: every set of simultaneous faults, with the numbers that a narrower code would let through.

use super::{any_call, ends_of, judge, rules, widened, Call, Worker};
use crate::report::{Report, SHARES};
use crate::values::Random;
use larguviet::{raw, refusal, Kind};

const CALLS: u64 = 4_000_000;
/// Sets of the five faults of `with_faults`; the room is a sixth.
const SETS: u64 = 1 << 5;
const LONGEST: usize = 160;

/// Cut to 8 or 16 bits, or taken as signed, most of these are good codes.
const BAD_BITS: [u32; 18] =
    [0, 1, 7, 9, 15, 17, 31, 33, 63, 65, 128, 256, 256 + 8, 65_536 + 16, 70_000, 1 << 31, u32::MAX - 7, u32::MAX];
const BAD_FORMATS: [u32; 8] = [7, 8, 255, 256, 256 + 3, 65_536 + 5, 70_000, u32::MAX];
const BAD_ALIGNS: [u32; 8] = [4, 5, 255, 256, 256 + 1, 65_536 + 2, 70_000, u32::MAX];
const BAD_FILLS: [u32; 10] = [0, 1, 31, 127, 128, 255, 256 + 32, 65_536 + 42, 70_000, u32::MAX];

pub fn run(report: &mut Report) {
    report.part("refusals: every set of simultaneous faults", |share, tally| {
        let mut worker = Worker::new(share, LONGEST, tally);
        for turn in 0..CALLS / SHARES {
            let call = with_faults(turn % SETS, &mut worker.random);
            let room = turn / SETS % 2 == 0;
            worker.with_or_without(room, &call);
        }
    });
    report.part("refusals: every bad code alone, with and without room", |share, tally| {
        let mut worker = Worker::new(share, LONGEST, tally);
        for call in one_fault(&mut Random::new(share)) {
            worker.with_or_without(false, &call);
            worker.with_or_without(true, &call);
        }
    });
    report.part("flags: any number but 0 sets one", |share, tally| {
        let mut worker = Worker::new(share, LONGEST, tally);
        for _ in 0..CALLS / SHARES {
            worker.with_wide_flags();
        }
    });
}

/// A call with the faults whose bits are set: 1 type, 2 value, 4 format, 8 alignment, 16 fill.
fn with_faults(set: u64, random: &mut Random) -> Call {
    let mut call = any_call(40, 30, random);
    if set & 2 != 0 {
        call.value = outside(call.kind, random);
    }
    if set & 1 != 0 {
        call.kind.bits = one_of(&BAD_BITS, random);
    }
    if set & 4 != 0 {
        call.format = one_of(&BAD_FORMATS, random);
    }
    if set & 8 != 0 {
        call.options.align = one_of(&BAD_ALIGNS, random);
    }
    if set & 16 != 0 {
        call.options.fill = one_of(&BAD_FILLS, random);
    }
    call
}

/// A call of which most are good and some have faults.
pub fn some_call(random: &mut Random) -> Call {
    let set = if random.below(4) == 0 { random.below(SETS) } else { 0 };
    with_faults(set, random)
}

fn one_fault(random: &mut Random) -> Vec<Call> {
    let good = with_faults(0, random);
    let mut all = vec![good];
    all.extend(BAD_BITS.map(|bits| Call { kind: Kind { bits, ..good.kind }, ..good }));
    all.extend(BAD_FORMATS.map(|format| Call { format, ..good }));
    for (align, fill) in BAD_ALIGNS.map(|align| (align, 32)).into_iter().chain(BAD_FILLS.map(|fill| (0, fill))) {
        let mut call = good;
        call.options.align = align;
        call.options.fill = fill;
        all.push(call);
    }
    for kind in Kind::ALL.into_iter().filter(|kind| kind.bits < 64) {
        let [least, greatest] = ends_of(kind);
        for value in [least, least.wrapping_sub(1), greatest, greatest + 1, 1 << 63, u64::MAX, u64::MAX >> 1] {
            all.push(Call { kind, value, ..good });
        }
    }
    all
}

/// A pattern that is no value of the type, often by a bit only; every pattern is one of a type of 64 bits.
fn outside(kind: Kind, random: &mut Random) -> u64 {
    if kind.bits == 64 {
        return random.next();
    }
    let inside = random.value(kind);
    let above = kind.bits - u32::from(kind.signed);
    match random.below(3) {
        0 => inside ^ 1 << (u64::from(above) + random.below(u64::from(64 - above))),
        1 => widened(kind, 1 << above).wrapping_neg(),
        _ => random.next() | 1 << above,
    }
}

fn one_of(codes: &[u32], random: &mut Random) -> u32 {
    codes[random.below(codes.len() as u64) as usize]
}

impl Worker<'_> {
    /// Into a buffer with room for any text here, or into one that has none; of a call without a text, into some bytes.
    fn with_or_without(&mut self, room: bool, call: &Call) {
        let (wanted, _) = rules::answer(call, 0, &mut self.text);
        let short_of = if wanted.number == refusal::NO_ROOM { wanted.value } else { 4 };
        let len = if room { LONGEST } else { self.random.below(short_of) as usize };
        let (wanted, left) = rules::answer(call, len, &mut self.text);
        let given = call.write(self.frame.lend(len));
        judge(call, given, wanted, left, &self.frame, self.tally);
    }

    /// A call whose flags, signedness and "precision given" are numbers of 32 bits.
    fn with_wide_flags(&mut self) {
        let call = some_call(&mut self.random);
        let (wanted, left) = rules::answer(&call, LONGEST, &mut self.text);
        let Call { kind, value, format, options } = call;
        let mut flag = |set: bool| if set { 1 << self.random.below(32) | self.random.next() as u32 } else { 0 };
        let [signed, plus, alternate, zero, given] =
            [kind.signed, options.plus, options.alternate, options.zero, options.precision.is_some()].map(&mut flag);
        // What is not given must not matter.
        let precision = options.precision.unwrap_or(value as u16);
        let out = self.frame.lend(LONGEST);
        // SAFETY: a slice is valid for its own length.
        let answer = unsafe {
            raw::lgv_write(
                kind.bits,
                signed,
                value,
                format,
                plus,
                alternate,
                zero,
                options.fill,
                options.align,
                options.width,
                given,
                precision,
                out.as_mut_ptr(),
                out.len(),
            )
        };
        judge(&call, answer, wanted, left, &self.frame, self.tally);
    }
}
