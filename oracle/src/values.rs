//! The values that every subject is tried on: the limits, and seeded random numbers of random length.

use larguviet::Kind;

/// SplitMix64: every seed gives a good stream, and the same one on every machine.
pub struct Random(u64);

impl Random {
    pub fn new(seed: u64) -> Self {
        Random(seed)
    }

    pub fn next(&mut self) -> u64 {
        self.0 = self.0.wrapping_add(0x9E37_79B9_7F4A_7C15);
        let mut word = self.0;
        word = (word ^ (word >> 30)).wrapping_mul(0xBF58_476D_1CE4_E5B9);
        word = (word ^ (word >> 27)).wrapping_mul(0x94D0_49BB_1331_11EB);
        word ^ (word >> 31)
    }

    /// A number below `bound`, which is not 0.
    pub fn below(&mut self, bound: u64) -> u64 {
        self.next() % bound
    }

    /// A number of at most `bits` bits (1 to 64): of a random bit length, of a random decimal length, or with runs of
    /// zeros or nines inside, where code that works in blocks of digits goes wrong.
    pub fn magnitude(&mut self, bits: u32) -> u64 {
        match self.below(3) {
            0 => self.of_bits(bits),
            1 => self.of_digits(bits),
            _ => self.with_runs(bits),
        }
    }

    /// A value of a type, as a 64-bit two's complement pattern.
    pub fn value(&mut self, kind: Kind) -> u64 {
        if !kind.signed {
            return self.magnitude(kind.bits);
        }
        let magnitude = self.magnitude(kind.bits - 1);
        if self.below(2) == 0 {
            magnitude
        } else {
            magnitude.wrapping_neg()
        }
    }

    fn of_bits(&mut self, most: u32) -> u64 {
        let bits = 1 + self.below(most.into());
        self.next() >> (64 - bits)
    }

    fn of_digits(&mut self, bits: u32) -> u64 {
        let largest = u64::MAX >> (64 - bits);
        let digits = self.below(u64::from(largest.ilog10()) + 1) as u32;
        let low = if digits == 0 { 0 } else { 10u64.pow(digits) };
        let high = 10u64.checked_pow(digits + 1).map_or(largest, |power| largest.min(power - 1));
        low + self.below(high - low + 1)
    }

    /// A short number, moved left by some digits, plus or minus a short number.
    fn with_runs(&mut self, bits: u32) -> u64 {
        let largest = u64::MAX >> (64 - bits);
        let power = 10u64.pow(self.below(u64::from(largest.ilog10()) + 1) as u32);
        let lead = self.of_bits(20).wrapping_mul(power);
        let rest = self.of_bits(20);
        let number = if self.below(2) == 0 { lead.wrapping_add(rest) } else { lead.wrapping_sub(rest) };
        number & largest
    }
}

/// 0, every power of ten and of two with its neighbours (so every limit of every type), and the largest number.
pub fn limits() -> Vec<u64> {
    let powers = |base: u64| (0..64).map_while(move |exponent| base.checked_pow(exponent));
    let mut all: Vec<u64> = powers(10).chain(powers(2)).flat_map(|power| [power - 1, power, power + 1]).collect();
    all.push(u64::MAX - 1);
    all.push(u64::MAX);
    all.sort_unstable();
    all.dedup();
    all
}

/// The limits with both signs, as far as 64 bits go.
pub fn signed_limits() -> Vec<i64> {
    let mut all: Vec<i64> = limits()
        .into_iter()
        .flat_map(|number| [i64::try_from(number).ok(), 0i64.checked_sub_unsigned(number)])
        .flatten()
        .collect();
    all.sort_unstable();
    all.dedup();
    all
}
