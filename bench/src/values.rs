//! The values: lengths drawn at random and in random order. In order of length, a processor would foresee the
//! branches on which most of the time goes.

pub const COUNT: usize = 32_768;

/// SplitMix64, always from the same seed.
struct Random(u64);

impl Random {
    fn next(&mut self) -> u64 {
        self.0 = self.0.wrapping_add(0x9E37_79B9_7F4A_7C15);
        let mut word = self.0;
        word = (word ^ (word >> 30)).wrapping_mul(0xBF58_476D_1CE4_E5B9);
        word = (word ^ (word >> 27)).wrapping_mul(0x94D0_49BB_1331_11EB);
        word ^ (word >> 31)
    }

    fn of_length(&mut self, most: u32, largest: u64) -> u64 {
        let digits = self.next() as u32 % most;
        let low = if digits == 0 { 0 } else { 10u64.pow(digits) };
        let high = 10u64.checked_pow(digits + 1).map_or(largest, |power| largest.min(power - 1));
        low + self.next() % (high - low + 1)
    }
}

/// 1 to 20 digits.
pub fn unsigned() -> Vec<u64> {
    let mut random = Random(1972);
    (0..COUNT).map(|_| random.of_length(20, u64::MAX)).collect()
}

/// 1 to 19 digits with either sign.
pub fn signed() -> Vec<i64> {
    let mut random = Random(1972);
    (0..COUNT)
        .map(|_| {
            let magnitude = random.of_length(19, i64::MAX as u64) as i64;
            if random.next() & 1 == 0 {
                magnitude
            } else {
                -magnitude
            }
        })
        .collect()
}
