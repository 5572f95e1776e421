//! A small generator of random numbers: SplitMix64, so that a seed and a number give the same case everywhere.

pub struct Random(u64);

impl Random {
    /// The generator of case `number` under `seed`.
    pub fn of_case(seed: u64, number: u64) -> Random {
        let mut random = Random(seed);
        random.0 = random.next() ^ number.wrapping_mul(0xD1B5_4A32_D192_ED03);
        random
    }

    /// The generator that a case's own bytes give.
    pub fn of_bytes(bytes: &[u8]) -> Random {
        let mut random = Random(bytes.len() as u64);
        for &byte in bytes {
            random.0 = random.0.wrapping_mul(0x0000_0100_0000_01B3) ^ u64::from(byte);
        }
        random
    }

    /// The next 64 bits.
    fn next(&mut self) -> u64 {
        self.0 = self.0.wrapping_add(0x9E37_79B9_7F4A_7C15);
        let mut z = self.0;
        z = (z ^ (z >> 30)).wrapping_mul(0xBF58_476D_1CE4_E5B9);
        z = (z ^ (z >> 27)).wrapping_mul(0x94D0_49BB_1331_11EB);
        z ^ (z >> 31)
    }

    /// From 0 up to, but not including, `bound`.
    pub fn below(&mut self, bound: usize) -> usize {
        (self.next() % bound as u64) as usize
    }

    /// From `low` to `high`, both included.
    pub fn between(&mut self, low: i64, high: i64) -> i64 {
        low + (self.next() % (high - low + 1) as u64) as i64
    }

    /// Of any size from 1 to `high`, small and large ones alike.
    pub fn of_any_size(&mut self, high: u64) -> u64 {
        let bits = self.below(64 - high.leading_zeros() as usize) + 1;
        1 + self.next() % (1u64 << bits).min(high)
    }

    /// True once in `times`.
    pub fn once_in(&mut self, times: usize) -> bool {
        self.below(times) == 0
    }

    /// One of these.
    pub fn pick<T: Copy>(&mut self, from: &[T]) -> T {
        from[self.below(from.len())]
    }

    /// Any byte.
    pub fn byte(&mut self) -> u8 {
        self.next() as u8
    }

    /// Puts the items into any order.
    pub fn shuffle<T>(&mut self, items: &mut [T]) {
        for i in (1..items.len()).rev() {
            items.swap(i, self.below(i + 1));
        }
    }
}
