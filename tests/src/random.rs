//! Pseudo-random figures: Marsaglia's xorshift on 64 bits, from fixed seeds, so that every run tries the same cases.

pub struct Random(u64);

impl Random {
    pub fn new(seed: u64) -> Random {
        let mut random = Random(seed ^ 0x2545_F491_4F6C_DD1D);
        if random.0 == 0 {
            random.0 = 1;
        }
        for _ in 0..16 {
            random.next();
        }
        random
    }

    pub fn next(&mut self) -> u64 {
        self.0 ^= self.0 << 13;
        self.0 ^= self.0 >> 7;
        self.0 ^= self.0 << 17;
        self.0
    }

    /// From `low` to `high`, both included.
    pub fn between(&mut self, low: u64, high: u64) -> u64 {
        let span = (high - low) as u128 + 1;
        low + (self.next() as u128 % span) as u64
    }

    /// True `percent` times in a hundred.
    pub fn chance(&mut self, percent: u64) -> bool {
        self.between(1, 100) <= percent
    }

    /// Any figure of at most `bits` bits.
    pub fn of_bits(&mut self, bits: u64) -> u64 {
        match bits {
            0 => 0,
            n => self.next() >> (64 - n),
        }
    }

    /// A figure of at most `bits` bits, each number of bits equally likely.
    pub fn sized(&mut self, bits: u64) -> u64 {
        let bits = self.between(0, bits);
        self.of_bits(bits)
    }

    pub fn pick<T: Copy>(&mut self, list: &[T]) -> T {
        list[self.between(0, list.len() as u64 - 1) as usize]
    }
}
