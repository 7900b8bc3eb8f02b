//! Random words, for the tests and for the programs that compare.

/// The generator splitmix64.
pub struct Random(u64);

impl Random {
    /// The generator of one case, by seed and index.
    pub fn of(seed: u64, index: u64) -> Random {
        let base = Random(seed).word();
        let mixed = Random(base ^ index.wrapping_mul(0xd134_2543_de82_ef95)).word();
        Random(mixed)
    }

    /// 64 bits.
    pub fn word(&mut self) -> u64 {
        self.0 = self.0.wrapping_add(0x9e37_79b9_7f4a_7c15);
        let mut word = self.0;
        word = (word ^ (word >> 30)).wrapping_mul(0xbf58_476d_1ce4_e5b9);
        word = (word ^ (word >> 27)).wrapping_mul(0x94d0_49bb_1331_11eb);
        word ^ (word >> 31)
    }

    /// A number below the bound, which is 1 or more.
    pub fn below(&mut self, bound: usize) -> usize {
        ((u128::from(self.word()) * bound as u128) >> 64) as usize
    }

    pub fn between(&mut self, low: usize, high: usize) -> usize {
        low + self.below(high - low + 1)
    }

    /// True once in so many times; never for 0.
    pub fn once_in(&mut self, odds: usize) -> bool {
        odds != 0 && self.below(odds) == 0
    }

    pub fn pick<T: Copy>(&mut self, from: &[T]) -> T {
        from[self.below(from.len())]
    }

    /// 8 bits.
    pub fn byte(&mut self) -> u8 {
        self.word() as u8
    }
}
