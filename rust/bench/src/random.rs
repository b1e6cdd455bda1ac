//! Numbers that look random and are the same in every run.

/// An xorshift generator; its state is never 0.
pub struct Random(u64);

impl Random {
    pub fn new(seed: u64) -> Random {
        Random(seed.wrapping_mul(0x9E37_79B9_7F4A_7C15) | 1)
    }

    fn next(&mut self) -> u64 {
        self.0 ^= self.0 << 13;
        self.0 ^= self.0 >> 7;
        self.0 ^= self.0 << 17;
        self.0
    }

    /// A number below `bound`, which is above 0. The upper bits are taken, as the lower are weak.
    pub fn below(&mut self, bound: u8) -> u8 {
        ((self.next() >> 32) % u64::from(bound)) as u8
    }
}
