//! Numbers that look random, and are the same in each run.

/// A generator by multiplication and addition modulo 2^64.
pub struct Random(pub u64);

impl Random {
    /// Returns any number.
    pub fn bits(&mut self) -> u64 {
        self.0 = self.0.wrapping_mul(6364136223846793005).wrapping_add(1442695040888963407);
        self.0 >> 32 ^ self.0
    }

    /// Returns a number that is less than the limit.
    pub fn below(&mut self, limit: u64) -> u64 {
        self.bits() % limit
    }

    /// Returns a number of any length.
    pub fn number(&mut self) -> u64 {
        let fewer = self.below(64);
        self.bits() >> fewer
    }
}
