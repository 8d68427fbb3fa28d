//! Numbers that look random, the same ones in each run.

/// xorshift64*.
pub struct Random(u64);

impl Random {
    pub fn new(seed: u64) -> Random {
        Random(seed | 1)
    }

    pub fn next(&mut self) -> u64 {
        self.0 ^= self.0 >> 12;
        self.0 ^= self.0 << 25;
        self.0 ^= self.0 >> 27;
        self.0.wrapping_mul(0x2545_f491_4f6c_dd1d)
    }

    /// A number below `limit`, which isn't 0.
    pub fn below(&mut self, limit: usize) -> usize {
        (self.next() >> 16) as usize % limit
    }

    /// A number of any size: small ones as often as large ones.
    pub fn number(&mut self) -> u64 {
        let bits = self.below(65) as u32;
        if bits == 0 {
            0
        } else {
            self.next() >> (64 - bits)
        }
    }

    /// As many values as a list has, which may be empty.
    pub fn list<T>(&mut self, mut value: impl FnMut(&mut Random) -> T) -> Vec<T> {
        let length = self.below(9);
        (0..length).map(|_| value(self)).collect()
    }
}
