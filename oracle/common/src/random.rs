//! Numbers that look random and are the same in every run: Marsaglia's xorshift.

pub struct Random {
    state: u64,
}

impl Random {
    pub fn new(seed: u64) -> Random {
        // An odd multiplier spreads small seeds; xorshift may not start at 0.
        Random { state: seed.wrapping_mul(0x9e3779b97f4a7c15).max(1) }
    }

    pub fn word(&mut self) -> u32 {
        self.state ^= self.state << 13;
        self.state ^= self.state >> 7;
        self.state ^= self.state << 17;
        (self.state >> 32) as u32
    }

    /// A number below a limit that is not 0.
    pub fn below(&mut self, limit: usize) -> usize {
        self.word() as usize % limit
    }

    pub fn one_in(&mut self, count: usize) -> bool {
        self.below(count) == 0
    }
}
