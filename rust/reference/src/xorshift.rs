//! Marsaglia's 32-bit xorshift.

/// The numbers after the seed: left 13, right 17, left 5.
#[derive(Clone, Debug)]
pub struct Xorshift {
    state: u32,
}

impl Xorshift {
    /// A generator with this seed, which is not 0.
    pub fn new(seed: u32) -> Xorshift {
        Xorshift { state: seed }
    }
}

impl Iterator for Xorshift {
    type Item = u32;

    fn next(&mut self) -> Option<u32> {
        self.state ^= self.state << 13;
        self.state ^= self.state >> 17;
        self.state ^= self.state << 5;
        Some(self.state)
    }
}
