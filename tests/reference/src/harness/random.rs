//! A pseudo random generator (xorshift), the same on every run with one seed.

pub struct Random {
    state: u64,
}

impl Random {
    /// A generator for one group; the name keeps groups apart.
    pub fn new(seed: u64, name: &str) -> Random {
        let mix = |state: u64, byte: u8| (state ^ byte as u64).wrapping_mul(0x100_0000_01B3);
        let state = name.bytes().fold(seed ^ 0xCBF2_9CE4_8422_2325, mix);
        Random { state: state.max(1) }
    }

    pub fn next(&mut self) -> u64 {
        self.state ^= self.state >> 12;
        self.state ^= self.state << 25;
        self.state ^= self.state >> 27;
        self.state.wrapping_mul(0x2545_F491_4F6C_DD1D)
    }

    /// A number below the limit.
    pub fn below(&mut self, limit: usize) -> usize {
        ((self.next() >> 32) as usize) % limit
    }

    pub fn byte(&mut self) -> u8 {
        (self.next() >> 56) as u8
    }

    /// Random bytes all through a part.
    pub fn fill(&mut self, part: &mut [u8]) {
        part.fill_with(|| self.byte());
    }

    /// True once in so many.
    pub fn once_in(&mut self, times: usize) -> bool {
        self.below(times) == 0
    }

    pub fn pick<'a, T>(&mut self, items: &'a [T]) -> &'a T {
        &items[self.below(items.len())]
    }
}
