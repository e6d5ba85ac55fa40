//! Numbers that are the same for the same seed (splitmix64).

pub struct Random {
    state: u64,
}

impl Random {
    /// One generator for each seed, group and case, so that a case can be run alone.
    pub fn new(seed: u64, group: u64, case: u64) -> Random {
        let mut random = Random { state: seed };
        random.state = random.number() ^ group.wrapping_mul(0xD6E8_FEB8_6659_FD93);
        random.state = random.number() ^ case;
        random
    }

    pub fn number(&mut self) -> u64 {
        self.state = self.state.wrapping_add(0x9E37_79B9_7F4A_7C15);
        let mut value = self.state;
        value = (value ^ value >> 30).wrapping_mul(0xBF58_476D_1CE4_E5B9);
        value = (value ^ value >> 27).wrapping_mul(0x94D0_49BB_1331_11EB);
        value ^ value >> 31
    }

    /// A number below a limit that is not 0.
    pub fn below(&mut self, limit: usize) -> usize {
        (self.number() % limit as u64) as usize
    }

    /// True once in so many times.
    pub fn once_in(&mut self, times: usize) -> bool {
        self.below(times) == 0
    }

    pub fn byte(&mut self) -> u8 {
        self.number() as u8
    }

    pub fn bytes(&mut self, length: usize) -> Vec<u8> {
        (0..length).map(|_| self.byte()).collect()
    }

    pub fn pick<T: Copy>(&mut self, from: &[T]) -> T {
        from[self.below(from.len())]
    }

    /// Small numbers, powers of two and their neighbours, the largest ones, any number.
    pub fn edge(&mut self) -> u64 {
        match self.below(6) {
            0 => self.below(40) as u64,
            1 => self.pick(&[27, 28, 31, 32, 35, 36, 63, 64, 65, 127, 128, 255, 256, 4095, 4096, 4097, 65_535, 65_536]),
            2 => (1u64 << self.below(64)).wrapping_sub(self.below(3) as u64).wrapping_add(1),
            3 => u64::MAX - self.below(70) as u64,
            4 => u64::from(u32::MAX) - 40 + self.below(80) as u64,
            _ => self.number() >> self.below(64),
        }
    }
}
