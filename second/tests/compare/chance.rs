//! Chance with fixed seeds: xorshift64*.

pub struct Chance(u64);

impl Chance {
    pub fn new(seed: u64) -> Chance {
        let mut c = Chance(seed.wrapping_mul(0x9E37_79B9_7F4A_7C15) | 1);
        c.next();
        c.next();
        c
    }

    pub fn next(&mut self) -> u64 {
        self.0 ^= self.0 >> 12;
        self.0 ^= self.0 << 25;
        self.0 ^= self.0 >> 27;
        self.0.wrapping_mul(0x2545_F491_4F6C_DD1D)
    }

    pub fn below(&mut self, n: usize) -> usize {
        (((self.next() >> 32) * n as u64) >> 32) as usize
    }

    /// From `least` to `most`, both included.
    pub fn range(&mut self, least: usize, most: usize) -> usize {
        least + self.below(most - least + 1)
    }

    pub fn one_in(&mut self, n: usize) -> bool {
        self.below(n) == 0
    }

    pub fn flip(&mut self) -> bool {
        self.one_in(2)
    }

    pub fn octet(&mut self) -> u8 {
        self.below(256) as u8
    }

    pub fn octets(&mut self, count: usize) -> Vec<u8> {
        (0..count).map(|_| self.octet()).collect()
    }

    pub fn pick<T: Copy>(&mut self, from: &[T]) -> T {
        from[self.below(from.len())]
    }

    /// An id: small, at an edge, or any.
    pub fn id(&mut self) -> u8 {
        match self.below(3) {
            0 => self.below(6) as u8,
            1 => self.pick(&[0x00, 0x01, 0x7F, 0x80, 0xFF]),
            _ => self.octet(),
        }
    }
}
