//! Bytes that look random and are the same on every machine.

/// Marsaglia's xorshift on 64 bits.
pub struct Xorshift(u64);

impl Xorshift {
    /// A seed of zero would give zeros for ever.
    pub fn new(seed: u64) -> Self {
        assert_ne!(seed, 0);
        Self(seed)
    }

    pub fn number(&mut self) -> u64 {
        self.0 ^= self.0 << 13;
        self.0 ^= self.0 >> 7;
        self.0 ^= self.0 << 17;
        self.0
    }

    /// The high bits, which are the better ones.
    pub fn byte(&mut self) -> u8 {
        (self.number() >> 56) as u8
    }

    pub fn bytes(&mut self, len: usize) -> Vec<u8> {
        (0..len).map(|_| self.byte()).collect()
    }

    pub fn pixel(&mut self) -> [u8; 4] {
        [(); 4].map(|()| self.byte())
    }

    pub fn below(&mut self, bound: usize) -> usize {
        (self.number() >> 32) as usize % bound
    }

    pub fn choose<T: Copy>(&mut self, from: &[T]) -> T {
        from[self.below(from.len())]
    }

    pub fn shuffle<T>(&mut self, items: &mut [T]) {
        for last in (1..items.len()).rev() {
            items.swap(last, self.below(last + 1));
        }
    }

    /// What a buffer has beyond what is needed: half of the time nothing, else up to `most` bytes.
    pub fn beyond(&mut self, most: usize) -> Vec<u8> {
        let len = match self.below(2) {
            0 => 0,
            _ => 1 + self.below(most),
        };
        self.bytes(len)
    }

    /// Bytes of one of three sorts: any, small steps, which make ties and odd halves, and the ends
    /// of the ranges, which make overflows.
    pub fn residuals(&mut self, len: usize) -> Vec<u8> {
        match self.choose(&[0, 1, 2]) {
            0 => self.bytes(len),
            1 => self.pick(len, &[254, 255, 0, 1, 2]),
            _ => self.pick(len, &[0, 1, 127, 128, 254, 255]),
        }
    }

    fn pick(&mut self, len: usize, from: &[u8]) -> Vec<u8> {
        (0..len).map(|_| self.choose(from)).collect()
    }
}
