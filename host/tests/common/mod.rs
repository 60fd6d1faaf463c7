//! Bytes that look random and are the same on every machine.

use letchwater::Pixel;

/// Marsaglia's xorshift on 64 bits.
pub struct Xorshift(u64);

impl Xorshift {
    /// A seed of zero would give zeros for ever.
    pub fn new(seed: u64) -> Self {
        assert_ne!(seed, 0);
        Self(seed)
    }

    /// The high bits, which are the better ones.
    pub fn byte(&mut self) -> u8 {
        self.0 ^= self.0 << 13;
        self.0 ^= self.0 >> 7;
        self.0 ^= self.0 << 17;
        (self.0 >> 56) as u8
    }

    pub fn bytes(&mut self, len: usize) -> Vec<u8> {
        (0..len).map(|_| self.byte()).collect()
    }

    pub fn pixels(&mut self, count: usize) -> Vec<Pixel> {
        let bytes = self.bytes(4 * count);
        let pixels = bytes.chunks(4);
        pixels
            .map(|pixel| Pixel::new(pixel[0], pixel[1], pixel[2], pixel[3]))
            .collect()
    }
}
