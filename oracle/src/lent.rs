//! Buffers with guard bytes on both sides.

use crate::random::Xorshift;

/// Enough for a whole row's last record written before or after the slice, or a store of 64 bytes.
const AROUND: usize = 64;

/// Bytes lent from the middle of a longer buffer, at any alignment.
pub struct Lent {
    buffer: Vec<u8>,
    start: usize,
    before: Vec<u8>,
    after: Vec<u8>,
}

impl Lent {
    pub fn new(random: &mut Xorshift, bytes: &[u8]) -> Self {
        let start = AROUND + random.below(16);
        let before = random.bytes(start);
        let after = random.bytes(AROUND);
        Self {
            buffer: [&before, bytes, &after].concat(),
            start,
            before,
            after,
        }
    }

    pub fn slice(&self) -> &[u8] {
        &self.buffer[self.start..self.buffer.len() - AROUND]
    }

    pub fn slice_mut(&mut self) -> &mut [u8] {
        let end = self.buffer.len() - AROUND;
        &mut self.buffer[self.start..end]
    }

    /// Whether the bytes around the slice are as they were.
    pub fn kept_around(&self) -> bool {
        self.buffer.starts_with(&self.before) && self.buffer.ends_with(&self.after)
    }
}
