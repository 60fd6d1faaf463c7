//! What a list of calls shares, lent with guard bytes around it.

use oracle::calls::{self, Retouch};
use oracle::given::Given;
use oracle::lent::Lent;
use oracle::random::Xorshift;
use oracle::row_ends::{row_ends, RowEnd};

pub struct Buffers<'a> {
    given: &'a Given,
    chain: Lent,
    data: Lent,
    picture: Lent,
    strip: Lent,
}

impl<'a> Buffers<'a> {
    pub fn new(random: &mut Xorshift, given: &'a Given, picture: &[u8], strip: &[u8]) -> Self {
        Self {
            given,
            chain: Lent::new(random, &given.chain),
            data: Lent::new(random, &given.data),
            picture: Lent::new(random, picture),
            strip: Lent::new(random, strip),
        }
    }

    pub fn retouch(&mut self, retouch: Retouch) -> u32 {
        calls::retouch(
            self.given.width,
            self.given.height,
            self.chain.slice(),
            self.data.slice(),
            self.picture.slice_mut(),
            self.strip.slice_mut(),
            retouch,
        )
    }

    /// Every byte of both buffers.
    pub fn check(&self, picture: &[u8], strip: &[u8], after: &str) {
        self.check_buffer("picture", self.picture.slice(), picture, after);
        self.check_buffer("strip", self.strip.slice(), strip, after);
    }

    fn check_buffer(&self, name: &str, bytes: &[u8], expected: &[u8], after: &str) {
        assert!(
            bytes == expected,
            "{name}: of {} bytes the first wrong one is {:?}; {after}, {}",
            expected.len(),
            (0..expected.len()).find(|&i| bytes[i] != expected[i]),
            self.given.shown(),
        );
    }

    /// What is only read has to be unchanged, and so has everything around the slices.
    pub fn check_kept(&self) {
        let given = self.given;
        assert!(self.chain.slice() == given.chain, "{}", given.shown());
        assert!(self.data.slice() == given.data, "{}", given.shown());
        for lent in [&self.chain, &self.data, &self.picture, &self.strip] {
            assert!(lent.kept_around(), "written outside, {}", given.shown());
        }
    }

    /// For buffers of exactly the lengths that are needed.
    pub fn row_ends(&self) -> Vec<RowEnd> {
        row_ends(self.given, self.picture.slice(), self.strip.slice())
    }

    /// The strip of what the picture's buffer holds.
    pub fn stored_afresh(&self, strip_len: usize) -> Vec<u8> {
        stored(self.given, self.picture.slice(), strip_len)
    }
}

/// The strip of an accepted picture by the exported call, in a buffer of this length.
pub fn stored(given: &Given, picture: &[u8], strip_len: usize) -> Vec<u8> {
    let (chain, data) = (&given.chain, &given.data);
    let mut strip = vec![165; strip_len];
    let answer = calls::store(given.width, given.height, chain, data, picture, &mut strip);
    assert_eq!(answer, 0, "{}", given.shown());
    strip
}
