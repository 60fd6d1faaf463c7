//! The plain desk of document 01: it holds a picture only, and stores it afresh for every answer.

use super::chain::Chain;
use super::forward::{Pixel, Unused};
use super::spots::mask;
use super::{pixels, stored};
use crate::calls::Retouch;

pub struct Desk<'a> {
    chain: Chain<'a>,
    picture: Vec<Pixel>,
}

impl<'a> Desk<'a> {
    /// The first picture stands at the front of `picture`, and storing accepts it.
    pub fn new(chain: Chain<'a>, picture: &[u8]) -> Self {
        let picture = pixels(&picture[..chain.picture_len()]);
        Self { chain, picture }
    }

    /// The answer to a call. After 9 or 22 the desk holds what it held.
    pub fn answer(&mut self, retouch: Retouch) -> u32 {
        let Some(pixel) = self.chain.pixel_of(retouch) else {
            return 9;
        };
        let mut new = self.picture.clone();
        new[pixel] = retouch.color;
        let Some(after) = stored(&self.chain, Unused::LastIndex, &new) else {
            return 22;
        };
        let before = self.stored();
        self.picture = new;
        let differs = |record: usize| before[record] != after[record];
        let count = (0..after.len()).filter(|&record| differs(record)).count();
        let mask = mask(&self.chain.spot_records(pixel), differs);
        256 + 32 * count as u32 + mask
    }

    pub fn picture(&self) -> &[u8] {
        self.picture.as_flattened()
    }

    /// The held picture's strip.
    pub fn strip(&self) -> Vec<u8> {
        self.stored().into_flattened()
    }

    fn stored(&self) -> Vec<Pixel> {
        stored(&self.chain, Unused::LastIndex, &self.picture).expect("the held picture is accepted")
    }
}
