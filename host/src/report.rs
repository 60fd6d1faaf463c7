//! Pixels counted by color, over the pictures of a shipment.

mod shares;

use crate::error::before_buffers;
use crate::pixel::pixels;
use crate::{report_into, Error, Picture, Pixel, Size};
use std::fmt;

/// Bytes of a counter.
const COUNTER: usize = 8;

/// How many pixels of each listed color the pictures added so far have, and how many of all others.
///
/// Each count has grown by the pixels of its color in the pictures that were accepted, and the total by
/// all their pixels: that is the library's theorem about every list of reports, accepted or refused.
/// Nothing but [`Report::add`] writes the counters. Colors compare in all four bytes.
///
/// A report is shown as a table: a line for each color in the order of the list, one for all other
/// colors, one for all pixels, each with its count and [share](Report::shares).
#[derive(Clone, Debug, PartialEq, Eq)]
pub struct Report {
    colors: Vec<u8>,
    counters: Vec<u8>,
}

impl Report {
    /// A report on these colors that has counted nothing. The library decides whether it takes the
    /// list: [`crate::Refusal::ColorList`].
    pub fn new(colors: &[Pixel]) -> Result<Self, Error> {
        Self::from_counters(colors, vec![0; COUNTER * (colors.len() + 1)])
    }

    /// A report that goes on from the [counters](Report::counters) of an earlier one on these colors.
    /// Counters of more or fewer colors are [`Error::CounterBytes`].
    pub fn from_counters(colors: &[Pixel], counters: Vec<u8>) -> Result<Self, Error> {
        let bytes: Vec<u8> = colors.iter().flat_map(|color| color.to_bytes()).collect();
        // A list is looked at after the size, and before the buffers.
        before_buffers(report_into(Size::new(1, 1), &[], &bytes, &mut []))?;
        if counters.len() != COUNTER * (colors.len() + 1) {
            return Err(Error::CounterBytes {
                colors: colors.len(),
                given: counters.len(),
            });
        }
        Ok(Self {
            colors: bytes,
            counters,
        })
    }

    /// Counts the pixels of `picture`. Where it is refused, by [`crate::Refusal::SizeOutOfRange`] or
    /// [`crate::Refusal::CounterOverflow`], every count stays.
    pub fn add(&mut self, picture: &Picture) -> Result<(), Error> {
        let (size, picture) = (picture.size(), picture.as_bytes());
        report_into(size, picture, &self.colors, &mut self.counters)
    }

    /// The colors, as they were listed.
    pub fn colors(&self) -> impl ExactSizeIterator<Item = Pixel> + '_ {
        pixels(&self.colors)
    }

    /// How many pixels were of each color, in the order of the list, then of all other colors.
    pub fn counts(&self) -> impl ExactSizeIterator<Item = u64> + '_ {
        let counters = self.counters.chunks_exact(COUNTER);
        counters.map(|counter| u64::from_le_bytes(counter.try_into().expect("it is 8 bytes")))
    }

    /// How many pixels were of this color; none where it is not listed.
    pub fn count(&self, color: Pixel) -> Option<u64> {
        let index = self.colors().position(|listed| listed == color)?;
        self.counts().nth(index)
    }

    /// How many pixels were of no listed color.
    pub fn others(&self) -> u64 {
        self.counts().last().expect("the last counter is theirs")
    }

    /// How many pixels there were. It may be over a `u64`, which each count by itself is not.
    pub fn total(&self) -> u128 {
        self.counts().map(u128::from).sum()
    }

    /// The shares of the [counts](Report::counts) in the total, in hundredths of a percent. They add up
    /// to 10000: each is rounded down, and what that leaves goes to those that lost most by it. Where
    /// nothing was counted they are 0.
    pub fn shares(&self) -> Vec<u32> {
        shares::shares(&self.counts().collect::<Vec<_>>())
    }

    /// The counters as the library has them: each count in 8 bytes, the lowest first.
    pub fn counters(&self) -> &[u8] {
        &self.counters
    }
}

impl fmt::Display for Report {
    fn fmt(&self, f: &mut fmt::Formatter<'_>) -> fmt::Result {
        let (total, shares) = (self.total(), self.shares());
        let width = total.to_string().len().max("pixels".len());
        writeln!(f, "{:<9}  {:>width$}  {:>8}", "color", "pixels", "share")?;
        let colors = self.colors().map(|color| color.to_string());
        let names = colors.chain(["others".into()]);
        for ((name, count), &share) in names.zip(self.counts()).zip(&shares) {
            writeln!(f, "{name:<9}  {count:>width$}  {}", percent(share))?;
        }
        let all = percent(shares.iter().sum());
        write!(f, "{:<9}  {total:>width$}  {all}", "all")
    }
}

fn percent(share: u32) -> String {
    format!("{:>3}.{:02} %", share / 100, share % 100)
}
