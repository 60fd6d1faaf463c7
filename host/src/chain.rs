//! Chains: the records of the transforms, and the data that they name.

mod step;

pub(crate) use step::Step;

use crate::error::before_buffers;
use crate::{rebuild_in_place, Error, Pixel, Size};

/// Bytes of a record.
const RECORD: usize = 16;

#[derive(Clone, Copy)]
enum Kind {
    Predictor = 0,
    Color = 1,
    SubtractGreen = 2,
    ColorTable = 3,
}

/// The transforms of a picture, in the order in which the file gives them. Storing applies them
/// from the first, rebuilding undoes them from the last.
///
/// A chain is built from the empty one, a transform at a time. What is given is laid out as it is,
/// wrong or not: the library decides whether the chain is valid, when it is used or asked by
/// [`Chain::check`].
///
/// ```
/// use letchwater::{Chain, Pixel, Size};
///
/// let chain = Chain::new(Size::new(100, 40)).color_table(&[Pixel::opaque(90, 95, 102); 3]);
/// assert_eq!(chain.strip_size(), Size::new(25, 40));
/// assert_eq!(chain.blocks(4), Size::new(2, 3));
/// let chain = chain.predictor(4, &[Pixel::predictor_block(11); 6]);
/// assert_eq!(chain.check(), Ok(()));
/// ```
#[derive(Clone, Debug, PartialEq, Eq)]
pub struct Chain {
    size: Size,
    records: Vec<u8>,
    data: Vec<u8>,
}

impl Chain {
    /// The empty chain, for pictures of this size.
    pub fn new(size: Size) -> Self {
        Self::from_parts(size, Vec::new(), Vec::new())
    }

    /// A chain of records and data that were laid out before.
    pub fn from_parts(size: Size, records: Vec<u8>, data: Vec<u8>) -> Self {
        Self {
            size,
            records,
            data,
        }
    }

    /// Adds the predictor transform. [`Chain::blocks`] says how many blocks it takes; they stand
    /// row by row, and each has its mode in byte 1 ([`Pixel::predictor_block`]).
    #[must_use]
    pub fn predictor(self, bits: u8, blocks: &[Pixel]) -> Self {
        self.with(Kind::Predictor, bits, 0, blocks)
    }

    /// Adds the color transform. [`Chain::blocks`] says how many blocks it takes; they stand row by
    /// row, and each has its factors in bytes 0 to 2 ([`Pixel::color_block`]).
    #[must_use]
    pub fn color(self, bits: u8, blocks: &[Pixel]) -> Self {
        self.with(Kind::Color, bits, 0, blocks)
    }

    /// Adds the subtract green transform.
    #[must_use]
    pub fn subtract_green(mut self) -> Self {
        self.push(Kind::SubtractGreen, 0, 0, 0, 0);
        self
    }

    /// Adds the color table. Its entries are finished ones, as [`crate::adjust_color_map`] leaves
    /// them. From here on a row has the fewer, packed pixels of [`Chain::strip_size`].
    #[must_use]
    pub fn color_table(self, entries: &[Pixel]) -> Self {
        // More than a `u16` holds are refused as 65535 are.
        let size = u16::try_from(entries.len()).unwrap_or(u16::MAX);
        self.with(Kind::ColorTable, 0, size, entries)
    }

    /// A record, and its data after those that are there.
    fn with(mut self, kind: Kind, bits: u8, size: u16, pixels: &[Pixel]) -> Self {
        let start = self.data.len();
        let bytes = pixels.iter().flat_map(|pixel| pixel.to_bytes());
        self.data.extend(bytes);
        let (offset, length) = part(start, self.data.len() - start);
        self.push(kind, bits, size, offset, length);
        self
    }

    fn push(&mut self, kind: Kind, bits: u8, size: u16, offset: u32, length: u32) {
        self.records.extend([kind as u8, bits]);
        self.records.extend(size.to_le_bytes());
        self.records.extend(offset.to_le_bytes());
        self.records.extend(length.to_le_bytes());
        self.records.extend([0; 4]);
    }

    /// The size of the pictures.
    pub fn size(&self) -> Size {
        self.size
    }

    /// The size of the strips: the current width after the last record, and the picture's height.
    pub fn strip_size(&self) -> Size {
        let last = self.steps().last();
        let width = last.map_or(self.size.width, |step| step.width_after());
        Size::new(width, self.size.height)
    }

    /// The records in order, each with the current width at its turn.
    pub(crate) fn steps(&self) -> impl Iterator<Item = Step> + '_ {
        let records = self.records.chunks_exact(RECORD);
        records.scan(self.size.width, |width, record| {
            let step = Step::read(record, *width);
            *width = step.width_after();
            Some(step)
        })
    }

    /// How many blocks a predictor or color transform takes that is added next: columns and rows.
    pub fn blocks(&self, bits: u8) -> Size {
        let side = 1_u32.checked_shl(bits.into()).unwrap_or(u32::MAX);
        let Size { width, height } = self.strip_size();
        Size::new(width.div_ceil(side), height.div_ceil(side))
    }

    /// The records, 16 bytes each.
    pub fn records(&self) -> &[u8] {
        &self.records
    }

    /// The data that the records name.
    pub fn data(&self) -> &[u8] {
        &self.data
    }

    /// Whether the library takes the size and the chain: refusals 1 to 7.
    ///
    /// It is asked to rebuild in a buffer of no bytes, which it refuses by 8 exactly where none of
    /// these applies.
    pub fn check(&self) -> Result<(), Error> {
        before_buffers(rebuild_in_place(self, &mut []))
    }
}

/// The fields offset and length. Where one of them is over a `u32`, the length is one that no kind
/// has: the record is then refused, and never read as another.
fn part(offset: usize, length: usize) -> (u32, u32) {
    match (offset.try_into(), length.try_into()) {
        (Ok(offset), Ok(length)) => (offset, length),
        _ => (0, u32::MAX),
    }
}

#[cfg(test)]
mod tests;
