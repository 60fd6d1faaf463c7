//! Sizes, points, pictures and strips.

use crate::pixel::pixels;
use crate::{Error, Pixel};
use std::fmt;

/// A width and a height, in pixels, records or blocks. Any two numbers can be said: the library
/// refuses a picture's that are not 1 to 16384.
#[derive(Clone, Copy, Debug, PartialEq, Eq, Hash)]
pub struct Size {
    /// Pixels in a row.
    pub width: u32,
    /// Rows.
    pub height: u32,
}

impl Size {
    /// A width and a height.
    pub const fn new(width: u32, height: u32) -> Self {
        Self { width, height }
    }

    /// Width times height.
    pub const fn pixel_count(self) -> usize {
        (self.width as usize).saturating_mul(self.height as usize)
    }

    /// Four bytes for each pixel, if that is a `usize`.
    pub const fn byte_count(self) -> Option<usize> {
        self.pixel_count().checked_mul(4)
    }
}

impl fmt::Display for Size {
    fn fmt(&self, f: &mut fmt::Formatter<'_>) -> fmt::Result {
        write!(f, "{} by {}", self.width, self.height)
    }
}

/// A place in a picture: its column and its row, both from 0. Any two numbers can be said: the library
/// refuses a point outside.
#[derive(Clone, Copy, Debug, PartialEq, Eq, Hash)]
pub struct Point {
    /// The column.
    pub x: u32,
    /// The row.
    pub y: u32,
}

impl Point {
    /// Column `x` of row `y`.
    pub const fn new(x: u32, y: u32) -> Self {
        Self { x, y }
    }
}

impl fmt::Display for Point {
    fn fmt(&self, f: &mut fmt::Formatter<'_>) -> fmt::Result {
        write!(f, "column {}, row {}", self.x, self.y)
    }
}

/// A picture: rows of pixels, each four bytes R, G, B, A.
#[derive(Clone, Debug, PartialEq, Eq)]
pub struct Picture {
    size: Size,
    bytes: Vec<u8>,
}

impl Picture {
    /// A picture of these bytes, row by row, four for each pixel.
    pub fn from_bytes(size: Size, bytes: Vec<u8>) -> Result<Self, Error> {
        require_byte_count(size, &bytes)?;
        Ok(Self { size, bytes })
    }

    /// A picture of these pixels, row by row.
    pub fn from_pixels(size: Size, pixels: impl IntoIterator<Item = Pixel>) -> Result<Self, Error> {
        let bytes = pixels.into_iter().flat_map(Pixel::to_bytes).collect();
        Self::from_bytes(size, bytes)
    }

    /// Its width and height.
    pub fn size(&self) -> Size {
        self.size
    }

    /// The pixel in column `x` of row `y`, both from 0; none outside.
    pub fn pixel(&self, x: u32, y: u32) -> Option<Pixel> {
        if x >= self.size.width || y >= self.size.height {
            return None;
        }
        let index = y as usize * self.size.width as usize + x as usize;
        pixels(&self.bytes[4 * index..]).next()
    }

    /// Its pixels, row by row.
    pub fn pixels(&self) -> impl ExactSizeIterator<Item = Pixel> + '_ {
        pixels(&self.bytes)
    }

    /// Its bytes, row by row.
    pub fn as_bytes(&self) -> &[u8] {
        &self.bytes
    }

    /// Its bytes, row by row.
    pub fn into_bytes(self) -> Vec<u8> {
        self.bytes
    }

    pub(crate) fn as_bytes_mut(&mut self) -> &mut [u8] {
        &mut self.bytes
    }
}

/// A strip: the records of a picture that a chain leaves for the entropy coder, each four bytes
/// R, G, B, A. Its size is [`crate::Chain::strip_size`].
#[derive(Clone, Debug, PartialEq, Eq)]
pub struct Strip {
    size: Size,
    bytes: Vec<u8>,
}

impl Strip {
    /// A strip of these bytes, row by row, four for each record.
    pub fn from_bytes(size: Size, bytes: Vec<u8>) -> Result<Self, Error> {
        require_byte_count(size, &bytes)?;
        Ok(Self { size, bytes })
    }

    /// Records in a row, and rows.
    pub fn size(&self) -> Size {
        self.size
    }

    /// The record of this index, counted row by row from 0; none past the last.
    pub fn record(&self, index: usize) -> Option<Pixel> {
        let start = index.checked_mul(4)?;
        pixels(self.bytes.get(start..)?).next()
    }

    /// Its records, row by row.
    pub fn records(&self) -> impl ExactSizeIterator<Item = Pixel> + '_ {
        pixels(&self.bytes)
    }

    /// Its bytes, row by row.
    pub fn as_bytes(&self) -> &[u8] {
        &self.bytes
    }

    /// Its bytes, row by row.
    pub fn into_bytes(self) -> Vec<u8> {
        self.bytes
    }

    pub(crate) fn as_bytes_mut(&mut self) -> &mut [u8] {
        &mut self.bytes
    }
}

fn require_byte_count(size: Size, bytes: &[u8]) -> Result<(), Error> {
    let given = bytes.len();
    if size.byte_count() == Some(given) {
        return Ok(());
    }
    Err(Error::ByteCount { size, given })
}

#[cfg(test)]
mod tests {
    use super::*;

    #[test]
    fn byte_count_is_exact() {
        let size = Size::new(3, 2);
        for given in [0, 4, 20, 23, 25, 28, 48] {
            let error = Err(Error::ByteCount { size, given });
            assert_eq!(Picture::from_bytes(size, vec![0; given]), error);
            assert_eq!(
                Strip::from_bytes(size, vec![0; given]).map(|_| ()),
                error.map(|_| ())
            );
        }
        assert!(Picture::from_bytes(size, vec![0; 24]).is_ok());
        assert!(Strip::from_bytes(size, vec![0; 24]).is_ok());
    }

    #[test]
    fn sizes_that_no_memory_holds() {
        let size = Size::new(u32::MAX, u32::MAX);
        assert_eq!(size.byte_count(), None);
        assert!(Picture::from_bytes(size, Vec::new()).is_err());
    }

    #[test]
    fn pixels_stand_row_by_row() {
        let picture = Picture::from_bytes(Size::new(3, 2), (0..24).collect()).unwrap();
        assert_eq!(picture.pixel(0, 0), Some(Pixel::new(0, 1, 2, 3)));
        assert_eq!(picture.pixel(2, 0), Some(Pixel::new(8, 9, 10, 11)));
        assert_eq!(picture.pixel(1, 1), Some(Pixel::new(16, 17, 18, 19)));
        assert_eq!(picture.pixel(3, 0), None);
        assert_eq!(picture.pixel(0, 2), None);
        let again = Picture::from_pixels(picture.size(), picture.pixels());
        assert_eq!(again, Ok(picture));
    }

    #[test]
    fn records_stand_row_by_row() {
        let strip = Strip::from_bytes(Size::new(3, 2), (0..24).collect()).unwrap();
        for (index, record) in strip.records().enumerate() {
            assert_eq!(strip.record(index), Some(record));
        }
        assert_eq!(strip.record(5), Some(Pixel::new(20, 21, 22, 23)));
        for past in [6, 7, usize::MAX / 4 + 1, usize::MAX] {
            assert_eq!(strip.record(past), None);
        }
    }
}
