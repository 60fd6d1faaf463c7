//! A pixel by value.

use std::fmt;

/// Four bytes: a color, a residual, or what a block of a transform holds.
#[derive(Clone, Copy, Debug, Default, PartialEq, Eq, PartialOrd, Ord, Hash)]
pub struct Pixel {
    /// Byte 0.
    pub red: u8,
    /// Byte 1.
    pub green: u8,
    /// Byte 2.
    pub blue: u8,
    /// Byte 3.
    pub alpha: u8,
}

impl Pixel {
    /// A pixel of four channels.
    pub const fn new(red: u8, green: u8, blue: u8, alpha: u8) -> Self {
        Self {
            red,
            green,
            blue,
            alpha,
        }
    }

    /// A color with alpha 255.
    pub const fn opaque(red: u8, green: u8, blue: u8) -> Self {
        Self::new(red, green, blue, 255)
    }

    /// A block of the predictor transform, which has its mode in byte 1.
    pub const fn predictor_block(mode: u8) -> Self {
        Self::opaque(0, mode, 0)
    }

    /// A block of the color transform: its factors, each a signed byte.
    pub const fn color_block(red_to_blue: i8, green_to_blue: i8, green_to_red: i8) -> Self {
        Self::opaque(red_to_blue as u8, green_to_blue as u8, green_to_red as u8)
    }

    /// The pixel of four bytes R, G, B, A.
    pub const fn from_bytes([red, green, blue, alpha]: [u8; 4]) -> Self {
        Self::new(red, green, blue, alpha)
    }

    /// The bytes R, G, B, A.
    pub const fn to_bytes(self) -> [u8; 4] {
        [self.red, self.green, self.blue, self.alpha]
    }
}

/// `#rrggbbaa`.
impl fmt::Display for Pixel {
    fn fmt(&self, f: &mut fmt::Formatter<'_>) -> fmt::Result {
        write!(f, "#{:08x}", u32::from_be_bytes(self.to_bytes()))
    }
}

/// The pixels of bytes; bytes after the last whole pixel are none.
pub(crate) fn pixels(bytes: &[u8]) -> impl ExactSizeIterator<Item = Pixel> + '_ {
    bytes
        .chunks_exact(4)
        .map(|pixel| Pixel::new(pixel[0], pixel[1], pixel[2], pixel[3]))
}
