//! A record at its turn: how pixels before it lie in pixels after it.

use super::Kind;

/// As much of a record as says where pixels go.
#[derive(Clone, Copy, Debug, PartialEq, Eq)]
pub(crate) struct Step {
    /// Whether it is the predictor.
    pub is_predictor: bool,
    /// The current width before it.
    pub width: u32,
    /// How many pixels of a row lie in one pixel after it: 1, or more where a color table packs.
    pub packed: u32,
}

impl Step {
    /// The fields of `record`, wrong or not.
    pub(super) fn read(record: &[u8], width: u32) -> Self {
        let is = |kind: Kind| record[0] == kind as u8;
        let size = u16::from_le_bytes([record[2], record[3]]);
        let packed = is(Kind::ColorTable).then(|| indices(size));
        Self {
            is_predictor: is(Kind::Predictor),
            width,
            packed: packed.unwrap_or(1),
        }
    }

    /// The current width after it.
    pub fn width_after(self) -> u32 {
        self.width.div_ceil(self.packed)
    }

    /// The pixel after it in which pixel `index` before it lies, both counted row by row.
    pub fn pixel_after(self, index: usize) -> usize {
        let width = self.width as usize;
        let (row, column) = (index / width, index % width);
        row * self.width_after() as usize + column / self.packed as usize
    }
}

/// How many indices a packed pixel holds under a table of this size.
fn indices(size: u16) -> u32 {
    match size {
        0..=2 => 8,
        3..=4 => 4,
        5..=16 => 2,
        _ => 1,
    }
}
