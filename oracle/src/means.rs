//! Document 02 (iii), the mean: maps on which every two bytes meet among the neighbors of a pixel.

use crate::given::{record, Given, PREDICTOR};

/// The modes that take a mean.
pub const MODES: [u8; 7] = [5, 6, 7, 8, 9, 10, 13];

/// Which neighbors have the second of two bytes: bit 0 is T's, bit 1 TR's and bit 2 TL's. L and the
/// others have the first. For each mean that a mode takes, at least one of these has the first
/// byte on one side and the second on the other.
pub const SECOND_AT: std::ops::Range<u8> = 1..8;

/// A map is this many cells wide and high; a cell is three columns by two rows. The neighbors of the
/// lower row's middle pixel are in its cell.
const CELLS: u32 = 128;
const WIDTH: u32 = 3 * CELLS;
const HEIGHT: u32 = 2 * CELLS;

/// One mode in every block.
pub fn given(mode: u8, bits: u8) -> Given {
    let blocks = WIDTH.div_ceil(1 << bits) * HEIGHT.div_ceil(1 << bits);
    let data = [0, mode, 0, 0].repeat(blocks as usize);
    Given {
        width: WIDTH,
        height: HEIGHT,
        chain: record(PREDICTOR, bits, 0, 0, data.len() as u32),
        data,
    }
}

/// Every two bytes in some channel of some cell.
pub fn map(second_at: u8) -> Vec<u8> {
    let width = WIDTH as usize;
    let mut map = vec![[0; 4]; (WIDTH * HEIGHT) as usize];
    for (cell, (x, y)) in middles().enumerate() {
        let pairs = [0, 1, 2, 3].map(|channel| (4 * cell + channel) as u16);
        let first = pairs.map(|pair| (pair >> 8) as u8);
        let second = pairs.map(|pair| pair as u8);
        let neighbor = |bit: u8| match second_at >> bit & 1 {
            1 => second,
            _ => first,
        };
        let at = y as usize * width + x as usize;
        map[at - 1] = first;
        map[at - width] = neighbor(0);
        map[at - width + 1] = neighbor(1);
        map[at - width - 1] = neighbor(2);
    }
    map.into_flattened()
}

/// The middle pixel of each cell's lower row.
pub fn middles() -> impl Iterator<Item = (u32, u32)> {
    (0..CELLS).flat_map(|row| (0..CELLS).map(move |column| (3 * column + 1, 2 * row + 1)))
}
