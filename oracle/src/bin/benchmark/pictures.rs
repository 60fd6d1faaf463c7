//! The two pictures: random bytes, and a class map as a belt camera sends it.

use oracle::random::Xorshift;
use oracle::shipments::distinct;

/// One number of colors in each band of tables.
pub const COLORS: [u16; 4] = [2, 4, 16, 256];

/// Regions of the class map, unless another number is asked for: at full size, pieces of about 130
/// by 130 pixels.
pub const REGIONS: usize = 120;

/// How far a border strays, in pixels.
const JAGGED: usize = 2;

#[derive(Clone, Copy, PartialEq, Eq)]
pub enum Content {
    Random,
    ClassMap,
}

impl Content {
    pub fn name(self) -> &'static str {
        match self {
            Self::Random => "random",
            Self::ClassMap => "class map",
        }
    }
}

pub struct Pictures {
    pub width: u16,
    pub height: u16,
    count: usize,
    /// The region of each pixel.
    regions: Vec<usize>,
}

impl Pictures {
    /// Each pixel belongs to the region of the seed that is nearest to it, out of seeds thrown at
    /// random. Rows and columns are shifted by up to a few pixels before that, each by at most one
    /// more or less than the one before, so that borders stray as those that a camera sees.
    pub fn new(width: u16, height: u16, count: usize) -> Self {
        let mut random = Xorshift::new(0x4528_21E6_38D0_1377);
        let (columns, rows) = (usize::from(width), usize::from(height));
        let seeds: Vec<(i32, i32)> = (0..count)
            .map(|_| (random.below(columns) as i32, random.below(rows) as i32))
            .collect();
        let shifts = |random: &mut Xorshift, n: usize| -> Vec<i32> {
            let most = JAGGED as i32;
            let mut shift = 0;
            let mut next = |_| {
                shift = (shift + random.below(3) as i32 - 1).clamp(-most, most);
                shift
            };
            (0..n).map(&mut next).collect()
        };
        let row_shifts = shifts(&mut random, rows);
        let column_shifts = shifts(&mut random, columns);
        let mut regions = Vec::with_capacity(columns * rows);
        for (row, row_shift) in (0..).zip(row_shifts) {
            for (column, column_shift) in (0..).zip(&column_shifts) {
                regions.push(nearest(&seeds, column + row_shift, row + column_shift));
            }
        }
        Self {
            width,
            height,
            count,
            regions,
        }
    }

    /// The index of each pixel's color.
    pub fn indices(&self, content: Content, colors: u16) -> Vec<usize> {
        let mut random = Xorshift::new(0xBE54_66CF_34E9_0C6C);
        let mut any =
            |n: usize| -> Vec<usize> { (0..n).map(|_| random.below(colors.into())).collect() };
        match content {
            Content::Random => any(self.regions.len()),
            Content::ClassMap => {
                let materials = any(self.count);
                let material = |&region: &usize| materials[region];
                self.regions.iter().map(material).collect()
            }
        }
    }

    /// Of how many pixels of one color a row's runs are.
    pub fn mean_run(&self, colors: u16) -> f64 {
        let indices = self.indices(Content::ClassMap, colors);
        let runs: usize = indices
            .chunks(self.width.into())
            .map(|row| row.chunk_by(|a, b| a == b).count())
            .sum();
        indices.len() as f64 / runs as f64
    }
}

/// Opaque colors, no two alike.
pub fn palette(colors: u16) -> Vec<[u8; 4]> {
    let mut random = Xorshift::new(0xC0AC_29B7_C97C_50DD);
    distinct(colors.into(), || {
        [random.byte(), random.byte(), random.byte(), 255]
    })
}

fn nearest(seeds: &[(i32, i32)], x: i32, y: i32) -> usize {
    let distance = |&(a, b): &(i32, i32)| (a - x) * (a - x) + (b - y) * (b - y);
    let seeds = seeds.iter().map(distance).enumerate();
    seeds.min_by_key(|&(_, distance)| distance).unwrap().0
}
