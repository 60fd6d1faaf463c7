//! Lists of reports, and what they start from: colors, counters, and maps.

use crate::given::no_entry;
use crate::random::Xorshift;

/// The most colors that a list has.
pub const MOST: usize = 256;

/// The fewest and the most colors, and numbers between.
pub const COUNTS: [usize; 8] = [1, 2, 3, 16, 17, 64, 255, MOST];

/// Bytes of colors that differ in one byte or in few bits.
const FEW: [u8; 5] = [0, 1, 127, 128, 255];

/// About multiples of 16, and single pixels between them.
const RUNS: [usize; 12] = [1, 1, 1, 2, 15, 16, 17, 31, 32, 33, 48, 64];

/// What the calls of a list of reports differ in.
#[derive(Clone)]
pub struct Map {
    pub width: u32,
    pub height: u32,
    /// The whole buffer, which may be longer than needed or too short.
    pub picture: Vec<u8>,
}

/// Reports under one list of colors, each on the counters that the last one left.
#[derive(Clone)]
pub struct Shipment {
    pub colors: Vec<u8>,
    /// The whole buffer before the list.
    pub counters: Vec<u8>,
    pub maps: Vec<Map>,
}

impl Shipment {
    /// A list that is not refused by 23, and counters for all of it. Some maps are refused.
    pub fn any(random: &mut Xorshift, colors: &[[u8; 4]], len: usize) -> Self {
        let mut counters = any_counters(random, colors.len() + 1);
        counters.extend(random.beyond(20));
        let maps = (0..len).map(|_| Map::any(random, colors)).collect();
        Self {
            colors: colors.as_flattened().to_vec(),
            counters,
            maps,
        }
    }

    pub fn set_counter(&mut self, at: usize, number: u64) {
        self.counters[8 * at..8 * at + 8].copy_from_slice(&number.to_le_bytes());
    }

    /// For messages: without the bytes of the counters and of the maps, which may be very many.
    pub fn shown(&self) -> String {
        let (colors, counters) = (self.colors.chunks(4), self.counters.len());
        format!("colors {colors:?}, {counters} bytes of counters")
    }
}

impl Map {
    /// Exactly as long as needed.
    pub fn new(width: u32, height: u32, pixels: Vec<[u8; 4]>) -> Self {
        assert_eq!((width * height) as usize, pixels.len());
        Self {
            width,
            height,
            picture: pixels.into_flattened(),
        }
    }

    /// Of listed colors and others. Some have a side that is out of range, or lack a byte.
    fn any(random: &mut Xorshift, colors: &[[u8; 4]]) -> Self {
        let most = random.choose(&[1, 4, 12, 36]);
        let width = 1 + random.below(most);
        let height = 1 + random.below(most.min(9));
        let drawn = any_drawn(random, colors);
        let pixels = any_pixels(random, width * height, &drawn);
        let mut map = Self::new(width as u32, height as u32, pixels);
        match random.below(16) {
            0 => map.width = random.choose(&[0, 16385, u32::MAX]),
            1 => map.height = random.choose(&[0, 16385, u32::MAX]),
            2 => map.picture.truncate(map.picture.len() - 1),
            _ => map.picture.extend(random.beyond(20)),
        }
        map
    }
}

/// No two alike: of any bytes, of few, and of one slot.
pub fn any_colors(random: &mut Xorshift, count: usize) -> Vec<[u8; 4]> {
    match random.below(3) {
        0 => distinct(count, || random.pixel()),
        1 => distinct(count, || [(); 4].map(|()| random.choose(&FEW))),
        _ => of_one_slot(random, count),
    }
}

/// No two alike, and all in one slot of the look-up that the library has
/// (`crates/color_table/src/find.rt`).
pub fn of_one_slot(random: &mut Xorshift, count: usize) -> Vec<[u8; 4]> {
    let wanted = slot(random.pixel());
    distinct(count, || loop {
        let color = ((random.number() >> 32) as u32).to_le_bytes();
        if slot(color) == wanted {
            return color;
        }
    })
}

fn slot(color: [u8; 4]) -> u64 {
    u64::from(u32::from_le_bytes(color)) * 2_654_435_761 / 1_048_576 % 4096
}

pub fn distinct(count: usize, mut next: impl FnMut() -> [u8; 4]) -> Vec<[u8; 4]> {
    let mut colors = Vec::new();
    while colors.len() < count {
        let color = next();
        if !colors.contains(&color) {
            colors.push(color);
        }
    }
    colors
}

/// What a map's pixels are drawn from: the list, the list and others that are near it or in no way
/// like it, few of each, and others alone.
fn any_drawn(random: &mut Xorshift, colors: &[[u8; 4]]) -> Vec<[u8; 4]> {
    let near: Vec<[u8; 4]> = (0..3).map(|_| no_entry(random, colors)).collect();
    let far = [random.pixel(), random.pixel()];
    let few = [random.choose(colors), random.choose(colors)];
    match random.below(4) {
        0 => colors.to_vec(),
        1 => [colors, &near, &far].concat(),
        2 => [&few[..], &near[..1]].concat(),
        _ => [&near[..], &far].concat(),
    }
}

/// Pixel by pixel, or in runs.
pub fn any_pixels(random: &mut Xorshift, len: usize, drawn: &[[u8; 4]]) -> Vec<[u8; 4]> {
    let in_runs = random.below(2) == 0;
    let mut pixels = Vec::with_capacity(len);
    while pixels.len() < len {
        let run = if in_runs { random.choose(&RUNS) } else { 1 };
        let color = random.choose(drawn);
        pixels.extend(std::iter::repeat_n(color, run.min(len - pixels.len())));
    }
    pixels
}

/// Zeros; any; next to a carry into each byte; and any but one that is next to the most.
fn any_counters(random: &mut Xorshift, count: usize) -> Vec<u8> {
    let sort = random.below(4);
    let mut numbers: Vec<u64> = (0..count)
        .map(|at| match sort {
            0 => 0,
            1 => u64::MAX >> (8 * (at % 7) + 8) & !(random.below(64) as u64),
            _ => random.number() >> 1,
        })
        .collect();
    if sort == 3 {
        numbers[random.below(count)] = u64::MAX - random.below(200) as u64;
    }
    numbers.into_iter().flat_map(u64::to_le_bytes).collect()
}
