//! One retouch, on maps of three sizes, beside storing a map afresh: at points of one patch of the map, as a
//! planner paints, and at points anywhere, where the largest map's pixels are in no cache.

use crate::measure::{median, store, timed};
use crate::pictures::palette;
use oracle::calls::{self, Retouch};
use oracle::given::{Given, Plan, COLOR, COLOR_TABLE, PREDICTOR, SUBTRACT_GREEN};
use oracle::random::Xorshift;
use std::time::Instant;

const LINES: [Line; 8] = [
    Line::new("predictor", &[PREDICTOR], 16),
    Line::new("subtract green + color", &[SUBTRACT_GREEN, COLOR], 16),
    Line::new("table of 2", &[COLOR_TABLE], 2),
    Line::new("table of 256", &[COLOR_TABLE], 256),
    Line::new("table of 2 + predictor", &[COLOR_TABLE, PREDICTOR], 2),
    Line::new("table of 256 + predictor", &[COLOR_TABLE, PREDICTOR], 256),
    Line::new("predictor + table of 2", &[PREDICTOR, COLOR_TABLE], 2),
    Line::new("predictor + table of 256", &[PREDICTOR, COLOR_TABLE], 256),
];

const BLOCK_BITS: u8 = 4;

/// A map repeats its first pixels: so many.
const DRAWN: usize = 1 << 18;

/// The longest run of one color. The mean is half of it, about a class map's.
const RUN: usize = 180;

/// The side of the patch, which is the smallest map.
const PATCH: usize = 64;

/// How many bytes the largest map's buffers and the rest take.
const LARGEST: usize = 5 << 29;

#[derive(Clone, Copy)]
struct Line {
    name: &'static str,
    kinds: &'static [u8],
    /// The map's colors; a table has exactly these, or their differences.
    colors: u16,
}

/// The maps' sizes, the one that is stored for comparison, and how often retouches are timed.
pub struct Extent {
    maps: Vec<(u16, u16)>,
    stored: (u16, u16),
    retouches: usize,
    runs: usize,
}

impl Extent {
    pub fn quick() -> Self {
        Self {
            maps: vec![(64, 64), (256, 128)],
            stored: (256, 128),
            retouches: 100,
            runs: 1,
        }
    }

    /// Says so where memory is short for the largest map.
    pub fn full() -> Self {
        let height = if available() < LARGEST {
            println!("less than 2.5 GiB of memory are free: the largest map has 4096 rows");
            4096
        } else {
            16384
        };
        Self {
            maps: vec![(64, 64), (1024, 1024), (16384, height)],
            stored: (1024, 1024),
            retouches: 20_000,
            runs: 5,
        }
    }
}

/// Measures all lines, and prints each as it is done.
pub fn measure_all(extent: &Extent) {
    let (width, height) = extent.stored;
    println!(
        "| what | map | in one patch, ns | anywhere, ns | storing {width} by {height}, ms | storing/patch |"
    );
    println!("|---|---|---|---|---|---|");
    let pixels = |&(width, height): &(u16, u16)| usize::from(width) * usize::from(height);
    let largest = 4 * extent.maps.iter().map(pixels).max().unwrap();
    let (mut picture, mut strip) = (vec![0; largest], vec![0; largest]);
    for line in LINES {
        let storing = line.storing(extent, &mut picture, &mut strip);
        for &(width, height) in &extent.maps {
            let [patch, anywhere] =
                line.retouching(extent, (width, height), &mut picture, &mut strip);
            println!(
                "| {} | {width} by {height} | {patch:.0} | {anywhere:.0} | {storing:.2} | {:.0} |",
                line.name,
                1e6 * storing / patch,
            );
        }
    }
}

impl Line {
    const fn new(name: &'static str, kinds: &'static [u8], colors: u16) -> Self {
        Self {
            name,
            kinds,
            colors,
        }
    }

    /// Milliseconds.
    fn storing(&self, extent: &Extent, picture: &mut [u8], strip: &mut [u8]) -> f64 {
        let map = Map::new(self, extent.stored, picture, strip);
        let time = |_| timed(|| store(&map.given, map.picture, map.strip));
        median(&(0..2 * extent.runs + 1).map(time).collect::<Vec<f64>>())
    }

    /// Nanoseconds for one retouch, in the patch and anywhere. Each run has other points. The strip has
    /// to be the picture's in the end, where there is room to store it again.
    fn retouching(
        &self,
        extent: &Extent,
        side: (u16, u16),
        picture: &mut [u8],
        strip: &mut [u8],
    ) -> [f64; 2] {
        let mut map = Map::new(self, side, picture, strip);
        let mut random = Xorshift::new(0xA4C1_5E8B_D3F2_9067);
        let medians = [true, false].map(|patch| {
            let mut time = |_| {
                let list = map.any_list(&mut random, extent.retouches, patch);
                map.timed(&list)
            };
            let times: Vec<f64> = (0..=extent.runs).map(&mut time).collect();
            // The first run fills caches and is not counted.
            median(&times[1..])
        });
        if side <= extent.stored {
            let mut afresh = vec![0; map.strip.len()];
            assert_eq!(store(&map.given, map.picture, &mut afresh), 0);
            assert!(map.strip == afresh, "not the strip of the picture");
        }
        medians
    }

    /// Then the colors are reds a step apart and the table has their differences, so that every map
    /// and every retouch is accepted. Modes that average would leave them, unless the step is 1.
    fn looks_up_residuals(&self) -> bool {
        self.kinds == [PREDICTOR, COLOR_TABLE]
    }

    fn palette(&self) -> Vec<[u8; 4]> {
        if !self.looks_up_residuals() {
            return palette(self.colors);
        }
        let red = |i: u16| (i * (256 / self.colors)) as u8;
        (0..self.colors).map(|i| [red(i), 0, 0, 255]).collect()
    }

    fn given(&self, (width, height): (u16, u16)) -> Given {
        let mut random = Xorshift::new(0x7C3A_91E5_04BF_6D28);
        let plan = Plan {
            width,
            height,
            kinds: self.kinds.to_vec(),
            predictor_bits: BLOCK_BITS,
            color_bits: BLOCK_BITS,
            size: self.colors,
            overlapping: false,
        };
        let mut given = plan.given(&mut random);
        for (record, &kind) in self.kinds.iter().enumerate() {
            let part = given.part_mut(record);
            if kind == PREDICTOR {
                for block in part {
                    block[1] = match (self.looks_up_residuals(), self.colors) {
                        (true, 2) => random.choose(&[0, 1, 2, 3, 4, 11]),
                        _ => random.below(14) as u8,
                    };
                }
            } else if kind == COLOR_TABLE {
                part.copy_from_slice(&self.palette());
                for entry in part.iter_mut().filter(|_| self.looks_up_residuals()) {
                    entry[3] = 0;
                }
            }
        }
        given
    }
}

/// A map and its strip, at the front of buffers that the largest one fills.
struct Map<'a> {
    given: Given,
    palette: Vec<[u8; 4]>,
    picture: &'a mut [u8],
    strip: &'a mut [u8],
}

impl<'a> Map<'a> {
    fn new(line: &Line, side: (u16, u16), picture: &'a mut [u8], strip: &'a mut [u8]) -> Self {
        let (given, palette) = (line.given(side), line.palette());
        let chain = given.valid();
        let (picture, strip) = (
            &mut picture[..chain.picture_len()],
            &mut strip[..chain.strip_len()],
        );
        let drawn = drawn(&palette);
        for part in picture.chunks_mut(4 * DRAWN) {
            part.copy_from_slice(&drawn.as_flattened()[..part.len()]);
        }
        assert_eq!(store(&given, picture, strip), 0);
        Self {
            given,
            palette,
            picture,
            strip,
        }
    }

    /// The patch is in the middle.
    fn any_list(&self, random: &mut Xorshift, len: usize, patch: bool) -> Vec<Retouch> {
        let mut along = |side: u32| {
            let side = side as usize;
            if patch && side > PATCH {
                (side / 2 + random.below(PATCH)) as u32
            } else {
                random.below(side) as u32
            }
        };
        let points: Vec<(u32, u32)> = (0..len)
            .map(|_| (along(self.given.width), along(self.given.height)))
            .collect();
        let retouch = |(x, y)| Retouch {
            x,
            y,
            color: random.choose(&self.palette),
        };
        points.into_iter().map(retouch).collect()
    }

    /// Nanoseconds for one retouch of the list. All have to be accepted.
    fn timed(&mut self, list: &[Retouch]) -> f64 {
        let Given {
            width,
            height,
            chain,
            data,
        } = &self.given;
        let start = Instant::now();
        let mut least = u32::MAX;
        for &retouch in list {
            let (picture, strip) = (&mut *self.picture, &mut *self.strip);
            let answer = calls::retouch(*width, *height, chain, data, picture, strip, retouch);
            least = least.min(answer);
        }
        let elapsed = start.elapsed();
        assert!(least >= 256, "{least}");
        1e9 * elapsed.as_secs_f64() / list.len() as f64
    }
}

/// Runs of any of the colors.
fn drawn(palette: &[[u8; 4]]) -> Vec<[u8; 4]> {
    let mut random = Xorshift::new(0x51D0_2E6F_B89A_C347);
    let mut drawn = Vec::new();
    while drawn.len() < DRAWN {
        let (color, run) = (random.choose(palette), 1 + random.below(RUN));
        drawn.extend(std::iter::repeat_n(color, run));
    }
    drawn
}

/// How many bytes of memory are free; without a number to read, none.
fn available() -> usize {
    let kib = || {
        let info = std::fs::read_to_string("/proc/meminfo").ok()?;
        let line = info
            .lines()
            .find(|line| line.starts_with("MemAvailable:"))?;
        line.split_whitespace().nth(1)?.parse::<usize>().ok()
    };
    1024 * kib().unwrap_or(0)
}
