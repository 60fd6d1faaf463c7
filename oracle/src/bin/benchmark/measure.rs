//! The times of one chain on one strip.

use oracle::given::Given;
use oracle::model::Chain;
use oracle::{calls, model};
use std::time::Instant;

/// Milliseconds, medians.
pub struct Times {
    pub rust: f64,
    pub here: f64,
    pub storing: f64,
}

/// At least how many runs, and how many bytes after a cache line the rebuilt buffer starts.
pub struct Way {
    pub runs: usize,
    pub offset: usize,
}

/// Where the C library puts a large block.
pub const OFFSET: usize = 16;

/// The bytes of a cache line.
const LINE: usize = 64;

/// A short call is run more often, until its runs have taken this many milliseconds together.
const ENOUGH: f64 = 100.0;

/// How often at most, for each of the least number of runs.
const MORE: usize = 9;

/// Both sides have to make the same picture, and storing it has to give the model's strip.
pub fn measure(given: &Given, strip: &[u8], way: &Way) -> Times {
    let runs = way.runs;
    let (rust, here, picture) = measure_rebuilding(given, strip, way);
    let mut stored = vec![0; strip.len()];
    let mut storing = Vec::new();
    // The first run fills caches and is not counted.
    while storing.len() <= runs || more(&storing, runs) {
        stored.fill(165);
        storing.push(timed(|| store(given, &picture, &mut stored)));
    }
    assert!(stored == by_model(given, &picture), "not the model's strip");
    Times {
        rust: median(&rust[1..]),
        here: median(&here[1..]),
        storing: median(&storing[1..]),
    }
}

/// The times of the Rust and those of the exported call, and the picture. The sides take turns in
/// one buffer, which is filled anew before each run, and whichever begins a turn ends the next: so
/// both find the same bytes in the same caches.
fn measure_rebuilding(given: &Given, strip: &[u8], way: &Way) -> (Vec<f64>, Vec<f64>, Vec<u8>) {
    let chain = given.valid();
    let runs = way.runs;
    let len = chain.picture_len();
    let mut block = vec![0; len + way.offset + LINE];
    let start = block.as_ptr().align_offset(LINE) + way.offset;
    let image = &mut block[start..start + len];
    let (mut rust, mut here) = (Vec::new(), Vec::new());
    while here.len() <= runs || more(&here, runs) {
        let turn = here.len();
        for side in [turn, turn + 1] {
            fill(image, strip);
            if side % 2 == 0 {
                rust.push(timed(|| rebuild_by_rust(&chain, image)));
            } else {
                here.push(timed(|| rebuild(given, image)));
            }
        }
    }
    fill(image, strip);
    rebuild(given, image);
    let mut by_rust = vec![0; image.len()];
    fill(&mut by_rust, strip);
    rebuild_by_rust(&chain, &mut by_rust);
    assert!(image == by_rust, "not the picture that the Rust rebuilds");
    (rust, here, by_rust)
}

pub fn more(times: &[f64], runs: usize) -> bool {
    times.iter().sum::<f64>() < ENOUGH && times.len() <= MORE * runs
}

fn fill(image: &mut [u8], strip: &[u8]) {
    let (front, rest) = image.split_at_mut(strip.len());
    front.copy_from_slice(strip);
    rest.fill(165);
}

/// The strip that storing has to make of a picture.
pub fn by_model(given: &Given, picture: &[u8]) -> Vec<u8> {
    let mut strip = vec![0; given.valid().strip_len()];
    let Given {
        width,
        height,
        chain,
        data,
    } = given;
    let answer = model::store(*width, *height, chain, data, picture, &mut strip);
    assert_eq!(answer, 0);
    strip
}

/// The Rust's calls alone: the chain has been read.
fn rebuild_by_rust(chain: &Chain, image: &mut [u8]) -> u32 {
    chain.rebuild_before(chain.steps.len(), image);
    0
}

fn rebuild(given: &Given, image: &mut [u8]) -> u32 {
    calls::rebuild(given.width, given.height, &given.chain, &given.data, image)
}

pub fn store(given: &Given, picture: &[u8], strip: &mut [u8]) -> u32 {
    let Given {
        width,
        height,
        chain,
        data,
    } = given;
    calls::store(*width, *height, chain, data, picture, strip)
}

pub fn timed(call: impl FnOnce() -> u32) -> f64 {
    let start = Instant::now();
    let answer = call();
    let elapsed = start.elapsed();
    assert_eq!(answer, 0);
    1000.0 * elapsed.as_secs_f64()
}

pub fn median(times: &[f64]) -> f64 {
    let mut times = times.to_vec();
    times.sort_by(f64::total_cmp);
    times[times.len() / 2]
}
