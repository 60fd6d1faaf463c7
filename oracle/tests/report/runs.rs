//! Maps of few pixels and of few runs: where a run ends, about the multiples of 16 and elsewhere.

use crate::compared::Compared;
use oracle::given::no_entry;
use oracle::random::Xorshift;
use oracle::report_damage::undamaged;
use oracle::shipments::{any_colors, Map};

/// Two listed colors, and one that is not.
type Three = [[u8; 4]; 3];

/// Three in a row of which no two neighbors are alike.
const TRIPLES: [[usize; 3]; 12] = [
    [0, 1, 0],
    [0, 1, 2],
    [0, 2, 0],
    [0, 2, 1],
    [1, 0, 1],
    [1, 0, 2],
    [1, 2, 0],
    [1, 2, 1],
    [2, 0, 1],
    [2, 0, 2],
    [2, 1, 0],
    [2, 1, 2],
];

/// Every map of 1 to 8 pixels.
#[test]
fn few_pixels() {
    let mut compared = Compared::new("few pixels", 0x6C62_272E_07BB_0142);
    for len in 1..=8 {
        count_all(&mut compared, |three| {
            let digits = |number: usize| (0..len).map(move |digit| number / 3usize.pow(digit) % 3);
            let pixels = |number| digits(number).map(|digit| three[digit]).collect();
            (0..3usize.pow(len)).map(pixels).collect()
        });
    }
    compared.finish(&[0]);
}

/// Every map of 1 to 40 pixels in at most three runs.
#[test]
fn few_runs() {
    let mut compared = Compared::new("few runs", 0x4B33_A62E_D433_D4A3);
    for len in 1..=40 {
        count_all(&mut compared, |three| {
            let ends = (1..=len).flat_map(|first| (first..=len).map(move |second| [first, second]));
            ends.flat_map(|ends| runs(three, ends, len)).collect()
        });
    }
    compared.finish(&[0]);
}

/// Runs of 1 to 66 pixels from each of 34 columns, in a row of 104.
#[test]
fn long_runs() {
    let mut compared = Compared::new("long runs", 0x8BB8_4B93_962E_ACC9);
    for first in 1..=34 {
        count_all(&mut compared, |three| {
            let ends = (1..=66).map(|run| [first, first + run]);
            ends.flat_map(|ends| runs(three, ends, 104)).collect()
        });
    }
    compared.finish(&[0]);
}

/// At each place of a map of otherwise one color.
#[test]
fn one_pixel_between_runs() {
    let mut compared = Compared::new("one pixel between runs", 0x2D35_8DCC_AA6C_78A5);
    for len in [255, 256, 257, 320] {
        count_all(&mut compared, |three| {
            let ends = (1..len).map(|place| [place, place + 1]);
            ends.flat_map(|ends| runs(three, ends, len)).collect()
        });
    }
    compared.finish(&[0]);
}

/// Runs of one length after the other, for each length.
#[test]
fn equal_runs() {
    let mut compared = Compared::new("equal runs", 0x4D5A_2DA5_1DE1_AA47);
    count_all(&mut compared, |three| {
        let of = |run: usize, colors: usize| {
            let color = move |pixel: usize| three[pixel / run % colors];
            (0..360).map(color).collect::<Vec<[u8; 4]>>()
        };
        (1..=70).flat_map(|run| [of(run, 2), of(run, 3)]).collect()
    });
    compared.finish(&[0]);
}

/// Maps of three runs, of which the first two end there, in all colors.
fn runs(three: Three, [first, second]: [usize; 2], len: usize) -> Vec<Vec<[u8; 4]>> {
    let lengths = [first, second - first, len - second];
    let map = |colors: [usize; 3]| {
        let runs = colors.iter().zip(lengths);
        runs.flat_map(|(&color, len)| std::iter::repeat_n(three[color], len))
            .collect()
    };
    TRIPLES.map(map).into()
}

/// One list of calls, in rows of any length.
fn count_all(compared: &mut Compared, maps: impl Fn(Three) -> Vec<Vec<[u8; 4]>>) {
    let random = &mut compared.random;
    let colors = any_colors(random, 2);
    let mut shipment = undamaged(random, &colors);
    let maps = maps([colors[0], colors[1], no_entry(random, &colors)]);
    shipment.maps = maps.into_iter().map(|map| in_rows(random, map)).collect();
    let reported = compared.list(&shipment);
    assert!(reported.answers.iter().all(|&answer| answer == 0));
}

fn in_rows(random: &mut Xorshift, pixels: Vec<[u8; 4]>) -> Map {
    let len = pixels.len();
    let widths: Vec<usize> = (1..=len)
        .filter(|&width| len.is_multiple_of(width))
        .collect();
    let width = random.choose(&widths);
    Map::new(width as u32, (len / width) as u32, pixels)
}
