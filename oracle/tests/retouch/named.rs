//! One pixel without entry, and every point near it: 22 exactly where a spot's record holds the
//! pixel, or its prediction names a packed pixel that does.

use crate::compared::{accepted, Compared};
use oracle::calls::Retouch;
use oracle::given::{Given, Plan, COLOR, COLOR_TABLE, PREDICTOR, SUBTRACT_GREEN};

/// The modes that predict, and some of the others.
const MODES: [u8; 18] = [
    0, 1, 2, 3, 4, 5, 6, 7, 8, 9, 10, 11, 12, 13, 14, 15, 128, 255,
];

/// A table of each band, and how many pixels it packs.
const BANDS: [(u16, u16); 4] = [(2, 8), (4, 4), (16, 2), (17, 1)];

#[test]
fn table_before_predictor() {
    let mut compared = Compared::new("table before predictor", 0x5851_F42D_4C95_7F2D);
    for (mode, band) in pairs() {
        for (columns, height) in (1..=3).flat_map(|w| (1..=3).map(move |h| (w, h))) {
            let kinds = match compared.random.below(3) {
                0 => vec![COLOR_TABLE, PREDICTOR],
                1 => vec![SUBTRACT_GREEN, COLOR_TABLE, PREDICTOR, COLOR],
                _ => vec![COLOR, COLOR_TABLE, SUBTRACT_GREEN, PREDICTOR],
            };
            every_packed_pixel(&mut compared, &kinds, (columns, height), mode, band);
        }
    }
    compared.finish(&[22, accepted(0), accepted(5)]);
}

/// A residual without entry refuses where a spot's record holds it.
#[test]
fn predictor_before_table() {
    let mut compared = Compared::new("predictor before table", 0x1405_7B7E_F767_814F);
    for (mode, band) in pairs() {
        for sides in [(1, 3), (2, 2), (3, 1)] {
            let kinds = [PREDICTOR, COLOR_TABLE];
            every_packed_pixel(&mut compared, &kinds, sides, mode, band);
        }
    }
    compared.finish(&[22, accepted(0)]);
}

fn pairs() -> impl Iterator<Item = (u8, (u16, u16))> {
    let with_bands = |mode| BANDS.into_iter().map(move |band| (mode, band));
    MODES.into_iter().flat_map(with_bands)
}

/// Each packed pixel in turn has a pixel without entry. The last of a row may have unused places.
fn every_packed_pixel(
    compared: &mut Compared,
    kinds: &[u8],
    (columns, height): (u16, u16),
    mode: u8,
    (size, packs): (u16, u16),
) {
    let random = &mut compared.random;
    let width = columns * packs - random.below(packs.into()) as u16;
    let plan = Plan {
        size,
        overlapping: false,
        ..Plan::any(random, width, height, kinds)
    };
    let mut given = plan.given(random);
    let predictor = kinds.iter().position(|&kind| kind == PREDICTOR);
    for block in given.part_mut(predictor.expect("there is one")) {
        block[1] = mode;
    }
    for (column, row) in (0..columns).flat_map(|x| (0..height).map(move |y| (x, y))) {
        let place = compared.random.below(packs.into()) as u16;
        let x = (column * packs + place).min(width - 1);
        let pixel = usize::from(row * width + x);
        let picture = given.unstorable(&mut compared.random, pixel);
        every_point(compared, &given, &picture);
    }
}

/// Each point gets the color that it has, so that the picture stays as it is.
fn every_point(compared: &mut Compared, given: &Given, picture: &[u8]) {
    let strip = compared.random.bytes(given.valid().strip_len());
    let colors = picture.as_chunks().0.iter();
    let list: Vec<Retouch> = (0..)
        .zip(colors)
        .map(|(pixel, &color)| Retouch {
            x: pixel % given.width,
            y: pixel / given.width,
            color,
        })
        .collect();
    compared.with_model(given, picture, &strip, &list);
}
