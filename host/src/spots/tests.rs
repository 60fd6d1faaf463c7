//! The records of spots, worked out by hand and held against pictures stored before and after.

use super::*;
use crate::{store, Picture, Pixel, Size};

/// Reds 0, 15, 30 and so on.
const TABLE: [Pixel; 17] = {
    let mut table = [Pixel::opaque(0, 0, 0); 17];
    let mut i = 0;
    while i < table.len() {
        table[i].red = 15 * i as u8;
        i += 1;
    }
    table
};

fn predictor(chain: Chain, mode: u8) -> Chain {
    let blocks = vec![Pixel::predictor_block(mode); chain.blocks(2).pixel_count()];
    chain.predictor(2, &blocks)
}

fn at(chain: &Chain, x: u32, y: u32) -> Vec<usize> {
    spot_records(chain, Point::new(x, y))
}

#[test]
fn without_a_predictor_one() {
    let chain = Chain::new(Size::new(9, 3)).subtract_green();
    assert_eq!(at(&chain, 8, 2), [26]);
    let chain = chain.color_table(&TABLE[..3]);
    assert_eq!(at(&chain, 3, 2), [6]);
    assert_eq!(at(&chain, 8, 2), [8]);
}

#[test]
fn under_a_predictor_five() {
    let chain = predictor(Chain::new(Size::new(4, 3)), 1);
    assert_eq!(at(&chain, 2, 0), [2, 3, 5, 6, 7]);
    assert_eq!(at(&chain, 3, 0), [3, 4, 6, 7, 8]);
    assert_eq!(at(&chain, 0, 1), [4, 5, 7, 8, 9]);
    assert_eq!(at(&chain, 3, 2), [11, 12, 14, 15, 16]);
    let chain = predictor(Chain::new(Size::new(2, 3)), 1);
    assert_eq!(at(&chain, 0, 1), [2, 3, 3, 4, 5]);
    let chain = predictor(Chain::new(Size::new(1, 3)), 1);
    assert_eq!(at(&chain, 0, 1), [1, 2, 1, 2, 3]);
}

/// Rows of 9 pixels and of 3 packed ones.
#[test]
fn a_table_before_the_predictor_packs_the_pixel_and_one_after_it_the_spots() {
    let chain = Chain::new(Size::new(9, 3));
    let before = predictor(chain.clone().color_table(&TABLE[..3]), 1);
    assert_eq!(at(&before, 7, 0), [1, 2, 3, 4, 5]);
    assert_eq!(at(&before, 8, 1), [5, 6, 7, 8, 9]);
    let after = predictor(chain, 1).color_table(&TABLE[..3]);
    assert_eq!(at(&after, 3, 0), [0, 1, 3, 3, 4]);
    assert_eq!(at(&after, 8, 1), [5, 6, 7, 8, 9]);
}

/// The records that differ once the pixel at `point` has another color.
fn differing(chain: &Chain, picture: &[Pixel], point: Point) -> Vec<usize> {
    let size = chain.size();
    let mut painted = picture.to_vec();
    let pixel = &mut painted[(point.y * size.width + point.x) as usize];
    *pixel = TABLE[usize::from(*pixel == TABLE[0])];
    let [before, after] = [picture, &painted].map(|pixels| {
        let picture = Picture::from_pixels(size, pixels.iter().copied()).unwrap();
        store(chain, &picture).unwrap()
    });
    let records = before.records().zip(after.records()).enumerate();
    let differing = records.filter(|(_, (before, after))| before != after);
    differing.map(|(index, _)| index).collect()
}

/// Adds to `reached` how often each spot of a point, every point in turn, had a record that differs.
fn hold_against_storing(chain: &Chain, entries: usize, reached: &mut [usize; MOST_SPOTS]) {
    let Size { width, height } = chain.size();
    let pixels: Vec<Pixel> = (0..chain.size().pixel_count())
        .map(|i| TABLE[i * i / 3 % entries])
        .collect();
    for point in (0..height).flat_map(|y| (0..width).map(move |x| Point::new(x, y))) {
        let spots = spot_records(chain, point);
        for record in differing(chain, &pixels, point) {
            let spot = spots.iter().position(|&spot| spot == record);
            reached[spot.expect("no other record may differ")] += 1;
        }
    }
}

#[test]
fn no_record_differs_but_those_of_spots() {
    let mut reached = [0; MOST_SPOTS];
    for (width, height) in [(1, 5), (2, 4), (3, 3), (8, 3), (9, 4), (17, 3)] {
        for mode in 0..=14 {
            let chain = Chain::new(Size::new(width, height));
            hold_against_storing(&predictor(chain.clone(), mode), 17, &mut reached);
            for entries in [2, 4, 16, 17] {
                let chain = chain.clone().color_table(&TABLE[..entries]);
                hold_against_storing(&predictor(chain, mode), entries, &mut reached);
            }
        }
    }
    assert!(reached.iter().all(|&times| times > 500), "{reached:?}");
}
