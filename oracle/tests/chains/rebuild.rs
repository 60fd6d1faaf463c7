//! Rebuilding is the Rust's calls in reverse; without a table storing gives the strip again.

use crate::compared::Compared;
use oracle::given::{orders, Given, Plan, COLOR, COLOR_TABLE, PREDICTOR, SIZES, SUBTRACT_GREEN};

/// The widest and the highest, and some that end just before, at or after a packed pixel or block.
pub const LONG: [(u16, u16); 10] = [
    (16384, 1),
    (1, 16384),
    (16383, 3),
    (3, 16383),
    (16384, 2),
    (2, 16384),
    (8193, 3),
    (5, 4097),
    (513, 33),
    (31, 515),
];

#[test]
fn each_transform_by_itself_at_every_small_size() {
    let mut compared = Compared::new("each transform by itself", 0x1F83_D9AB_FB41_BD6B);
    for width in 1..=40 {
        for height in 1..=40 {
            for kind in [PREDICTOR, COLOR, SUBTRACT_GREEN] {
                let plan = Plan::any(&mut compared.random, width, height, &[kind]);
                compare(&mut compared, &plan);
            }
            for size in SIZES {
                let mut plan = Plan::any(&mut compared.random, width, height, &[COLOR_TABLE]);
                plan.size = size;
                compare(&mut compared, &plan);
            }
        }
    }
    compared.finish(&[0, 21]);
}

/// One mode in all blocks, at every size of block and about the ends of blocks.
#[test]
fn every_mode() {
    let mut compared = Compared::new("every mode", 0x5BE0_CD19_137E_2179);
    for mode in 0..=255 {
        for bits in 2..=9 {
            for (width, height) in [(1, 3), (2, 2), (3, 3), (17, 9), (67, 5)] {
                let mut plan = Plan::any(&mut compared.random, width, height, &[PREDICTOR]);
                plan.predictor_bits = bits;
                plan.overlapping = false;
                let mut given = plan.given(&mut compared.random);
                take_mode(&mut given, mode);
                compare_given(&mut compared, &given);
            }
        }
    }
    compared.finish(&[0]);
}

#[test]
fn every_size_of_table() {
    let mut compared = Compared::new("every size of table", 0x9B05_688C_2B3E_6C1F);
    for size in 1..=256 {
        for kinds in [
            &[COLOR_TABLE][..],
            &[COLOR_TABLE, PREDICTOR],
            &[PREDICTOR, COLOR_TABLE],
            &[SUBTRACT_GREEN, COLOR_TABLE, COLOR],
        ] {
            let width = 1 + compared.random.below(70) as u16;
            let mut plan = Plan::any(&mut compared.random, width, 5, kinds);
            plan.size = size;
            compare(&mut compared, &plan);
        }
    }
    compared.finish(&[0, 21]);
}

#[test]
fn every_order() {
    let mut compared = Compared::new("every order", 0x510E_527F_ADE6_82D1);
    for kinds in orders() {
        for size in SIZES {
            for _ in 0..60 {
                let width = 1 + compared.random.below(40) as u16;
                let height = 1 + compared.random.below(40) as u16;
                let mut plan = Plan::any(&mut compared.random, width, height, &kinds);
                plan.size = size;
                compare(&mut compared, &plan);
            }
        }
    }
    compared.finish(&[0, 21]);
}

/// Columns and rows of a few pixels, in which the borders decide nearly everything.
#[test]
fn every_order_at_the_borders() {
    let mut compared = Compared::new("every order at the borders", 0x3C6E_F372_FE94_F82B);
    for kinds in orders() {
        for width in 1..=9 {
            for height in 1..=4 {
                for _ in 0..2 {
                    let plan = Plan::any(&mut compared.random, width, height, &kinds);
                    compare(&mut compared, &plan);
                    let plan = Plan::any(&mut compared.random, height, width, &kinds);
                    compare(&mut compared, &plan);
                }
            }
        }
    }
    compared.finish(&[0, 21]);
}

#[test]
fn every_order_at_long_sides() {
    let mut compared = Compared::new("every order at long sides", 0xBB67_AE85_84CA_A73B);
    for kinds in orders() {
        for (width, height) in LONG {
            let plan = Plan::any(&mut compared.random, width, height, &kinds);
            compare(&mut compared, &plan);
        }
    }
    compared.finish(&[0, 21]);
}

/// Sides of some hundred pixels: many blocks in both directions, and rows that no loop does in one
/// turn.
#[test]
fn every_order_at_middle_sizes() {
    let mut compared = Compared::new("every order at middle sizes", 0xA54F_F53A_5F1D_36F1);
    for kinds in orders() {
        for _ in 0..3 {
            let width = 41 + compared.random.below(600) as u16;
            let height = 41 + compared.random.below(200) as u16;
            let plan = Plan::any(&mut compared.random, width, height, &kinds);
            compare(&mut compared, &plan);
        }
    }
    compared.finish(&[0, 21]);
}

/// Sides over the whole range, as widths and as heights, with any chain.
#[test]
fn sides_up_to_the_largest() {
    let mut compared = Compared::new("sides up to the largest", 0x428A_2F98_D728_AE22);
    let orders = orders();
    for long in (41..=16384).rev().step_by(61) {
        for short in 1..=3 {
            let kinds = &orders[compared.random.below(orders.len())];
            let plan = Plan::any(&mut compared.random, long, short, kinds);
            compare(&mut compared, &plan);
            let plan = Plan::any(&mut compared.random, short, long, kinds);
            compare(&mut compared, &plan);
        }
    }
    compared.finish(&[0, 21]);
}

/// The largest picture there is, through a chain in which the table narrows the strip.
#[test]
#[ignore = "takes 6 GiB of memory; run by hand"]
fn largest_picture() {
    let mut compared = Compared::new("largest picture", 0x7137_4491_23EF_65CD);
    let kinds = [SUBTRACT_GREEN, PREDICTOR, COLOR_TABLE, COLOR];
    let plan = Plan::any(&mut compared.random, 16384, 16384, &kinds);
    compare(&mut compared, &plan);
    compared.finish(&[]);
}

fn compare(compared: &mut Compared, plan: &Plan) {
    let given = plan.given(&mut compared.random);
    compare_given(compared, &given);
}

/// Half of the buffers have bytes beyond the picture.
fn compare_given(compared: &mut Compared, given: &Given) {
    let beyond = beyond(compared);
    let mut image = given.any_image(&mut compared.random);
    image.extend(compared.random.bytes(beyond));
    let rebuilt = compared.rebuild(given, &image);
    assert_eq!(rebuilt.answer, 0);

    let chain = given.valid();
    let strip = compared.random.bytes(chain.strip_len() + beyond);
    let stored = compared.store(given, &rebuilt.bytes, &strip);
    if !has_kind(given, COLOR_TABLE) {
        assert_eq!(stored.answer, 0);
        let len = chain.strip_len();
        assert!(stored.bytes[..len] == image[..len], "the strip is lost");
    }
}

pub fn beyond(compared: &mut Compared) -> usize {
    match compared.random.below(2) {
        0 => 0,
        _ => 1 + compared.random.below(100),
    }
}

fn has_kind(given: &Given, kind: u8) -> bool {
    given.chain.chunks(16).any(|record| record[0] == kind)
}

/// For a chain of the predictor alone.
fn take_mode(given: &mut Given, mode: u8) {
    let record = &given.chain[..16];
    let offset = u32::from_le_bytes(record[4..8].try_into().unwrap()) as usize;
    let length = u32::from_le_bytes(record[8..12].try_into().unwrap()) as usize;
    for pixel in given.data[offset..offset + length].chunks_exact_mut(4) {
        pixel[1] = mode;
    }
}
