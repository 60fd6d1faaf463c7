//! Lists from a picture that storing accepts and its strip, beside the desk.

use crate::compared::{Compared, LISTED};
use oracle::given::{orders, Plan, COLOR, COLOR_TABLE, PREDICTOR, SIZES, SUBTRACT_GREEN};
use oracle::scenes::Scene;

const LARGE_CHAINS: [&[u8]; 4] = [
    &[SUBTRACT_GREEN, PREDICTOR, COLOR],
    &[COLOR_TABLE, PREDICTOR],
    &[PREDICTOR, COLOR_TABLE],
    &[COLOR, COLOR_TABLE],
];

/// Rows and columns of a few pixels, in which the borders decide nearly everything, and more.
#[test]
fn every_order() {
    let mut compared = Compared::new("every order", 0x2D35_8DCC_AA6C_78A5);
    for kinds in orders() {
        for size in SIZES {
            for _ in 0..15 {
                let most = compared.random.choose(&[3, 9, 9, 26]);
                let width = 1 + compared.random.below(most) as u16;
                let height = 1 + compared.random.below(most.min(9)) as u16;
                let mut plan = Plan::any(&mut compared.random, width, height, &kinds);
                plan.size = size;
                let len = compared.random.choose(&[10, 40, 40, 150]);
                list(&mut compared, &plan, len);
            }
        }
    }
    compared.finish(&LISTED);
}

/// One mode in all blocks of the predictor, over all sizes up to 4 by 4.
#[test]
fn every_mode() {
    let mut compared = Compared::new("every mode", 0x8BB8_4B93_962E_ACC9);
    for mode in 0..=255 {
        for (width, height) in (1..=4).flat_map(|w| (1..=4).map(move |h| (w, h))) {
            let mut plan = Plan::any(&mut compared.random, width, height, &[PREDICTOR]);
            plan.overlapping = false;
            let mut scene = Scene::any(&mut compared.random, &plan, 12);
            for block in scene.given.part_mut(0) {
                block[1] = mode;
            }
            compared.with_desk(&scene);
        }
    }
    compared.finish(&LISTED[2..]);
}

/// Spots that share a record, with the table behind the predictor and before it.
#[test]
fn every_size_of_table() {
    let mut compared = Compared::new("every size of table", 0x4B33_A62E_D433_D4A3);
    for size in 1..=256 {
        for kinds in [
            &[PREDICTOR, COLOR_TABLE][..],
            &[COLOR_TABLE, PREDICTOR],
            &[COLOR_TABLE],
        ] {
            let width = 1 + compared.random.below(20) as u16;
            let mut plan = Plan::any(&mut compared.random, width, 4, kinds);
            plan.size = size;
            list(&mut compared, &plan, 20);
        }
    }
    compared.finish(&LISTED);
}

/// The widest and the highest, and sides that end just before, at or after a packed pixel or block.
#[test]
fn long_sides() {
    const LONG: [(u16, u16); 8] = [
        (16384, 1),
        (1, 16384),
        (5, 4097),
        (513, 33),
        (31, 515),
        (8193, 3),
        (16384, 2),
        (2, 8192),
    ];
    let mut compared = Compared::new("long sides", 0x4D5A_2DA5_1DE1_AA47);
    for (kinds, (width, height)) in orders().iter().zip(LONG.into_iter().cycle()) {
        let plan = Plan::any(&mut compared.random, width, height, kinds);
        list(&mut compared, &plan, 12);
    }
    compared.finish(&LISTED);
}

/// Many blocks in both directions.
#[test]
fn middle_sizes() {
    let mut compared = Compared::new("middle sizes", 0x6C62_272E_07BB_0142);
    for kinds in orders() {
        let width = 41 + compared.random.below(120) as u16;
        let height = 21 + compared.random.below(60) as u16;
        let plan = Plan::any(&mut compared.random, width, height, &kinds);
        list(&mut compared, &plan, 8);
    }
    for kinds in LARGE_CHAINS {
        let plan = Plan::any(&mut compared.random, 1025, 515, kinds);
        list(&mut compared, &plan, 4);
    }
    compared.finish(&LISTED[..5]);
}

/// The largest map there is.
#[test]
#[ignore = "takes 9 GiB of memory and some minutes; run by hand"]
fn largest_map() {
    let mut compared = Compared::new("largest map", 0x27D4_EB2F_1656_67C5);
    for kinds in LARGE_CHAINS {
        let plan = Plan::any(&mut compared.random, 16384, 16384, kinds);
        list(&mut compared, &plan, 3);
    }
    compared.finish(&[]);
}

fn list(compared: &mut Compared, plan: &Plan, len: usize) {
    let scene = Scene::any(&mut compared.random, plan, len);
    compared.with_desk(&scene);
}
