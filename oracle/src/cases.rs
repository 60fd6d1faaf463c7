//! The inputs of the list, a function for each transform.

use crate::list::{Case, Transform};
use crate::model::indices_in_byte;
use crate::random::Xorshift;
use crate::reference::picture_len;

/// On either side of the ends of blocks, of packed pixels and of the 16 pixels that mode 7 takes at
/// a time.
const WIDTHS: [u16; 14] = [1, 2, 3, 4, 5, 7, 8, 9, 15, 16, 17, 31, 32, 33];

/// The modes that predict.
const PREDICTING: [u8; 14] = [0, 1, 2, 3, 4, 5, 6, 7, 8, 9, 10, 11, 12, 13];

/// The same and two that do not, no two alike side by side.
const MIXED: [u8; 16] = [0, 1, 2, 3, 4, 5, 6, 255, 7, 8, 9, 10, 11, 12, 13, 14];

/// Pairs of factors about the ends of the signed range and the steps of 32, by which a delta is
/// divided.
const FACTORS: [[u8; 2]; 6] = [
    [1, 31],
    [32, 33],
    [96, 127],
    [128, 129],
    [160, 224],
    [225, 255],
];

pub fn predictor_cases(random: &mut Xorshift) -> Vec<Case> {
    let mut cases = Vec::new();
    // Every mode where the borders decide: column 0 alone, one pixel inside that is also in the
    // last column, and two by two inside.
    for (width, height) in [(1, 2), (2, 2), (3, 3)] {
        for mode in 0..=255 {
            cases.push(predictor_case(random, width, height, 2, &[mode]));
        }
    }
    for mode in PREDICTING {
        for (width, bits) in WIDTHS.into_iter().zip((2..=9).cycle().skip(mode.into())) {
            let height = if width < 7 { 3 } else { 2 };
            cases.push(predictor_case(random, width, height, bits, &[mode]));
        }
    }
    for (width, height) in [(1, 1), (2, 1), (5, 1), (17, 1), (1, 5), (1, 17), (2, 9)] {
        cases.push(predictor_case(random, width, height, 2, &MIXED));
    }
    for (width, height) in [(4, 4), (5, 5), (7, 9), (8, 8), (9, 9), (12, 13), (17, 15)] {
        for bits in [2, 3] {
            cases.push(predictor_case(random, width, height, bits, &MIXED));
        }
    }
    for bits in 2..=9 {
        let past_block = (1 << bits) + 1;
        cases.push(predictor_case(random, past_block, 2, bits, &PREDICTING));
        cases.push(predictor_case(random, 2, past_block, bits, &PREDICTING));
    }
    cases
}

pub fn color_cases(random: &mut Xorshift) -> Vec<Case> {
    let mut cases = Vec::new();
    // A few factors with every green.
    for [to_blue, to_red] in FACTORS {
        let mut case = color_case(random, 16, 16, 4);
        case.data[..3].copy_from_slice(&[to_blue, to_blue, to_red]);
        take_greens(&mut case.input, 0..=255);
        cases.push(case);
    }
    // Every factor with the ends of the signed range, one block each.
    let mut case = color_case(random, 1024, 1, 2);
    for (block, factor) in case.data.chunks_exact_mut(4).zip(0..=255) {
        block[..3].copy_from_slice(&[factor, factor ^ 0x55, !factor]);
    }
    take_greens(&mut case.input, [1, 127, 128, 255].into_iter());
    cases.push(case);

    for (i, width) in (0..).zip(WIDTHS) {
        cases.push(color_case(random, width, 1 + i % 5, 2 + (i % 4) as u8));
    }
    for bits in 2..=9 {
        let past_block = (1 << bits) + 1;
        cases.push(color_case(random, past_block, 1, bits));
        cases.push(color_case(random, 1, past_block, bits));
    }
    cases
}

pub fn subtract_green_cases(random: &mut Xorshift) -> Vec<Case> {
    let mut cases = Vec::new();
    for _ in 0..2 {
        let mut case = subtract_green_case(random, 16, 16);
        take_greens(&mut case.input, 0..=255);
        cases.push(case);
    }
    for (i, width) in (0..).zip(WIDTHS) {
        cases.push(subtract_green_case(random, width, 1 + i % 3));
    }
    cases
}

pub fn color_table_cases(random: &mut Xorshift) -> Vec<Case> {
    let mut cases = Vec::new();
    // Every packed byte.
    for size in [2, 3, 5, 16, 17, 255, 256] {
        let mut case = color_table_case(random, 16 * indices_in_byte(size), 16, size);
        take_greens(&mut case.input, 0..=255);
        cases.push(case);
    }
    for size in [1, 2, 3, 4, 5, 16] {
        for (i, width) in (0..).zip(WIDTHS) {
            cases.push(color_table_case(random, width, 1 + (i + size) % 3, size));
        }
    }
    for size in [17, 255, 256] {
        for (width, height) in [(1, 5), (17, 3)] {
            cases.push(color_table_case(random, width, height, size));
        }
    }
    cases.extend(storable_cases(random));
    cases
}

/// Every pixel has an entry, so that storing has to accept the picture.
fn storable_cases(random: &mut Xorshift) -> Vec<Case> {
    let mut cases = Vec::new();
    for size in [1, 2, 3, 4, 5, 16, 17, 255, 256] {
        let widths = WIDTHS.into_iter().take_while(|&width| width <= 17);
        for (i, width) in (0..).zip(widths) {
            let mut case = color_table_case(random, width, 1 + (i + size) % 3, size);
            for pixel in case.input.chunks_exact_mut(4) {
                pixel[1] = indices_in_range(random, size);
            }
            cases.push(case);
        }
    }
    // Indices past the table too: they give (0, 0, 0, 0), which is an entry here.
    for size in [1, 3, 5, 17, 255] {
        let mut case = color_table_case(random, 17, 3, size);
        let last = case.data.len() - 4;
        case.data[last..].fill(0);
        cases.push(case);
    }
    cases
}

pub fn color_map_cases(random: &mut Xorshift) -> Vec<Case> {
    let mut cases = Vec::new();
    for entries in [1, 2, 3, 4, 5, 16, 17, 255, 256] {
        cases.push(color_map_case(random, entries));
        cases.push(color_map_case(random, entries));
    }
    cases
}

/// The blocks take the modes in turn, from any of them on.
fn predictor_case(random: &mut Xorshift, width: u16, height: u16, bits: u8, modes: &[u8]) -> Case {
    let mut data = blocks(random, width, height, bits);
    let first = usize::from(random.byte()) % modes.len();
    let modes = modes.iter().cycle().skip(first);
    for (block, &mode) in data.chunks_exact_mut(4).zip(modes) {
        block[1] = mode;
    }
    Case {
        transform: Transform::Predictor,
        bits,
        size: 0,
        width,
        height,
        data,
        input: random.residuals(picture_len(width, height)),
    }
}

fn color_case(random: &mut Xorshift, width: u16, height: u16, bits: u8) -> Case {
    Case {
        transform: Transform::Color,
        bits,
        size: 0,
        width,
        height,
        data: blocks(random, width, height, bits),
        input: random.bytes(picture_len(width, height)),
    }
}

fn subtract_green_case(random: &mut Xorshift, width: u16, height: u16) -> Case {
    Case {
        transform: Transform::SubtractGreen,
        bits: 0,
        size: 0,
        width,
        height,
        data: Vec::new(),
        input: random.bytes(picture_len(width, height)),
    }
}

fn color_table_case(random: &mut Xorshift, width: u16, height: u16, size: u16) -> Case {
    let packed_width = width.div_ceil(indices_in_byte(size));
    Case {
        transform: Transform::ColorTable,
        bits: 0,
        size,
        width,
        height,
        data: random.bytes(picture_len(size, 1)),
        input: random.bytes(picture_len(packed_width, height)),
    }
}

fn color_map_case(random: &mut Xorshift, entries: u16) -> Case {
    Case {
        transform: Transform::ColorMap,
        bits: 0,
        size: 0,
        width: entries,
        height: 1,
        data: Vec::new(),
        input: random.bytes(picture_len(entries, 1)),
    }
}

/// Any pixels, one for each block.
fn blocks(random: &mut Xorshift, width: u16, height: u16, bits: u8) -> Vec<u8> {
    let side = 1 << bits;
    random.bytes(picture_len(width.div_ceil(side), height.div_ceil(side)))
}

fn take_greens(bytes: &mut [u8], greens: impl Iterator<Item = u8> + Clone) {
    for (pixel, green) in bytes.chunks_exact_mut(4).zip(greens.cycle()) {
        pixel[1] = green;
    }
}

/// A packed byte, every index below the size.
fn indices_in_range(random: &mut Xorshift, size: u16) -> u8 {
    let n = indices_in_byte(size);
    let byte = (0..n).fold(0, |byte, _| byte << (8 / n) | random.below(size.into()));
    byte as u8
}
