//! Storing and rebuilding undo each other, for every order of the transforms.

mod chains;
mod common;

use chains::{orders, random_chain, Transform};
use common::Xorshift;
use letchwater::{
    rebuild, rebuild_in_place, store, store_into, Chain, Picture, Pixel, Size, Strip,
};
use std::iter::repeat;

const WIDTHS: [u32; 6] = [1, 2, 3, 5, 8, 17];
const HEIGHTS: [u32; 3] = [1, 2, 7];

/// The ends of the four bands of sizes, in which a packed pixel holds 8, 4, 2 and 1 indices.
const TABLES: [usize; 8] = [1, 2, 3, 4, 5, 16, 17, 256];

/// The table has a clear entry, so that every index, past its end too, gives a pixel that storing
/// finds.
fn chain(random: &mut Xorshift, order: &[Transform], size: Size, entries: usize) -> Chain {
    random_chain(random, order, size, |random, _| {
        let mut table = random.pixels(entries);
        table[usize::from(random.byte()) % entries] = Pixel::new(0, 0, 0, 0);
        table
    })
}

fn sizes() -> impl Iterator<Item = Size> {
    let rows = |width| HEIGHTS.map(|height| Size::new(width, height));
    WIDTHS.into_iter().flat_map(rows)
}

fn random_strip(random: &mut Xorshift, size: Size) -> Strip {
    let bytes = random.bytes(size.byte_count().unwrap());
    Strip::from_bytes(size, bytes).unwrap()
}

#[test]
fn without_a_table_every_picture_and_every_strip() {
    let mut random = Xorshift::new(0x5DEE_CE66_D1CE_CAFE);
    let mut changed = 0;
    for order in orders() {
        if order.contains(&Transform::ColorTable) {
            continue;
        }
        for size in sizes() {
            let chain = chain(&mut random, &order, size, 0);
            let bytes = random.bytes(size.byte_count().unwrap());
            let picture = Picture::from_bytes(size, bytes).unwrap();
            let strip = store(&chain, &picture).unwrap();
            assert_eq!(rebuild(&chain, &strip), Ok(picture.clone()));
            changed += usize::from(strip.as_bytes() != picture.as_bytes());

            let strip = random_strip(&mut random, chain.strip_size());
            let picture = rebuild(&chain, &strip).unwrap();
            assert_eq!(store(&chain, &picture), Ok(strip));
        }
    }
    assert!(changed > 250, "{changed} of 288 pictures were transformed");
}

#[test]
fn with_a_table_every_picture_that_is_rebuilt() {
    let mut random = Xorshift::new(0x2545_F491_4F6C_DD1D);
    for order in orders() {
        if !order.contains(&Transform::ColorTable) {
            continue;
        }
        for size in sizes() {
            for entries in TABLES {
                let chain = chain(&mut random, &order, size, entries);
                let strip = random_strip(&mut random, chain.strip_size());
                let picture = rebuild(&chain, &strip).unwrap();
                let stored = store(&chain, &picture).unwrap();
                assert_eq!(stored.size(), chain.strip_size());
                assert_eq!(rebuild(&chain, &stored), Ok(picture));
            }
        }
    }
}

/// The records of a table alone, made here of the indices. The unused positions of a row's last
/// record hold what `unused` makes of the row's last index.
fn packed(indices: &[usize], width: u32, bits: usize, unused: fn(usize) -> usize) -> Vec<Pixel> {
    let record = |indices: &[usize]| {
        let last = indices[indices.len() - 1];
        let held = indices.iter().copied().chain(repeat(unused(last)));
        let shifts = (0..8).step_by(bits);
        let byte: usize = shifts.zip(held).map(|(shift, index)| index << shift).sum();
        Pixel::opaque(0, byte as u8, 0)
    };
    let rows = indices.chunks(width as usize);
    let records = rows.flat_map(|row| row.chunks(8 / bits));
    records.map(record).collect()
}

/// A table alone is stored as `packed` makes it here, and rebuilds; so does a strip stored earlier,
/// with zero bits at the ends of rows.
#[test]
fn table_alone() {
    let mut random = Xorshift::new(0x9FB2_1C65_1E98_DF25);
    for (entries, bits) in TABLES.into_iter().zip([1, 1, 2, 2, 4, 4, 8, 8]) {
        // Distinct, so that each index is the lowest of its entry.
        let entry = |i| Pixel::new(i as u8, 1, 2, 3);
        let table: Vec<Pixel> = (0..entries).map(entry).collect();
        for size in sizes() {
            let index = |_| usize::from(random.byte()) % entries;
            let indices: Vec<usize> = (0..size.pixel_count()).map(index).collect();
            let pixels = indices.iter().map(|&index| table[index]);
            let picture = Picture::from_pixels(size, pixels).unwrap();

            let chain = Chain::new(size).color_table(&table);
            let stored = store(&chain, &picture).unwrap();
            let strip = packed(&indices, size.width, bits, |last| last);
            assert!(stored.records().eq(strip), "{size}, {entries}");
            assert_eq!(rebuild(&chain, &stored), Ok(picture.clone()));

            let earlier = packed(&indices, size.width, bits, |_| 0);
            let earlier = earlier.into_iter().flat_map(Pixel::to_bytes).collect();
            let earlier = Strip::from_bytes(chain.strip_size(), earlier).unwrap();
            assert_eq!(rebuild(&chain, &earlier), Ok(picture));
        }
    }
}

#[test]
fn storing_takes_the_lowest_index() {
    let [a, b] = [1, 2].map(|red| Pixel::opaque(red, 0, 0));
    let size = Size::new(4, 1);
    let picture = Picture::from_pixels(size, [b, a, b, a]).unwrap();
    let chain = Chain::new(size).color_table(&[a, b, a, b]);
    let strip = store(&chain, &picture).unwrap();
    assert_eq!(strip.as_bytes(), [0, 0b00_01_00_01, 0, 255]);
}

/// Lent buffers that are longer than needed keep the bytes beyond.
#[test]
fn bytes_beyond_stay() {
    let mut random = Xorshift::new(0x1234_5678_9ABC_DEF1);
    for order in orders() {
        let size = Size::new(17, 7);
        let chain = chain(&mut random, &order, size, 5);
        let strip = random_strip(&mut random, chain.strip_size());
        let picture = rebuild(&chain, &strip).unwrap();
        let beyond = random.bytes(64);

        let mut image = [vec![0; size.byte_count().unwrap()], beyond.clone()].concat();
        image[..strip.as_bytes().len()].copy_from_slice(strip.as_bytes());
        rebuild_in_place(&chain, &mut image).unwrap();
        assert!(image == [picture.as_bytes(), &beyond].concat());

        let stored = store(&chain, &picture).unwrap();
        let mut lent = [random.bytes(stored.as_bytes().len()), beyond.clone()].concat();
        store_into(&chain, &image, &mut lent).unwrap();
        assert!(lent == [stored.as_bytes(), &beyond].concat());
    }
}
