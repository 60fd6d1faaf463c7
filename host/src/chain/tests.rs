//! The layout, held against document 01's table of kinds, written out by hand.

use super::*;
use crate::Refusal;

const A: Pixel = Pixel::new(1, 2, 3, 4);
const B: Pixel = Pixel::new(5, 6, 7, 8);
const C: Pixel = Pixel::new(9, 10, 11, 12);

#[test]
fn empty() {
    let chain = Chain::new(Size::new(7, 5));
    assert_eq!(chain.records(), []);
    assert_eq!(chain.data(), []);
    assert_eq!(chain.size(), Size::new(7, 5));
    assert_eq!(chain.strip_size(), Size::new(7, 5));
}

/// Fields in order: kind, bits, size (2 bytes), offset (4), length (4), four zero bytes.
#[test]
fn every_kind() {
    let chain = Chain::new(Size::new(17, 3))
        .predictor(4, &[A, B])
        .color(9, &[C])
        .subtract_green()
        .color_table(&[B, A, C]);
    let records = [
        [0, 4, 0, 0, 0, 0, 0, 0, 8, 0, 0, 0, 0, 0, 0, 0],
        [1, 9, 0, 0, 8, 0, 0, 0, 4, 0, 0, 0, 0, 0, 0, 0],
        [2, 0, 0, 0, 0, 0, 0, 0, 0, 0, 0, 0, 0, 0, 0, 0],
        [3, 0, 3, 0, 12, 0, 0, 0, 12, 0, 0, 0, 0, 0, 0, 0],
    ];
    let data = [
        1, 2, 3, 4, 5, 6, 7, 8, 9, 10, 11, 12, 5, 6, 7, 8, 1, 2, 3, 4, 9, 10, 11, 12,
    ];
    assert_eq!(chain.records(), records.concat());
    assert_eq!(chain.data(), data);
    assert_eq!(chain.check(), Ok(()));
}

/// 256 entries, then 260 blocks: each of size, offset and length takes two bytes.
#[test]
fn fields_are_little_endian() {
    let chain = Chain::new(Size::new(1040, 4)).color_table(&[A; 256]);
    let chain = chain.predictor(2, &[B; 260]);
    let records = [
        [3, 0, 0, 1, 0, 0, 0, 0, 0, 4, 0, 0, 0, 0, 0, 0],
        [0, 2, 0, 0, 0, 4, 0, 0, 16, 4, 0, 0, 0, 0, 0, 0],
    ];
    assert_eq!(chain.records(), records.concat());
    assert_eq!(chain.data().len(), 1024 + 1040);
    assert_eq!(chain.check(), Ok(()));
}

#[test]
fn packed_widths() {
    let expected = [
        (1, [1, 1, 1, 2, 3]),
        (2, [1, 1, 1, 2, 3]),
        (3, [1, 1, 2, 3, 5]),
        (4, [1, 1, 2, 3, 5]),
        (5, [1, 2, 4, 5, 9]),
        (16, [1, 2, 4, 5, 9]),
        (17, [1, 3, 8, 9, 17]),
        (256, [1, 3, 8, 9, 17]),
    ];
    for (entries, packed) in expected {
        for (width, packed) in [1, 3, 8, 9, 17].into_iter().zip(packed) {
            let chain = Chain::new(Size::new(width, 6)).color_table(&vec![A; entries]);
            assert_eq!(
                chain.strip_size(),
                Size::new(packed, 6),
                "{width}, {entries}"
            );
            assert_eq!(chain.check(), Ok(()));
        }
    }
}

/// Blocks are counted at the current width: the picture's before the table, the packed after it.
#[test]
fn blocks_before_and_after_the_table() {
    let chain = Chain::new(Size::new(33, 9));
    assert_eq!(chain.blocks(2), Size::new(9, 3));
    assert_eq!(chain.blocks(3), Size::new(5, 2));
    assert_eq!(chain.blocks(5), Size::new(2, 1));
    assert_eq!(chain.blocks(9), Size::new(1, 1));
    let chain = chain.color_table(&[A, B]);
    assert_eq!(chain.blocks(2), Size::new(2, 3));
    assert_eq!(chain.blocks(3), Size::new(1, 2));
}

#[test]
fn block_counts_are_those_of_the_library() {
    for (width, height) in [(1, 1), (4, 5), (5, 4), (17, 33), (513, 1), (16384, 3)] {
        for bits in 2..=9 {
            let chain = Chain::new(Size::new(width, height)).color_table(&[A, B, C]);
            let count = chain.blocks(bits).pixel_count();
            let with = |count| chain.clone().color(bits, &vec![A; count]).check();
            assert_eq!(with(count), Ok(()));
            assert_eq!(with(count + 1), Err(Refusal::WrongLength.into()));
            assert_eq!(with(count - 1), Err(Refusal::WrongLength.into()));
        }
    }
}

#[test]
fn bits_past_every_side() {
    let chain = Chain::new(Size::new(16384, 16384));
    for bits in [31, 32, 255] {
        assert_eq!(chain.blocks(bits), Size::new(1, 1));
    }
}

#[test]
fn too_many_entries_for_the_field_are_refused() {
    for entries in [0, 257, 65_535, 65_536, 65_537, 65_536 + 256] {
        let chain = Chain::new(Size::new(2, 2)).color_table(&vec![A; entries]);
        assert_eq!(chain.check(), Err(Refusal::NotTabled.into()), "{entries}");
    }
}

#[test]
fn parts_past_32_bits_have_no_length_of_any_kind() {
    let largest = u32::MAX as usize;
    assert_eq!(part(largest, 8), (u32::MAX, 8));
    assert_eq!(part(8, largest - 3), (8, u32::MAX - 3));
    for (offset, length) in [
        (largest + 1, 8),
        (8, largest + 1),
        (largest + 9, largest + 9),
    ] {
        assert_eq!(part(offset, length).1 % 4, 3);
    }
}

#[test]
fn parts_make_the_same_chain() {
    let chain = Chain::new(Size::new(17, 3))
        .color_table(&[A, B])
        .subtract_green();
    let (records, data) = (chain.records().to_vec(), chain.data().to_vec());
    assert_eq!(Chain::from_parts(chain.size(), records, data), chain);
}
