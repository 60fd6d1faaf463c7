//! The references behind plain calls. Each takes exactly the bytes of its stage, because
//! `apply_color_transform` works on every whole row that it is given.

// `reverse_transform`, `subsample_size` and `adjust_color_map`, put together by the build script.
include!(concat!(env!("OUT_DIR"), "/rust_source.rs"));

/// Adds its prediction to each pixel. Byte 1 of a block's pixel is the mode.
pub fn predictor(width: u16, height: u16, bits: u8, blocks: &[u8], bytes: &mut [u8]) {
    assert_eq!(bytes.len(), picture_len(width, height));
    assert_eq!(blocks.len(), blocks_len(width, height, bits));
    let Ok(()) = reverse_transform::apply_predictor_transform(bytes, width, height, bits, blocks);
}

/// Adds the deltas of green and red. The height is that of `bytes`.
pub fn color(width: u16, bits: u8, blocks: &[u8], bytes: &mut [u8]) {
    let row = picture_len(width, 1);
    assert_eq!(bytes.len() % row, 0);
    let height = u16::try_from(bytes.len() / row).unwrap();
    assert_eq!(blocks.len(), blocks_len(width, height, bits));
    reverse_transform::apply_color_transform(bytes, width, bits, blocks);
}

/// Adds green to red and blue.
pub fn subtract_green(bytes: &mut [u8]) {
    assert_eq!(bytes.len() % 4, 0);
    reverse_transform::apply_subtract_green_transform(bytes);
}

/// Unpacks the indices at the front of `bytes` into pixels. `width` is the expanded width, and
/// `bytes` has the expanded picture's size.
pub fn color_table(width: u16, height: u16, size: u16, entries: &[u8], bytes: &mut [u8]) {
    assert!((1..=256).contains(&size));
    assert_eq!(entries.len(), picture_len(size, 1));
    assert_eq!(bytes.len(), picture_len(width, height));
    reverse_transform::apply_color_indexing_transform(bytes, width, height, size, entries);
}

/// Adds to each entry of a color table the entry before it.
pub fn color_map(bytes: &mut [u8]) {
    adjust_color_map(bytes);
}

pub fn picture_len(width: u16, height: u16) -> usize {
    4 * usize::from(width) * usize::from(height)
}

fn blocks_len(width: u16, height: u16, bits: u8) -> usize {
    picture_len(subsample_size(width, bits), subsample_size(height, bits))
}
