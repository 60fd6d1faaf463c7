//! Document 02 (i), the report, as a plain program: a pixel is held against one color after the
//! other, and counted by itself.

use super::chain::side;
use super::forward::Pixel;
use super::number;

/// The number that `letchwater_report` has to return; `counters` is left as the call has to leave
/// it.
pub fn report(width: u32, height: u32, picture: &[u8], colors: &[u8], counters: &mut [u8]) -> u32 {
    number(try_report(width, height, picture, colors, counters))
}

/// Refusals 1, 23, 8 and 24 in this order; then the writing.
fn try_report(
    width: u32,
    height: u32,
    picture: &[u8],
    colors: &[u8],
    counters: &mut [u8],
) -> Result<(), u32> {
    let (width, height) = (side(width).ok_or(1u32)?, side(height).ok_or(1u32)?);
    let colors = listed(colors).ok_or(23u32)?;
    let counted = colors.len() + 1;
    let pixels = usize::from(width) * usize::from(height);
    if counters.len() < 8 * counted || picture.len() < 4 * pixels {
        return Err(8);
    }
    let counters = &mut counters.as_chunks_mut().0[..counted];
    let mut numbers: Vec<u64> = counters.iter().copied().map(u64::from_le_bytes).collect();
    for pixel in &picture.as_chunks().0[..pixels] {
        let number = &mut numbers[counter_of(colors, pixel)];
        *number = number.checked_add(1).ok_or(24u32)?;
    }
    for (counter, number) in counters.iter_mut().zip(numbers) {
        *counter = number.to_le_bytes();
    }
    Ok(())
}

/// The colors of a list of 4 to 1024 bytes in fours, unless one is listed twice.
fn listed(colors: &[u8]) -> Option<&[Pixel]> {
    let (colors, rest) = colors.as_chunks();
    let in_fours = rest.is_empty() && matches!(colors.len(), 1..=256);
    let twice = (0..colors.len()).any(|i| colors[..i].contains(&colors[i]));
    (in_fours && !twice).then_some(colors)
}

/// The counter of the pixel's color; the last one where no listed color is alike in all four bytes.
pub fn counter_of(colors: &[Pixel], pixel: &Pixel) -> usize {
    let alike = colors.iter().position(|color| color == pixel);
    alike.unwrap_or(colors.len())
}
