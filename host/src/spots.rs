//! The strip's records that a painted pixel can change.
//!
//! A record is predicted from pixels to its left and above it, so that the pixel at index p of the
//! predictor's stage, of width w there, counts for the pixels at p, p + 1, p + w - 1, p + w and
//! p + w + 1 and for no others: its spots. A color table before the predictor packs, so that p is then
//! the packed pixel that holds the painted one; a color table after it packs the spots. Without a
//! predictor the painted pixel is the only spot.

use crate::{Chain, Point};

/// Under a predictor; without one there is one.
pub(crate) const MOST_SPOTS: usize = 5;

/// The index of each spot's record, in the order of the spots. Those that no earlier spot has ascend.
/// A spot outside its stage has an index past the strip's last record.
///
/// The chain is a valid one, and the point is inside its pictures.
pub(crate) fn spot_records(chain: &Chain, point: Point) -> Vec<usize> {
    let width = chain.size().width as usize;
    let painted = point.y as usize * width + point.x as usize;
    chain.steps().fold(vec![painted], |spots, step| {
        if step.is_predictor {
            // A chain has one predictor, and there is one spot before it.
            return spots_of(spots[0], step.width as usize).to_vec();
        }
        let records = spots.into_iter().map(|spot| step.pixel_after(spot));
        records.collect()
    })
}

fn spots_of(pixel: usize, width: usize) -> [usize; MOST_SPOTS] {
    [0, 1, width - 1, width, width + 1].map(|distance| pixel + distance)
}

#[cfg(test)]
mod tests;
