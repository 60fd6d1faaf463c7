//! The spots of a retouch, and the strip's records that they belong to.

use super::chain::{indices_in_byte, Chain, Step, Transform};
use crate::calls::Retouch;

impl Chain<'_> {
    /// The index of the pixel that is retouched; nothing where the point is outside.
    pub fn pixel_of(&self, retouch: Retouch) -> Option<usize> {
        let (x, y) = (retouch.x as usize, retouch.y as usize);
        let (width, height) = (usize::from(self.width), usize::from(self.height));
        (x < width && y < height).then_some(y * width + x)
    }

    /// The record of each spot in order; nothing for a spot that is outside its stage.
    pub fn spot_records(&self, pixel: usize) -> Vec<Option<usize>> {
        let is_predictor = |step: &Step| matches!(step.transform, Transform::Predictor { .. });
        let Some(predictor) = self.steps.iter().position(is_predictor) else {
            return vec![Some(place_after(&self.steps, pixel))];
        };
        let (before, rest) = self.steps.split_at(predictor);
        let p = place_after(before, pixel);
        let w = usize::from(rest[0].width);
        let inside = w * usize::from(self.height);
        [p, p + 1, p + w - 1, p + w, p + w + 1]
            .map(|spot| (spot < inside).then(|| place_after(rest, spot)))
            .to_vec()
    }
}

/// Where the item stands after the steps, or the packed pixel that holds it.
fn place_after(steps: &[Step], item: usize) -> usize {
    let mut item = item;
    for step in steps {
        if let Transform::ColorTable { size, .. } = step.transform {
            let (width, n) = (usize::from(step.width), indices_in_byte(size).into());
            let (x, y) = (item % width, item / width);
            item = y * width.div_ceil(n) + x / n;
        }
    }
    item
}

/// Bit k is 1 if spot k is inside, its record changed, and no earlier spot has the same record.
pub fn mask(spots: &[Option<usize>], changed: impl Fn(usize) -> bool) -> u32 {
    let mut mask = 0;
    for (k, spot) in spots.iter().enumerate() {
        let Some(record) = spot else { continue };
        if changed(*record) && !spots[..k].contains(spot) {
            mask |= 1 << k;
        }
    }
    mask
}
