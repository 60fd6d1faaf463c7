//! Which records a retouch changed.

use crate::error::refused;
use crate::spots::{spot_records, MOST_SPOTS};
use crate::{Chain, Error, Point};

/// The records of a strip that a retouch changed: at most five. Every other record is as it was, so that
/// a strip that was alike before is alike again once it has these.
#[derive(Clone, Copy, Debug, Default, PartialEq, Eq)]
pub struct ChangedRecords {
    indices: [usize; MOST_SPOTS],
    count: usize,
}

impl ChangedRecords {
    /// How many there are. A [`crate::StoredPicture`] has none exactly where the pixel had the color.
    pub fn count(&self) -> usize {
        self.count
    }

    /// Their indices for [`crate::Strip::record`], in the order of the spots, which is ascending.
    pub fn indices(&self) -> &[usize] {
        &self.indices[..self.count]
    }

    /// Reads the answer of a retouch, `256 + 32 * count + mask` where it was accepted.
    pub(crate) fn read(answer: u32, chain: &Chain, point: Point) -> Result<Self, Error> {
        let accepted = answer.checked_sub(256).ok_or(refused(answer))?;
        let (count, mask) = (accepted / 32, accepted % 32);
        let changed = Self::of_mask(mask, &spot_records(chain, point), chain);
        changed
            .filter(|_| count == mask.count_ones())
            .ok_or(Error::UnknownAnswer(answer))
    }

    /// Nothing where the mask names a spot that there is not.
    fn of_mask(mask: u32, spot_records: &[usize], chain: &Chain) -> Option<Self> {
        let end = chain.strip_size().pixel_count();
        let mut changed = Self::default();
        for spot in (0..MOST_SPOTS).filter(|spot| mask >> spot & 1 == 1) {
            let record = *spot_records.get(spot)?;
            changed.indices[changed.count] = (record < end).then_some(record)?;
            changed.count += 1;
        }
        Some(changed)
    }
}

#[cfg(test)]
mod tests {
    use super::*;
    use crate::{Pixel, Refusal, Size};

    /// Four pixels by two under a predictor, the point in the last column of the first row.
    fn read(answer: u32) -> Result<ChangedRecords, Error> {
        let chain = Chain::new(Size::new(4, 2)).predictor(2, &[Pixel::predictor_block(10)]);
        ChangedRecords::read(answer, &chain, Point::new(3, 0))
    }

    #[test]
    fn accepted() {
        let indices = |answer| read(answer).unwrap().indices().to_vec();
        assert_eq!(indices(256), []);
        assert_eq!(indices(256 + 32 + 0b100), [6]);
        assert_eq!(indices(256 + 3 * 32 + 0b1101), [3, 6, 7]);
        assert_eq!(read(256 + 3 * 32 + 0b1101).unwrap().count(), 3);
    }

    #[test]
    fn refused() {
        for refusal in Refusal::ALL {
            assert_eq!(read(refusal.number()), Err(Error::Refused(refusal)));
        }
    }

    /// A count that is not the mask's, spot 4 past the strip's end, and what is no answer at all.
    #[test]
    fn unknown() {
        let wrong_count = [256 + 1, 256 + 32, 256 + 32 + 0b11, 256 + 6 * 32 + 0b1111];
        let past_the_end = [256 + 32 + 0b10000];
        let none = [0, 11, 33, 255, 512, u32::MAX];
        for answer in [&wrong_count[..], &past_the_end, &none].concat() {
            assert_eq!(read(answer), Err(Error::UnknownAnswer(answer)));
        }
        let no_predictor = Chain::new(Size::new(4, 2));
        let second_spot = 256 + 32 + 0b10;
        let answer = ChangedRecords::read(second_spot, &no_predictor, Point::new(0, 0));
        assert_eq!(answer, Err(Error::UnknownAnswer(second_spot)));
    }
}
