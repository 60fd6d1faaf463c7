//! A picture that is corrected, and its strip.

use crate::{retouch_in_place, store, Chain, ChangedRecords, Error, Picture, Pixel, Point, Strip};

/// A picture held together with its strip, for corrections.
///
/// The strip is the picture stored under the chain, alike in every byte. It is made so by storing, and
/// nothing but [`StoredPicture::retouch`] writes either, which keeps it so: that is the library's
/// theorem about every list of retouches, accepted or refused, from a stored picture on.
///
/// A strip that was stored earlier, with zero bits at the ends of rows, may differ from what [`store`]
/// makes of its picture, and is not retouched. [`crate::rebuild`] gives the picture, and a
/// `StoredPicture` of it has a strip to begin from.
#[derive(Clone, Debug, PartialEq, Eq)]
pub struct StoredPicture {
    chain: Chain,
    picture: Picture,
    strip: Strip,
}

impl StoredPicture {
    /// Stores `picture` under `chain`, and holds both with the strip. Where storing refuses the
    /// picture there is nothing to retouch.
    pub fn new(chain: Chain, picture: Picture) -> Result<Self, Error> {
        let strip = store(&chain, &picture)?;
        Ok(Self {
            chain,
            picture,
            strip,
        })
    }

    /// Paints the pixel at `point`, and says which records of the strip this changed.
    ///
    /// It is accepted exactly where the point is inside and storing accepts the painted picture;
    /// otherwise it is refused by [`crate::Refusal::PointOutside`] or
    /// [`crate::Refusal::NoEntryForRetouch`], and no byte changes. The time that it takes does not grow
    /// with the picture.
    pub fn retouch(&mut self, point: Point, color: Pixel) -> Result<ChangedRecords, Error> {
        let (picture, strip) = (self.picture.as_bytes_mut(), self.strip.as_bytes_mut());
        retouch_in_place(&self.chain, picture, strip, point, color)
    }

    /// The chain.
    pub fn chain(&self) -> &Chain {
        &self.chain
    }

    /// The picture, with the accepted retouches painted.
    pub fn picture(&self) -> &Picture {
        &self.picture
    }

    /// The picture's strip.
    pub fn strip(&self) -> &Strip {
        &self.strip
    }

    /// The three, apart.
    pub fn into_parts(self) -> (Chain, Picture, Strip) {
        (self.chain, self.picture, self.strip)
    }
}
