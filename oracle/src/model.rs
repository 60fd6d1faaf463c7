//! Document 01, and document 02 as far as it is here, as a plain program: what each call answers,
//! and every byte that it leaves. It is written from these papers' sentences alone. Rebuilding is
//! the Rust's calls in reverse; what the Rust has not is written out.

mod chain;
mod desk;
mod forward;
mod report;
mod retouch;
mod spots;

pub use chain::{indices_in_byte, Chain, Step, Transform, KINDS};
pub use desk::Desk;
use forward::{Pixel, Unused};
pub use report::{counter_of, report};
pub use retouch::retouch;

/// The number that `letchwater_rebuild` has to return; `image` is left as the call has to leave it.
pub fn rebuild(width: u32, height: u32, chain: &[u8], data: &[u8], image: &mut [u8]) -> u32 {
    number(try_rebuild(width, height, chain, data, image))
}

/// The number that `letchwater_store` has to return; `strip` is left as the call has to leave it.
pub fn store(
    width: u32,
    height: u32,
    chain: &[u8],
    data: &[u8],
    picture: &[u8],
    strip: &mut [u8],
) -> u32 {
    number(try_store(width, height, chain, data, picture, strip))
}

fn number(answer: Result<(), u32>) -> u32 {
    answer.err().unwrap_or(0)
}

fn try_rebuild(
    width: u32,
    height: u32,
    chain: &[u8],
    data: &[u8],
    image: &mut [u8],
) -> Result<(), u32> {
    let chain = Chain::read(width, height, chain, data)?;
    if image.len() < chain.picture_len() {
        return Err(8);
    }
    chain.rebuild_before(chain.steps.len(), image);
    Ok(())
}

fn try_store(
    width: u32,
    height: u32,
    chain: &[u8],
    data: &[u8],
    picture: &[u8],
    strip: &mut [u8],
) -> Result<(), u32> {
    let chain = Chain::read(width, height, chain, data)?;
    if picture.len() < chain.picture_len() || strip.len() < chain.strip_len() {
        return Err(8);
    }
    let pixels = pixels(&picture[..chain.picture_len()]);
    let records = stored(&chain, Unused::LastIndex, &pixels).ok_or(21u32)?;
    strip[..chain.strip_len()].copy_from_slice(records.as_flattened());
    Ok(())
}

/// The strip of a picture that storing accepts, as it was stored earlier: document 01's zero bits
/// are at the ends of its rows.
pub fn stored_earlier(chain: &Chain, picture: &[u8]) -> Vec<u8> {
    let pixels = pixels(&picture[..chain.picture_len()]);
    let records = stored(chain, Unused::ZeroBits, &pixels).expect("the picture is accepted");
    records.into_flattened()
}

/// The strip's records; nothing where storing does not accept the picture.
fn stored(chain: &Chain, unused: Unused, picture: &[Pixel]) -> Option<Vec<Pixel>> {
    let mut pixels = picture.to_vec();
    for step in &chain.steps {
        pixels = forward(step, unused, &pixels)?;
    }
    Some(pixels)
}

/// What the step leaves of the pixels; nothing where one of them has no entry.
fn forward(step: &Step, unused: Unused, pixels: &[Pixel]) -> Option<Vec<Pixel>> {
    match step.transform {
        Transform::Predictor { bits, blocks } => {
            Some(forward::predictor(step.width, bits, blocks, pixels))
        }
        Transform::Color { bits, blocks } => Some(forward::color(step.width, bits, blocks, pixels)),
        Transform::SubtractGreen => Some(forward::subtract_green(pixels)),
        Transform::ColorTable { entries, .. } => {
            forward::color_table(step.width, entries, unused, pixels)
        }
    }
}

fn pixels(bytes: &[u8]) -> Vec<Pixel> {
    bytes.as_chunks().0.to_vec()
}

impl Chain<'_> {
    /// Undoes the steps before the given one, last first: the front of `image` holds what that step
    /// is given by storing, and becomes the picture. Each of the Rust's calls gets exactly its
    /// stage's bytes.
    pub fn rebuild_before(&self, step: usize, image: &mut [u8]) {
        let height = self.height;
        for step in self.steps[..step].iter().rev() {
            let (width, bytes) = (step.width, &mut image[..self.stage_len(step.width)]);
            match step.transform {
                Transform::Predictor { bits, blocks } => {
                    crate::predictor(width, height, bits, blocks, bytes);
                }
                Transform::Color { bits, blocks } => crate::color(width, bits, blocks, bytes),
                Transform::SubtractGreen => crate::subtract_green(bytes),
                Transform::ColorTable { size, entries } => {
                    crate::color_table(width, height, size, entries, bytes);
                }
            }
        }
    }
}
