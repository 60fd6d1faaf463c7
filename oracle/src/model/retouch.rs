//! The retouch call on any picture and any strip. The desk is asked where the picture is accepted
//! and the strip is the picture stored; the call has to answer elsewhere too.

use super::chain::{Chain, Step, Transform};
use super::forward::{named, packed, Pixel, Unused};
use super::spots::mask;
use super::{forward, pixels};
use crate::calls::Retouch;

/// The number that `letchwater_retouch` has to return; `picture` and `strip` are left as the call
/// has to leave them.
pub fn retouch(
    width: u32,
    height: u32,
    chain: &[u8],
    data: &[u8],
    picture: &mut [u8],
    strip: &mut [u8],
    retouch: Retouch,
) -> u32 {
    let answer = Chain::read(width, height, chain, data)
        .and_then(|chain| try_retouch(&chain, picture, strip, retouch));
    answer.unwrap_or_else(|refusal| refusal)
}

/// Refusals 8, 9 and 22 in this order; then the writing.
fn try_retouch(
    chain: &Chain,
    picture: &mut [u8],
    strip: &mut [u8],
    retouch: Retouch,
) -> Result<u32, u32> {
    if picture.len() < chain.picture_len() || strip.len() < chain.strip_len() {
        return Err(8);
    }
    let pixel = chain.pixel_of(retouch).ok_or(9u32)?;
    let mut new = pixels(&picture[..chain.picture_len()]);
    new[pixel] = retouch.color;
    let records = made(chain, &new);
    let spots = chain.spot_records(pixel);
    if spots.iter().flatten().any(|&spot| records[spot].is_none()) {
        return Err(22);
    }

    let (strip, _) = strip.as_chunks_mut::<4>();
    let mask = mask(&spots, |record| Some(strip[record]) != records[record]);
    for &spot in spots.iter().flatten() {
        strip[spot] = records[spot].expect("none is missing");
    }
    picture[4 * pixel..4 * pixel + 4].copy_from_slice(&retouch.color);
    Ok(256 + 32 * mask.count_ones() + mask)
}

/// What storing makes of a picture, record by record; nothing for a record that cannot be made.
fn made(chain: &Chain, picture: &[Pixel]) -> Vec<Option<Pixel>> {
    let mut items: Vec<Option<Pixel>> = picture.iter().copied().map(Some).collect();
    for step in &chain.steps {
        items = made_by(step, &items);
    }
    items
}

fn made_by(step: &Step, items: &[Option<Pixel>]) -> Vec<Option<Pixel>> {
    // An item that cannot be made counts only where it is named; elsewhere any value will do.
    let values: Vec<Pixel> = items.iter().map(|item| item.unwrap_or_default()).collect();
    if let Transform::ColorTable { entries, .. } = step.transform {
        // There is one table, so that no item is missing before it.
        return packed(step.width, entries, Unused::LastIndex, &values);
    }
    let can_be_made = |i: usize| match step.transform {
        Transform::Predictor { bits, blocks } => {
            let named = named(step.width, bits, blocks, i);
            items[i].is_some() && named.iter().all(|&i| items[i].is_some())
        }
        _ => items[i].is_some(),
    };
    let after = forward(step, Unused::LastIndex, &values).expect("only a table refuses");
    let item = |(i, value)| can_be_made(i).then_some(value);
    after.into_iter().enumerate().map(item).collect()
}
