//! What an encoder decides: the chain of a picture of few colors.

use letchwater::{store, Chain, Error, Picture, Pixel, Strip};
use std::collections::BTreeSet;

/// Blocks of 8 by 8.
const BITS: u8 = 3;

/// The modes that RFC 9649 has.
const MODES: u8 = 14;

/// A color table of the colors found, then a predictor, with a line that says so.
pub fn chain(picture: &Picture) -> Result<(Chain, String), Error> {
    let table = colors(picture);
    let chain = Chain::new(picture.size()).color_table(&table);
    chain.check()?;
    let blocks = best_modes(&chain, picture)?;
    let description = format!(
        "color table of {} entries, predictor of {} blocks",
        table.len(),
        chain.blocks(BITS)
    );
    Ok((chain.predictor(BITS, &blocks), description))
}

/// The colors that a picture has, each once.
pub fn colors(picture: &Picture) -> Vec<Pixel> {
    let colors: BTreeSet<Pixel> = picture.pixels().collect();
    colors.into_iter().collect()
}

/// For each block the mode that leaves the most residuals zero. A residual depends on the mode of
/// its own block alone, so that each mode is tried on all blocks together.
fn best_modes(chain: &Chain, picture: &Picture) -> Result<Vec<Pixel>, Error> {
    let count = chain.blocks(BITS).pixel_count();
    let mut best = vec![(0, 0); count];
    for mode in 0..MODES {
        let alike = vec![Pixel::predictor_block(mode); count];
        let strip = store(&chain.clone().predictor(BITS, &alike), picture)?;
        for (best, zeros) in best.iter_mut().zip(zeros_by_block(&strip, chain)) {
            if zeros > best.0 {
                *best = (zeros, mode);
            }
        }
    }
    let block = |&(_, mode): &(usize, u8)| Pixel::predictor_block(mode);
    Ok(best.iter().map(block).collect())
}

fn zeros_by_block(strip: &Strip, chain: &Chain) -> Vec<usize> {
    let width = strip.size().width as usize;
    let blocks = chain.blocks(BITS);
    let mut zeros = vec![0; blocks.pixel_count()];
    for (i, record) in strip.records().enumerate() {
        let (x, y) = (i % width, i / width);
        let block = (y >> BITS) * blocks.width as usize + (x >> BITS);
        zeros[block] += usize::from(record == Pixel::default());
    }
    zeros
}
