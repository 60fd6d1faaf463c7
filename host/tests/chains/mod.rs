//! Chains of every order, with random data.

use crate::common::Xorshift;
use letchwater::{Chain, Pixel, Size};

#[derive(Clone, Copy, PartialEq, Eq)]
pub enum Transform {
    Predictor,
    Color,
    SubtractGreen,
    ColorTable,
}

/// All 65: each transform at most once, in every order.
pub fn orders() -> Vec<Vec<Transform>> {
    use Transform::{Color, ColorTable, Predictor, SubtractGreen};
    let mut orders: Vec<Vec<Transform>> = vec![Vec::new()];
    let mut i = 0;
    while let Some(order) = orders.get(i).cloned() {
        let kinds = [Predictor, Color, SubtractGreen, ColorTable];
        for kind in kinds.into_iter().filter(|kind| !order.contains(kind)) {
            orders.push([order.as_slice(), &[kind]].concat());
        }
        i += 1;
    }
    assert_eq!(orders.len(), 65);
    orders
}

/// Random blocks; `table` makes the entries, given the chain before the table.
pub fn random_chain(
    random: &mut Xorshift,
    order: &[Transform],
    size: Size,
    mut table: impl FnMut(&mut Xorshift, &Chain) -> Vec<Pixel>,
) -> Chain {
    order.iter().fold(Chain::new(size), |chain, transform| {
        let bits = 2 + random.byte() % 3;
        let count = chain.blocks(bits).pixel_count();
        match transform {
            Transform::Predictor => {
                let modes = random.bytes(count);
                let blocks = modes.iter().map(|mode| Pixel::predictor_block(mode % 16));
                chain.predictor(bits, &blocks.collect::<Vec<_>>())
            }
            Transform::Color => chain.color(bits, &random.pixels(count)),
            Transform::SubtractGreen => chain.subtract_green(),
            Transform::ColorTable => {
                let entries = table(random, &chain);
                chain.color_table(&entries)
            }
        }
    })
}
