//! The forward transforms, pixel by pixel, as document 01 words them, and document 02 (ii) for the
//! ends of rows. Each makes new pixels of old ones; nothing is done in place.

use super::chain::indices_in_byte;

pub type Pixel = [u8; 4];

const FIRST: Pixel = [0, 0, 0, 255];

/// What the unused positions of a row's last packed pixel hold.
#[derive(Clone, Copy)]
pub enum Unused {
    /// The index of the row's last pixel, repeated: the rule of document 02 (ii).
    LastIndex,
    /// Zero bits: the rule of document 01, by which strips were stored earlier.
    ZeroBits,
}

/// Subtracts its prediction from each pixel.
pub fn predictor(width: u16, bits: u8, blocks: &[u8], pixels: &[Pixel]) -> Vec<Pixel> {
    let width = usize::from(width);
    let residual = |i: usize| {
        let (x, y) = (i % width, i / width);
        let mode = block(width, bits, blocks, x, y)[1];
        let predicted = predicted(width, mode, pixels, x, y);
        channels(|c| pixels[i][c].wrapping_sub(predicted[c]))
    };
    (0..pixels.len()).map(residual).collect()
}

/// Subtracts the deltas, from the unreduced red.
pub fn color(width: u16, bits: u8, blocks: &[u8], pixels: &[Pixel]) -> Vec<Pixel> {
    let width = usize::from(width);
    let stored = |(i, &[red, green, blue, alpha]): (usize, &Pixel)| {
        let block = block(width, bits, blocks, i % width, i / width);
        let [red_to_blue, green_to_blue, green_to_red, _] = block;
        [
            red.wrapping_sub(delta(green_to_red, green)),
            green,
            blue.wrapping_sub(delta(green_to_blue, green))
                .wrapping_sub(delta(red_to_blue, red)),
            alpha,
        ]
    };
    pixels.iter().enumerate().map(stored).collect()
}

pub fn subtract_green(pixels: &[Pixel]) -> Vec<Pixel> {
    let stored = |&[red, green, blue, alpha]: &Pixel| {
        [
            red.wrapping_sub(green),
            green,
            blue.wrapping_sub(green),
            alpha,
        ]
    };
    pixels.iter().map(stored).collect()
}

/// Packs the lowest indices; nothing where a pixel has no entry.
pub fn color_table(
    width: u16,
    entries: &[u8],
    unused: Unused,
    pixels: &[Pixel],
) -> Option<Vec<Pixel>> {
    packed(width, entries, unused, pixels).into_iter().collect()
}

/// The packed pixels; nothing for one in which a pixel has no entry.
pub fn packed(width: u16, entries: &[u8], unused: Unused, pixels: &[Pixel]) -> Vec<Option<Pixel>> {
    let (entries, _) = entries.as_chunks::<4>();
    let n = usize::from(indices_in_byte(entries.len() as u16));
    let index = |pixel: &Pixel| entries.iter().position(|entry| entry == pixel);
    let packed = |row: &[Pixel], pixels: &[Pixel]| {
        let mut byte = 0;
        for place in 0..n {
            let held = match (pixels.get(place), unused) {
                (Some(pixel), _) => index(pixel)?,
                (None, Unused::LastIndex) => index(row.last()?)?,
                (None, Unused::ZeroBits) => 0,
            };
            byte |= held << (8 / n * place);
        }
        Some([0, byte as u8, 0, 255])
    };
    let rows = pixels.chunks(width.into());
    let records = rows.flat_map(|row| row.chunks(n).map(move |pixels| (row, pixels)));
    records.map(|(row, pixels)| packed(row, pixels)).collect()
}

/// The data pixel of the block that (x, y) is in.
fn block(width: usize, bits: u8, blocks: &[u8], x: usize, y: usize) -> Pixel {
    let bx = width.div_ceil(1 << bits);
    let at = 4 * ((y >> bits) * bx + (x >> bits));
    blocks[at..at + 4].try_into().unwrap()
}

/// The border rules first, then the mode.
fn predicted(width: usize, mode: u8, pixels: &[Pixel], x: usize, y: usize) -> Pixel {
    let at = |x: usize, y: usize| pixels[y * width + x];
    match (x, y) {
        (0, 0) => FIRST,
        (_, 0) => at(x - 1, 0),
        (0, _) => at(0, y - 1),
        _ => {
            // TR of the last column is column 0 of the same row.
            let top_right = if x + 1 == width {
                at(0, y)
            } else {
                at(x + 1, y - 1)
            };
            by_mode(
                mode,
                at(x - 1, y),
                at(x, y - 1),
                top_right,
                at(x - 1, y - 1),
            )
        }
    }
}

/// The pixels that the prediction of pixel i names: by the border rules, then by the mode.
pub fn named(width: u16, bits: u8, blocks: &[u8], i: usize) -> Vec<usize> {
    let width = usize::from(width);
    let at = |x: usize, y: usize| y * width + x;
    let (x, y) = (i % width, i / width);
    match (x, y) {
        (0, 0) => vec![],
        (_, 0) => vec![at(x - 1, 0)],
        (0, _) => vec![at(0, y - 1)],
        _ => {
            let top_right = if x + 1 == width {
                at(0, y)
            } else {
                at(x + 1, y - 1)
            };
            let mode = block(width, bits, blocks, x, y)[1];
            named_by_mode(
                mode,
                at(x - 1, y),
                at(x, y - 1),
                top_right,
                at(x - 1, y - 1),
            )
        }
    }
}

fn named_by_mode<T>(mode: u8, l: T, t: T, tr: T, tl: T) -> Vec<T> {
    match mode {
        0 => vec![],
        1 => vec![l],
        2 => vec![t],
        3 => vec![tr],
        4 => vec![tl],
        5 => vec![l, tr, t],
        6 => vec![l, tl],
        7 => vec![l, t],
        8 => vec![tl, t],
        9 => vec![t, tr],
        10 => vec![l, tl, t, tr],
        11..=13 => vec![l, t, tl],
        14..=255 => vec![],
    }
}

fn by_mode(mode: u8, l: Pixel, t: Pixel, tr: Pixel, tl: Pixel) -> Pixel {
    match mode {
        0 => FIRST,
        1 => l,
        2 => t,
        3 => tr,
        4 => tl,
        5 => channels(|c| avg(avg(l[c], tr[c]), t[c])),
        6 => channels(|c| avg(l[c], tl[c])),
        7 => channels(|c| avg(l[c], t[c])),
        8 => channels(|c| avg(tl[c], t[c])),
        9 => channels(|c| avg(t[c], tr[c])),
        10 => channels(|c| avg(avg(l[c], tl[c]), avg(t[c], tr[c]))),
        11 => select(l, t, tl),
        12 => channels(|c| clamped(i32::from(l[c]) + i32::from(t[c]) - i32::from(tl[c]))),
        13 => channels(|c| {
            let m = i32::from(avg(l[c], t[c]));
            clamped(m + (m - i32::from(tl[c])) / 2)
        }),
        14..=255 => [0; 4],
    }
}

/// L if the sum over four channels of |p−L| is less than that of |p−T|, else T.
fn select(l: Pixel, t: Pixel, tl: Pixel) -> Pixel {
    let p = |c: usize| i32::from(l[c]) + i32::from(t[c]) - i32::from(tl[c]);
    let from = |q: Pixel| -> i32 { (0..4).map(|c| (p(c) - i32::from(q[c])).abs()).sum() };
    if from(l) < from(t) {
        l
    } else {
        t
    }
}

fn avg(a: u8, b: u8) -> u8 {
    ((u32::from(a) + u32::from(b)) / 2) as u8
}

fn clamped(number: i32) -> u8 {
    number.clamp(0, 255) as u8
}

/// Both bytes as signed, the product divided by 32 rounded down, taken modulo 256.
fn delta(t: u8, c: u8) -> u8 {
    let product = i32::from(t as i8) * i32::from(c as i8);
    product.div_euclid(32).rem_euclid(256) as u8
}

fn channels(channel: impl Fn(usize) -> u8) -> Pixel {
    std::array::from_fn(channel)
}

#[cfg(test)]
mod tests {
    use super::{by_mode, named_by_mode, Pixel};
    use crate::random::Xorshift;

    /// A mode names exactly the neighbors that its prediction varies with.
    #[test]
    fn modes_name_what_they_look_at() {
        let mut random = Xorshift::new(0x0FC1_9DC6_8B8C_D5B5);
        for mode in 0..=255 {
            let named = named_by_mode(mode, 0, 1, 2, 3);
            for neighbor in 0..4 {
                let varies = (0..1000).any(|_| {
                    let mut pixels: [Pixel; 4] = [(); 4].map(|()| random.pixel());
                    let before = of(mode, pixels);
                    pixels[neighbor] = random.pixel();
                    of(mode, pixels) != before
                });
                assert_eq!(varies, named.contains(&neighbor), "{mode}, {neighbor}");
            }
        }
    }

    fn of(mode: u8, [l, t, tr, tl]: [Pixel; 4]) -> Pixel {
        by_mode(mode, l, t, tr, tl)
    }
}
