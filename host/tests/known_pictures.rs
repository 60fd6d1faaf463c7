//! Document 01's known pictures that concern these calls, byte for byte.

use letchwater::{
    adjust_color_map, rebuild, store, unadjust_color_map, Chain, Error, Picture, Pixel, Refusal,
    Size, Strip,
};

fn opaque_reds(reds: &[u8], alpha: u8) -> Vec<Pixel> {
    reds.iter()
        .map(|&red| Pixel::new(red, 0, 0, alpha))
        .collect()
}

fn bytes(pixels: &[Pixel]) -> Vec<u8> {
    pixels.iter().flat_map(|pixel| pixel.to_bytes()).collect()
}

fn rebuilt(chain: &Chain, strip: &[Pixel]) -> Vec<Pixel> {
    let strip = Strip::from_bytes(chain.strip_size(), bytes(strip)).unwrap();
    rebuild(chain, &strip).unwrap().pixels().collect()
}

fn stored(chain: &Chain, picture: &[Pixel]) -> Result<Vec<Pixel>, Error> {
    let picture = Picture::from_pixels(chain.size(), picture.iter().copied()).unwrap();
    Ok(store(chain, &picture)?.records().collect())
}

/// The strip gives the picture, and the picture the strip.
fn both_ways(chain: &Chain, strip: &[Pixel], picture: &[Pixel]) {
    assert_eq!(rebuilt(chain, strip), picture);
    assert_eq!(stored(chain, picture), Ok(strip.to_vec()));
}

fn predictor(width: u32, height: u32, mode: u8) -> Chain {
    Chain::new(Size::new(width, height)).predictor(2, &[Pixel::predictor_block(mode)])
}

#[test]
fn first_pixel_and_row_0() {
    let pixel = |red, green, blue, alpha| Pixel::new(red, green, blue, alpha);
    both_ways(
        &predictor(1, 1, 5),
        &[pixel(1, 2, 3, 4)],
        &[pixel(1, 2, 3, 3)],
    );
    both_ways(
        &predictor(2, 1, 5),
        &[pixel(1, 2, 3, 0), pixel(10, 20, 30, 0)],
        &[pixel(1, 2, 3, 255), pixel(11, 22, 33, 255)],
    );
}

#[test]
fn top_right_of_the_last_column_and_mode_14() {
    let strip = opaque_reds(&[5, 1, 2, 0], 0);
    let picture = opaque_reds(&[5, 6, 7, 7], 255);
    both_ways(&predictor(2, 2, 3), &strip, &picture);
    let mut picture = picture;
    picture[3] = Pixel::new(0, 0, 0, 0);
    both_ways(&predictor(2, 2, 14), &strip, &picture);
}

/// The last pixel of 2 by 2 has these three neighbors; its residual is zero.
#[test]
fn select_clamp_and_average() {
    let predicted = |mode, top_left: [u8; 4], top: [u8; 4], left: [u8; 4]| {
        let mut picture = [top_left, top, left, [0; 4]].map(Pixel::from_bytes);
        let chain = predictor(2, 2, mode);
        let mut strip = stored(&chain, &picture).unwrap();
        strip[3] = Pixel::new(0, 0, 0, 0);
        picture[3] = rebuilt(&chain, &strip)[3];
        picture[3]
    };
    let red = |red| [red, 0, 0, 255];
    let tie = predicted(11, red(0), [0, 10, 0, 255], red(10));
    assert_eq!(tie, Pixel::opaque(0, 10, 0));
    assert_eq!(predicted(12, red(100), red(200), red(200)).red, 255);
    assert_eq!(predicted(12, red(100), red(20), red(10)).red, 0);
    assert_eq!(predicted(13, red(13), red(10), red(10)).red, 9);
}

/// L 1, TL 0, T 1, TR 2, at the middle of a second row of three.
#[test]
fn mode_10_averages_twice() {
    let chain = predictor(3, 2, 10);
    let picture = opaque_reds(&[0, 1, 2, 1, 0, 7], 255);
    assert_eq!(stored(&chain, &picture).unwrap()[4], Pixel::new(0, 0, 0, 0));
}

#[test]
fn color_and_subtract_green() {
    let one = Chain::new(Size::new(1, 1));
    let color = one.clone().color(2, &[Pixel::new(32, 0, 32, 0)]);
    both_ways(
        &color,
        &[Pixel::new(10, 32, 5, 9)],
        &[Pixel::new(42, 32, 47, 9)],
    );
    let green = one.subtract_green();
    both_ways(
        &green,
        &[Pixel::new(250, 10, 255, 7)],
        &[Pixel::new(4, 10, 9, 7)],
    );
}

/// delta(255, 1), delta(127, 127), delta(128, 127) and delta(128, 128).
#[test]
fn deltas() {
    for (factor, green, delta) in [
        (-1, 1, 255),
        (127, 127, 248),
        (-128, 127, 4),
        (-128, 128, 0),
    ] {
        let chain = Chain::new(Size::new(1, 1)).color(2, &[Pixel::color_block(0, 0, factor)]);
        let pixel = |red| [Pixel::new(red, green, 0, 0)];
        both_ways(&chain, &pixel(0), &pixel(delta));
    }
}

#[test]
fn color_table_of_3() {
    let [a, b, c] = [1, 2, 3].map(|red| Pixel::opaque(red, 0, 0));
    let clear = Pixel::new(0, 0, 0, 0);
    let chain = Chain::new(Size::new(5, 1)).color_table(&[a, b, c]);
    let strip = [228, 254].map(|packed| Pixel::opaque(0, packed, 0));
    let picture = [a, b, c, clear, c];
    assert_eq!(rebuilt(&chain, &strip), picture);
    assert_eq!(stored(&chain, &picture), Err(Refusal::NoEntry.into()));

    // Indices 0, 1, 2, 0 from the lowest bits, then 2, repeated in the unused positions.
    let picture = [a, b, c, a, c];
    let strip = [36, 170].map(|packed| Pixel::opaque(0, packed, 0));
    both_ways(&chain, &strip, &picture);
    // As it was stored earlier, the unused bits zero.
    let strip = [36, 2].map(|packed| Pixel::opaque(0, packed, 0));
    assert_eq!(rebuilt(&chain, &strip), picture);
}

#[test]
fn color_map() {
    let map = [Pixel::new(250, 0, 0, 255), Pixel::new(10, 1, 0, 0)];
    let entries = [Pixel::new(250, 0, 0, 255), Pixel::new(4, 1, 0, 255)];
    assert_eq!(adjust_color_map(&map), Ok(entries.to_vec()));
    assert_eq!(unadjust_color_map(&entries), Ok(map.to_vec()));
}

/// The strip before document 01's first retouch, and after it.
#[test]
fn row_of_three() {
    let chain = predictor(3, 1, 0);
    both_ways(
        &chain,
        &opaque_reds(&[0, 0, 0], 0),
        &opaque_reds(&[0, 0, 0], 255),
    );
    both_ways(
        &chain,
        &opaque_reds(&[0, 9, 247], 0),
        &opaque_reds(&[0, 9, 0], 255),
    );
}

#[test]
fn widest_and_largest() {
    let size = Size::new(16384, 1);
    let picture = vec![Pixel::opaque(7, 8, 9); 16384];
    let mut table = vec![Pixel::default(); 256];
    table[255] = picture[0];
    let chain = Chain::new(size).color_table(&table);
    both_ways(&chain, &vec![Pixel::opaque(0, 255, 0); 16384], &picture);
}
