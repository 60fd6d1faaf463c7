//! Retouches, held against storing afresh.

mod chains;
mod common;

use chains::{orders, random_chain, Transform};
use common::Xorshift;
use letchwater::{
    rebuild, retouch_in_place, store, Chain, Error, Picture, Pixel, Point, Refusal, Size,
    StoredPicture, Strip,
};

const BLACK: Pixel = Pixel::opaque(0, 0, 0);

fn red(red: u8) -> Pixel {
    Pixel::opaque(red, 0, 0)
}

fn predictor(chain: Chain, mode: u8) -> Chain {
    let blocks = vec![Pixel::predictor_block(mode); chain.blocks(2).pixel_count()];
    chain.predictor(2, &blocks)
}

/// A picture of one color, stored.
fn plain(chain: Chain, color: Pixel) -> StoredPicture {
    let pixels = vec![color; chain.size().pixel_count()];
    let picture = Picture::from_pixels(chain.size(), pixels).unwrap();
    StoredPicture::new(chain, picture).unwrap()
}

/// The indices of the records that a retouch changed.
fn changed(map: &mut StoredPicture, x: u32, y: u32, color: Pixel) -> Vec<usize> {
    let changed = map.retouch(Point::new(x, y), color).unwrap();
    assert_eq!(changed.count(), changed.indices().len());
    assert_eq!(map.picture().pixel(x, y), Some(color));
    assert_eq!(store(map.chain(), map.picture()).as_ref(), Ok(map.strip()));
    changed.indices().to_vec()
}

/// Document 01's first: 323, that is count 2 and spots 0 and 1; then 256.
#[test]
fn row_of_three() {
    let mut map = plain(predictor(Chain::new(Size::new(3, 1)), 0), BLACK);
    assert_eq!(changed(&mut map, 1, 0, red(9)), [1, 2]);
    let records = [0, 9, 247].map(|red| Pixel::new(red, 0, 0, 0));
    assert!(map.strip().records().eq(records));
    assert_eq!(changed(&mut map, 1, 0, red(9)), []);
}

/// Document 01's second: 447, that is count 5 and every spot.
#[test]
fn four_by_two() {
    let mut map = plain(predictor(Chain::new(Size::new(4, 2)), 10), BLACK);
    assert_eq!(changed(&mut map, 2, 0, red(128)), [2, 3, 5, 6, 7]);
}

#[test]
fn widths_1_and_2() {
    let mut map = plain(predictor(Chain::new(Size::new(1, 4)), 10), BLACK);
    assert_eq!(changed(&mut map, 0, 1, red(128)), [1, 2]);
    assert_eq!(changed(&mut map, 0, 3, red(128)), [3]);
    let mut map = plain(predictor(Chain::new(Size::new(2, 4)), 10), BLACK);
    assert_eq!(changed(&mut map, 0, 1, red(128)), [2, 3, 4, 5]);
    assert_eq!(changed(&mut map, 1, 2, red(128)), [5, 7]);
}

/// Column 0 is also the top right of the last column in its row.
#[test]
fn first_and_last_column() {
    let mut map = plain(predictor(Chain::new(Size::new(4, 3)), 10), BLACK);
    assert_eq!(changed(&mut map, 0, 1, red(128)), [4, 5, 7, 8, 9]);
    assert_eq!(changed(&mut map, 3, 0, red(128)), [3, 6, 7]);
    assert_eq!(changed(&mut map, 3, 2, red(128)), [11]);
}

/// Rows of 9 pixels, in 9, 5, 3 and 2 records.
#[test]
fn packed_rows() {
    let table: Vec<Pixel> = (0..17).map(red).collect();
    for (entries, last, end) in [(17, 17, 26), (16, 9, 14), (4, 5, 8), (2, 3, 5)] {
        let chain = Chain::new(Size::new(9, 3)).color_table(&table[..entries]);
        let mut map = plain(chain, BLACK);
        assert_eq!(changed(&mut map, 0, 0, red(1)), [0]);
        assert_eq!(changed(&mut map, 8, 1, red(1)), [last]);
        assert_eq!(changed(&mut map, 8, 2, red(1)), [end]);
    }
}

#[test]
fn a_table_before_the_predictor() {
    let chain = Chain::new(Size::new(9, 3)).color_table(&[BLACK, red(1), red(2)]);
    let mut map = plain(predictor(chain, 10), BLACK);
    assert_eq!(changed(&mut map, 3, 0, red(2)), [0, 1, 3, 4]);
    assert_eq!(changed(&mut map, 8, 2, red(2)), [8]);
    assert_eq!(changed(&mut map, 8, 2, red(2)), []);
}

/// Two spots in one record, then in two.
#[test]
fn a_table_after_the_predictor() {
    let residuals = [0, 9, 247].map(|red| Pixel::new(red, 0, 0, 0));
    let chain = predictor(Chain::new(Size::new(9, 1)), 1).color_table(&residuals);
    let mut map = plain(chain, BLACK);
    assert_eq!(changed(&mut map, 1, 0, red(9)), [0]);
    assert_eq!(changed(&mut map, 7, 0, red(9)), [1, 2]);
    // The pixel's own residual has an entry, and the next one's has none.
    let answer = map.retouch(Point::new(2, 0), red(18));
    assert_eq!(answer, Err(Refusal::NoEntryForRetouch.into()));
}

/// The picture with the pixel painted, if the point is inside.
fn painted(picture: &Picture, point: Point, color: Pixel) -> Option<Picture> {
    let Size { width, height } = picture.size();
    if point.x >= width || point.y >= height {
        return None;
    }
    let mut pixels: Vec<Pixel> = picture.pixels().collect();
    pixels[(point.y * width + point.x) as usize] = color;
    Some(Picture::from_pixels(picture.size(), pixels).unwrap())
}

/// Document 01's plain desk: what it holds after a retouch, and the records that differ.
fn desk(
    held: &StoredPicture,
    point: Point,
    color: Pixel,
) -> Result<(StoredPicture, Vec<usize>), Error> {
    let new = painted(held.picture(), point, color).ok_or(Refusal::PointOutside)?;
    let new = StoredPicture::new(held.chain().clone(), new).map_err(|error| {
        assert_eq!(error, Refusal::NoEntry.into());
        Refusal::NoEntryForRetouch
    })?;
    let records = held.strip().records().zip(new.strip().records());
    let differing = records.enumerate().filter(|(_, (held, new))| held != new);
    let differing = differing.map(|(index, _)| index).collect();
    Ok((new, differing))
}

/// Four colors, and points of which every sixth is outside.
fn random_list(random: &mut Xorshift, size: Size) -> Vec<(Point, Pixel)> {
    let mut below = |end: u32| u32::from(random.byte()) % end;
    let mut retouch = |i| {
        let outside = if i % 6 == 5 { size.width } else { 0 };
        let point = Point::new(outside + below(size.width), below(size.height));
        (point, red(50 * below(4) as u8))
    };
    (0..18).map(&mut retouch).collect()
}

/// What reaches the table of black and then of the list's pictures, cut to `entries` where black
/// allows, so that some retouches find no entry.
fn table(before: &Chain, list: &[(Point, Pixel)], entries: usize) -> Vec<Pixel> {
    let mut picture = plain(before.clone(), BLACK).into_parts().1;
    let mut table: Vec<Pixel> = store(before, &picture).unwrap().records().collect();
    table.sort();
    table.dedup();
    let most = entries.max(table.len());
    for &(point, color) in list {
        picture = painted(&picture, point, color).unwrap_or(picture);
        for pixel in store(before, &picture).unwrap().records() {
            if table.len() < most && !table.contains(&pixel) {
                table.push(pixel);
            }
        }
    }
    table.resize(most, Pixel::new(1, 2, 3, 4));
    table
}

/// The count of each retouch, or its refusal. A depot that is sent the changed records alone has the
/// strip.
fn hold_against_desk(
    mut map: StoredPicture,
    list: &[(Point, Pixel)],
) -> Vec<Result<usize, Refusal>> {
    let mut sent: Vec<Pixel> = map.strip().records().collect();
    let mut answer = |&(point, color): &(Point, Pixel)| {
        let before = map.clone();
        let expected = desk(&before, point, color);
        let changed = map.retouch(point, color);
        let Ok((new, differing)) = expected else {
            assert_eq!(changed.err(), expected.err());
            assert!(map == before);
            return Err(changed.unwrap_err().refusal().unwrap());
        };
        let changed = changed.unwrap();
        assert_eq!(changed.indices(), differing);
        assert!(map == new);
        for &index in changed.indices() {
            sent[index] = map.strip().record(index).unwrap();
        }
        assert!(map.strip().records().eq(sent.iter().copied()));
        Ok(changed.count())
    };
    list.iter().map(&mut answer).collect()
}

/// Every order of the transforms, and every number of indices in a packed pixel.
#[test]
fn lists_of_retouches() {
    let mut random = Xorshift::new(0x5DEE_CE66_D1CE_CAFE);
    let mut answers = Vec::new();
    for order in orders() {
        for (width, height) in [(1, 1), (1, 5), (2, 4), (5, 3), (9, 7), (17, 2)] {
            for entries in [1, 2, 4, 16, 40] {
                let size = Size::new(width, height);
                let list = random_list(&mut random, size);
                let table = |_: &mut _, before: &_| table(before, &list, entries);
                let chain = random_chain(&mut random, &order, size, table);
                answers.extend(hold_against_desk(plain(chain, BLACK), &list));
                if !order.contains(&Transform::ColorTable) {
                    break;
                }
            }
        }
    }
    let times = |answer| answers.iter().filter(|&&given| given == answer).count();
    for refusal in [Refusal::PointOutside, Refusal::NoEntryForRetouch] {
        assert!(times(Err(refusal)) > 1000, "{refusal}");
    }
    for count in 0..=5 {
        assert!(times(Ok(count)) > 10, "{count}");
    }
}

/// A strip stored earlier, with zero bits at the ends of its rows, is rebuilt, and its picture stored.
/// From there on it is retouched, and the last column moves the unused bits too.
#[test]
fn a_strip_stored_earlier() {
    let mut random = Xorshift::new(0x2545_F491_4F6C_DD1D);
    let chain = Chain::new(Size::new(5, 2)).color_table(&[BLACK, red(50), red(100)]);
    let earlier = [36, 2, 0, 1].map(|packed| Pixel::opaque(0, packed, 0).to_bytes());
    let earlier = Strip::from_bytes(chain.strip_size(), earlier.concat()).unwrap();

    let picture = rebuild(&chain, &earlier).unwrap();
    let mut map = StoredPicture::new(chain, picture).unwrap();
    let packed = |map: &StoredPicture| -> Vec<u8> {
        let records = map.strip().records();
        records.map(|record| record.green).collect()
    };
    assert_eq!(packed(&map), [36, 0b10_10_10_10, 0, 0b01_01_01_01]);
    assert_eq!(changed(&mut map, 4, 1, red(100)), [3]);
    assert_eq!(packed(&map), [36, 0b10_10_10_10, 0, 0b10_10_10_10]);
    let list = random_list(&mut random, map.picture().size());
    hold_against_desk(map, &list);
}

/// Lent buffers that are longer than needed keep the bytes beyond.
#[test]
fn bytes_beyond_stay() {
    let chain = predictor(Chain::new(Size::new(4, 2)), 10);
    let mut map = plain(chain.clone(), BLACK);
    let beyond = [0xA5; 40];
    let mut picture = [map.picture().as_bytes(), &beyond].concat();
    let mut strip = [map.strip().as_bytes(), &beyond].concat();
    let (point, color) = (Point::new(3, 1), red(7));
    let lent = retouch_in_place(&chain, &mut picture, &mut strip, point, color);
    assert_eq!(lent, map.retouch(point, color));
    assert_eq!(picture, [map.picture().as_bytes(), &beyond].concat());
    assert_eq!(strip, [map.strip().as_bytes(), &beyond].concat());
}

#[test]
fn parts_are_those_that_were_held() {
    let chain = Chain::new(Size::new(2, 1)).subtract_green();
    let map = plain(chain.clone(), red(7));
    let (picture, strip) = (map.picture().clone(), map.strip().clone());
    assert_eq!(map.into_parts(), (chain, picture, strip));
}
