//! Every refusal, through the calls: its number, and that no byte was changed.

use letchwater::{
    adjust_color_map, adjust_color_map_in_place, rebuild, rebuild_in_place, report_into,
    retouch_in_place, store, store_into, unadjust_color_map, unadjust_color_map_in_place, Chain,
    Error, Picture, Pixel, Point, Refusal, Report, Size, StoredPicture, Strip,
};

const SIZE: Size = Size::new(9, 2);
const PICTURE: usize = 4 * 9 * 2;
const A: Pixel = Pixel::new(1, 2, 3, 4);
const B: Pixel = Pixel::new(5, 6, 7, 8);

/// Two entries: two packed pixels to a row.
fn table() -> Chain {
    Chain::new(SIZE).color_table(&[A, B])
}

/// A chain of one record whose data are `data` bytes.
fn record(record: [u8; 16], data: usize) -> Chain {
    Chain::from_parts(SIZE, record.to_vec(), vec![0; data])
}

/// Every call, with buffers that would do for any chain.
fn refuses(chain: &Chain, refusal: Refusal) {
    let refused = Err(Error::Refused(refusal));
    assert_eq!(chain.check(), refused);
    refuses_to_rebuild(chain, PICTURE, refusal);
    refuses_to_store(chain, PICTURE, PICTURE, refusal);
    refuses_to_retouch(chain, PICTURE, PICTURE, refusal);
}

fn refuses_to_rebuild(chain: &Chain, image: usize, refusal: Refusal) {
    let mut image = vec![0xA5; image];
    let answer = rebuild_in_place(chain, &mut image);
    assert_eq!(answer, Err(Error::Refused(refusal)));
    assert!(image.iter().all(|&byte| byte == 0xA5));
}

fn refuses_to_store(chain: &Chain, picture: usize, strip: usize, refusal: Refusal) {
    let picture = &A.to_bytes().repeat(18)[..picture];
    let mut strip = vec![0xA5; strip];
    let answer = store_into(chain, picture, &mut strip);
    assert_eq!(answer, Err(Error::Refused(refusal)));
    assert!(strip.iter().all(|&byte| byte == 0xA5));
}

/// At a point that no picture of these sizes has, which is looked at after the buffers.
fn refuses_to_retouch(chain: &Chain, picture: usize, strip: usize, refusal: Refusal) {
    let mut picture = A.to_bytes().repeat(18)[..picture].to_vec();
    let mut strip = vec![0xA5; strip];
    let before = (picture.clone(), strip.clone());
    let outside = Point::new(u32::MAX, u32::MAX);
    let answer = retouch_in_place(chain, &mut picture, &mut strip, outside, B);
    assert_eq!(answer, Err(Error::Refused(refusal)));
    assert_eq!((picture, strip), before);
}

/// The colors A and B, and three counters.
const COLORS: [u8; 8] = [1, 2, 3, 4, 5, 6, 7, 8];
const COUNTERS: usize = 24;

/// With counters of the largest number, of which any pixel is one too many: that is looked at last.
fn refuses_to_report(size: Size, picture: usize, colors: &[u8], counters: usize, refusal: Refusal) {
    let picture = &A.to_bytes().repeat(18)[..picture];
    let mut counters = vec![0xFF; counters];
    let answer = report_into(size, picture, colors, &mut counters);
    assert_eq!(answer, Err(Error::Refused(refusal)));
    assert!(counters.iter().all(|&byte| byte == 0xFF));
}

#[test]
fn number_1() {
    let limit = 16384;
    for (width, height) in [
        (0, 2),
        (9, 0),
        (limit + 1, 2),
        (9, limit + 1),
        (u32::MAX, u32::MAX),
    ] {
        let size = Size::new(width, height);
        refuses(&Chain::new(size), Refusal::SizeOutOfRange);
        refuses_to_report(size, PICTURE, &COLORS, COUNTERS, Refusal::SizeOutOfRange);
        refuses_to_report(size, 0, &[], 0, Refusal::SizeOutOfRange);
    }
    assert_eq!(Chain::new(Size::new(limit, limit)).check(), Ok(()));
}

#[test]
fn number_2() {
    let chain = table().subtract_green().predictor(4, &[A]).color(4, &[A]);
    assert_eq!(chain.check(), Ok(()));
    refuses(&chain.subtract_green(), Refusal::ChainLength);
    for len in [1, 15, 17] {
        let chain = Chain::from_parts(SIZE, vec![0; len], vec![0; 64]);
        refuses(&chain, Refusal::ChainLength);
    }
}

#[test]
fn number_3() {
    for kind in [4, 255] {
        let kind_only = [kind, 0, 0, 0, 0, 0, 0, 0, 0, 0, 0, 0, 0, 0, 0, 0];
        refuses(&record(kind_only, 64), Refusal::UnknownKind);
    }
}

#[test]
fn number_4() {
    refuses(&table().color_table(&[A]), Refusal::KindAgain);
    let chain = Chain::new(SIZE).subtract_green().predictor(4, &[A]);
    refuses(&chain.subtract_green(), Refusal::KindAgain);
}

#[test]
fn number_5() {
    for bits in [0, 1, 10, 255] {
        refuses(&Chain::new(SIZE).predictor(bits, &[A]), Refusal::NotTabled);
        refuses(&Chain::new(SIZE).color(bits, &[A]), Refusal::NotTabled);
    }
    refuses(&Chain::new(SIZE).color_table(&[]), Refusal::NotTabled);
    refuses(&Chain::new(SIZE).color_table(&[A; 257]), Refusal::NotTabled);
    let green_with_offset = [2, 0, 0, 0, 1, 0, 0, 0, 0, 0, 0, 0, 0, 0, 0, 0];
    refuses(&record(green_with_offset, 64), Refusal::NotTabled);
    let last_byte = [2, 0, 0, 0, 0, 0, 0, 0, 0, 0, 0, 0, 0, 0, 0, 1];
    refuses(&record(last_byte, 64), Refusal::NotTabled);
}

#[test]
fn number_6() {
    refuses(&Chain::new(SIZE).predictor(3, &[A]), Refusal::WrongLength);
    refuses(&Chain::new(SIZE).color(3, &[A; 3]), Refusal::WrongLength);
    // The packed width counts, which needs one block only.
    refuses(&table().predictor(3, &[A; 2]), Refusal::WrongLength);
    let table_of_2 = [3, 0, 2, 0, 0, 0, 0, 0, 12, 0, 0, 0, 0, 0, 0, 0];
    refuses(&record(table_of_2, 64), Refusal::WrongLength);
}

#[test]
fn number_7() {
    let at_60 = [3, 0, 2, 0, 60, 0, 0, 0, 8, 0, 0, 0, 0, 0, 0, 0];
    refuses(&record(at_60, 64), Refusal::BeyondData);
    refuses(&record(at_60, 67), Refusal::BeyondData);
    assert_eq!(record(at_60, 68).check(), Ok(()));
    let offset_past_32_bits = [3, 0, 2, 0, 255, 255, 255, 255, 8, 0, 0, 0, 0, 0, 0, 0];
    refuses(&record(offset_past_32_bits, 64), Refusal::BeyondData);
}

#[test]
fn number_8() {
    let strip = 4 * 2 * 2;
    refuses_to_rebuild(&table(), PICTURE - 1, Refusal::BufferTooShort);
    refuses_to_rebuild(&table(), strip, Refusal::BufferTooShort);
    refuses_to_store(&table(), PICTURE - 1, strip, Refusal::BufferTooShort);
    refuses_to_store(&table(), PICTURE, strip - 1, Refusal::BufferTooShort);
    refuses_to_retouch(&table(), PICTURE - 1, strip, Refusal::BufferTooShort);
    refuses_to_retouch(&table(), PICTURE, strip - 1, Refusal::BufferTooShort);
    let picture = A.to_bytes().repeat(18);
    assert_eq!(store_into(&table(), &picture, &mut vec![0; strip]), Ok(()));

    for (picture, counters) in [
        (PICTURE - 1, COUNTERS),
        (0, COUNTERS),
        (PICTURE, COUNTERS - 1),
        (PICTURE, COUNTERS - 8),
        (PICTURE, 0),
    ] {
        refuses_to_report(SIZE, picture, &COLORS, counters, Refusal::BufferTooShort);
    }
    let mut counters = [0; COUNTERS];
    assert_eq!(report_into(SIZE, &picture, &COLORS, &mut counters), Ok(()));
}

/// A refused retouch of a picture all of A leaves both as they were.
fn refuses_point_or_color(chain: Chain, point: Point, color: Pixel, refusal: Refusal) {
    let picture = Picture::from_pixels(SIZE, [A; 18]).unwrap();
    let mut map = StoredPicture::new(chain, picture).unwrap();
    let before = map.clone();
    assert_eq!(map.retouch(point, color), Err(Error::Refused(refusal)));
    assert_eq!(map, before);
}

/// Each side by itself, and before the color is looked at.
#[test]
fn number_9() {
    refuses_to_retouch(&table(), PICTURE, PICTURE, Refusal::PointOutside);
    for (x, y) in [(9, 0), (0, 2), (9, 2), (u32::MAX, 0), (0, u32::MAX)] {
        let point = Point::new(x, y);
        refuses_point_or_color(table(), point, A, Refusal::PointOutside);
        let other = Pixel::new(1, 2, 3, 5);
        refuses_point_or_color(table(), point, other, Refusal::PointOutside);
    }
}

#[test]
fn number_10() {
    let refused = Err(Error::Refused(Refusal::ColorMapLength));
    for len in [0, 1, 3, 5, 1023, 1025, 1028, 65_540] {
        let mut color_map = vec![0xA5; len];
        assert_eq!(adjust_color_map_in_place(&mut color_map), refused);
        assert_eq!(unadjust_color_map_in_place(&mut color_map), refused);
        assert!(color_map.iter().all(|&byte| byte == 0xA5));
    }
    for entries in [0, 257] {
        let color_map = vec![A; entries];
        assert_eq!(adjust_color_map(&color_map).map(|_| ()), refused);
        assert_eq!(unadjust_color_map(&color_map).map(|_| ()), refused);
    }
}

#[test]
fn number_21() {
    let mut pixels = [A; 18];
    for i in 0..18 {
        pixels[i] = Pixel::new(1, 2, 3, 5);
        let picture = Picture::from_pixels(SIZE, pixels).unwrap();
        let refused = Err(Error::Refused(Refusal::NoEntry));
        assert_eq!(store(&table(), &picture).map(|_| ()), refused);
        let mut strip = vec![0xA5; PICTURE];
        let answer = store_into(&table(), picture.as_bytes(), &mut strip);
        assert_eq!(answer, refused);
        assert!(strip.iter().all(|&byte| byte == 0xA5));
        pixels[i] = B;
    }
    assert!(store(&table(), &Picture::from_pixels(SIZE, pixels).unwrap()).is_ok());
}

/// Each byte of a color counts. A predictor before the table has what it leaves looked at.
#[test]
fn number_22() {
    let last = Point::new(8, 1);
    for color in [(0, 2, 3, 4), (1, 0, 3, 4), (1, 2, 0, 4), (1, 2, 3, 0)] {
        let (red, green, blue, alpha) = color;
        let color = Pixel::new(red, green, blue, alpha);
        refuses_point_or_color(table(), last, color, Refusal::NoEntryForRetouch);
    }
    let left = Chain::new(SIZE).predictor(4, &[Pixel::predictor_block(1)]);
    let residuals = [Pixel::new(1, 2, 3, 5), Pixel::new(0, 0, 0, 0)];
    let chain = left.color_table(&residuals);
    refuses_point_or_color(chain, last, B, Refusal::NoEntryForRetouch);
}

/// So many colors, no two alike.
fn distinct(count: u16) -> Vec<Pixel> {
    let pixel = |[low, high]: [u8; 2]| Pixel::new(low, 0, high, 0);
    (0..count).map(|i| pixel(i.to_le_bytes())).collect()
}

/// The call with buffers and without, which are looked at later, and the list by itself.
fn refuses_list(colors: &[Pixel]) {
    let bytes: Vec<u8> = colors.iter().flat_map(|color| color.to_bytes()).collect();
    refuses_to_report(SIZE, 0, &bytes, 0, Refusal::ColorList);
    refuses_to_report(SIZE, PICTURE, &bytes, 8 * 301, Refusal::ColorList);
    assert_eq!(Report::new(colors), Err(Error::Refused(Refusal::ColorList)));
}

#[test]
fn number_23() {
    for count in [0, 257, 300] {
        refuses_list(&distinct(count));
    }
    for (first, second) in [(0, 1), (0, 255), (100, 200), (254, 255)] {
        let mut colors = distinct(256);
        assert!(Report::new(&colors).is_ok());
        colors[second] = colors[first];
        refuses_list(&colors);
    }
    let bytes = distinct(257).into_iter().flat_map(Pixel::to_bytes);
    let bytes: Vec<u8> = bytes.collect();
    for len in [1, 3, 5, 7, 1021, 1023, 1025, 1027] {
        refuses_to_report(SIZE, PICTURE, &bytes[..len], 8 * 301, Refusal::ColorList);
    }
}

/// Each of three counters by itself, up to the last pixel that it takes.
#[test]
fn number_24() {
    refuses_to_report(SIZE, PICTURE, &COLORS, COUNTERS, Refusal::CounterOverflow);
    let other = Pixel::new(1, 2, 3, 5);
    let picture = Picture::from_pixels(SIZE, [A, B, other].repeat(6)).unwrap();
    let refused = Err(Error::Refused(Refusal::CounterOverflow));
    for counter in 0..3 {
        for (room, answer, added) in [(0, refused, 0), (5, refused, 0), (6, Ok(()), 6)] {
            let mut counts = [0, 1, 2];
            counts[counter] = u64::MAX - room;
            let kept = counts.map(u64::to_le_bytes).concat();
            let mut report = Report::from_counters(&[A, B], kept).unwrap();
            assert_eq!(report.add(&picture), answer);
            assert!(report.counts().eq(counts.map(|count| count + added)));
        }
    }
}

/// The chain is refused before the size is compared, and memory is taken for no refused size.
#[test]
fn owned_calls_ask_the_library_first() {
    let refused = Error::Refused(Refusal::SizeOutOfRange);
    let chain = Chain::new(Size::new(u32::MAX, u32::MAX));
    let picture = Picture::from_pixels(SIZE, [A; 18]).unwrap();
    let strip = Strip::from_bytes(SIZE, vec![0; PICTURE]).unwrap();
    assert_eq!(store(&chain, &picture), Err(refused));
    assert_eq!(rebuild(&chain, &strip), Err(refused));
}

/// A picture or strip of the chain's number of bytes but of another shape.
#[test]
fn other_sizes() {
    let given = Size::new(2, 9);
    let chain = Chain::new(SIZE).subtract_green();
    let error = Error::OtherSize {
        expected: SIZE,
        given,
    };
    let picture = Picture::from_pixels(given, [A; 18]).unwrap();
    assert_eq!(store(&chain, &picture), Err(error));
    let strip = Strip::from_bytes(given, vec![0; PICTURE]).unwrap();
    assert_eq!(rebuild(&chain, &strip), Err(error));

    let of_picture_size = Strip::from_bytes(SIZE, vec![0; PICTURE]).unwrap();
    let expected = Size::new(2, 2);
    let error = Error::OtherSize {
        expected,
        given: SIZE,
    };
    assert_eq!(rebuild(&table(), &of_picture_size), Err(error));
}
