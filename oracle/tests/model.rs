//! The model on document 01's known pictures and on document 02's sentences, without Letchwater.

#[cfg(not(rust_source))]
#[test]
#[ignore = "skipped: the Rust source of ../shared is absent"]
fn known_pictures() {}

#[cfg(rust_source)]
mod known {
    use oracle::given::{record, COLOR, COLOR_TABLE, PREDICTOR, SUBTRACT_GREEN};
    use oracle::model;

    type Pixels<'a> = &'a [[u8; 4]];

    const CLEAR: [u8; 4] = [0; 4];
    const BLACK: [u8; 4] = [0, 0, 0, 255];

    /// One record over all of the data: the strip rebuilds to the picture, and the picture is
    /// stored as the strip.
    fn both_ways(side: (u32, u32), kind: u8, data: Pixels, strip: Pixels, picture: Pixels) {
        let bits = if kind < SUBTRACT_GREEN { 2 } else { 0 };
        let data = data.as_flattened();
        let chain = record(kind, bits, 0, 0, data.len() as u32);
        let mut image = strip.as_flattened().to_vec();
        assert_eq!(model::rebuild(side.0, side.1, &chain, data, &mut image), 0);
        assert_eq!(image, picture.as_flattened());
        let mut stored = vec![165; image.len()];
        let answer = model::store(side.0, side.1, &chain, data, &image, &mut stored);
        assert_eq!((answer, stored.as_slice()), (0, strip.as_flattened()));
    }

    #[test]
    fn predictor() {
        let any = [[0; 4]];
        both_ways((1, 1), PREDICTOR, &any, &[[1, 2, 3, 4]], &[[1, 2, 3, 3]]);
        let strip = [[1, 2, 3, 0], [10, 20, 30, 0]];
        let picture = [[1, 2, 3, 255], [11, 22, 33, 255]];
        both_ways((2, 1), PREDICTOR, &any, &strip, &picture);
        let strip = [CLEAR, [9, 0, 0, 0], [247, 0, 0, 0]];
        let picture = [BLACK, [9, 0, 0, 255], BLACK];
        both_ways((3, 1), PREDICTOR, &any, &strip, &picture);
    }

    /// Red residuals 5, 1, 2, 0: TR of the last column is column 0 of the same row.
    #[test]
    fn top_right_and_no_mode() {
        let strip = [[5, 0, 0, 0], [1, 0, 0, 0], [2, 0, 0, 0], CLEAR];
        let mut picture = [
            [5, 0, 0, 255],
            [6, 0, 0, 255],
            [7, 0, 0, 255],
            [7, 0, 0, 255],
        ];
        both_ways((2, 2), PREDICTOR, &[[0, 3, 0, 0]], &strip, &picture);
        picture[3] = CLEAR;
        both_ways((2, 2), PREDICTOR, &[[0, 14, 0, 0]], &strip, &picture);
    }

    /// The last pixel of 2 by 2 has L, T and TL of its own: a tie gives T.
    #[test]
    fn select() {
        let (tl, t, l) = (BLACK, [0, 10, 0, 255], [10, 0, 0, 255]);
        let strip = [CLEAR, [0, 10, 0, 0], [10, 0, 0, 0], CLEAR];
        both_ways((2, 2), PREDICTOR, &[[0, 11, 0, 0]], &strip, &[tl, t, l, t]);
    }

    #[test]
    fn color_and_subtract_green() {
        let (strip, picture) = ([[10, 32, 5, 9]], [[42, 32, 47, 9]]);
        both_ways((1, 1), COLOR, &[[32, 0, 32, 0]], &strip, &picture);
        let (strip, picture) = ([[250, 10, 255, 7]], [[4, 10, 9, 7]]);
        both_ways((1, 1), SUBTRACT_GREEN, &[], &strip, &picture);
    }

    #[test]
    fn color_table() {
        let entries = [[1, 2, 3, 4], [5, 6, 7, 8], [9, 10, 11, 12]];
        let chain = record(COLOR_TABLE, 0, 3, 0, 12);
        let mut image = [[0, 228, 0, 255], [0, 254, 0, 255], BLACK, BLACK, BLACK];
        let data = entries.as_flattened();
        let answer = model::rebuild(5, 1, &chain, data, image.as_flattened_mut());
        assert_eq!(answer, 0);
        assert_eq!(
            image,
            [entries[0], entries[1], entries[2], CLEAR, entries[2]]
        );

        let mut strip = [165; 8];
        let answer = model::store(5, 1, &chain, data, image.as_flattened(), &mut strip);
        assert_eq!((answer, strip), (21, [165; 8]));
        image[3] = entries[1];
        let answer = model::store(5, 1, &chain, data, image.as_flattened(), &mut strip);
        assert_eq!((answer, strip), (0, [0, 100, 0, 255, 0, 170, 0, 255]));
    }

    #[test]
    fn largest_numbers() {
        let entries = vec![7; 1028];
        let table = |size: u16| record(COLOR_TABLE, 0, size, 0, 4 * u32::from(size));
        let answer = |width, chain: &[u8]| {
            model::rebuild(width, 1, chain, &entries, &mut vec![0; 4 * 16385])
        };
        assert_eq!((answer(16384, &[]), answer(16385, &[])), (0, 1));
        assert_eq!((answer(1, &table(256)), answer(1, &table(257))), (0, 5));
    }
}

/// What document 02 (ii) says, sentence by sentence.
#[cfg(rust_source)]
mod row_ends {
    use oracle::calls::Retouch;
    use oracle::given::{record, Given, COLOR_TABLE, PREDICTOR};
    use oracle::model::{self, Desk};

    /// Sizes of tables; a row of indices, its packed bytes, and those that were stored earlier.
    const ROWS: [(u16, [&[u8]; 3]); 10] = [
        (1, [&[0, 0, 0], &[0], &[0]]),
        (2, [&[1, 0, 1], &[0b1111_1101], &[0b101]]),
        (2, [&[1, 1, 0], &[0b11], &[0b11]]),
        (2, [&[0, 0, 0, 0, 0, 0, 0, 0, 1], &[0, 255], &[0, 1]]),
        (3, [&[0, 1, 2, 0, 2], &[36, 170], &[36, 2]]),
        (4, [&[1, 3], &[0b1111_1101], &[0b1101]]),
        (4, [&[3, 2, 1], &[0b0101_1011], &[0b01_1011]]),
        (5, [&[1, 2, 4], &[0x21, 0x44], &[0x21, 4]]),
        (16, [&[10], &[0xAA], &[10]]),
        (17, [&[1, 2, 16], &[1, 2, 16], &[1, 2, 16]]),
    ];

    fn entry(index: u8) -> [u8; 4] {
        [index, 7, 7, 7]
    }

    fn picture(indices: &[u8]) -> Vec<u8> {
        indices.iter().flat_map(|&index| entry(index)).collect()
    }

    /// One row twice, under a table alone.
    fn twice(size: u16, row: &[u8]) -> (Given, Vec<u8>) {
        let data: Vec<u8> = (0..size as u8).flat_map(entry).collect();
        let given = Given {
            width: row.len() as u32,
            height: 2,
            chain: record(COLOR_TABLE, 0, size, 0, data.len() as u32),
            data,
        };
        (given, picture(row).repeat(2))
    }

    fn packed(bytes: &[u8]) -> Vec<u8> {
        bytes.iter().flat_map(|&byte| [0, byte, 0, 255]).collect()
    }

    fn stored(given: &Given, picture: &[u8]) -> Vec<u8> {
        Desk::new(given.valid(), picture).strip()
    }

    /// "Fill the unused bits of a row's last packed record with the index of the row's last pixel,
    /// repeated." "In place of document 01's zero bits."
    #[test]
    fn storing() {
        for (size, [row, bytes, earlier]) in ROWS {
            let (given, picture) = twice(size, row);
            assert_eq!(stored(&given, &picture), packed(bytes).repeat(2));
            let strip = model::stored_earlier(&given.valid(), &picture);
            assert_eq!(strip, packed(earlier).repeat(2));
        }
    }

    /// "Rebuilding still ignores them." "Our strips stored earlier rebuild as before."
    #[test]
    fn rebuilding() {
        for (size, [row, bytes, earlier]) in ROWS {
            let (given, picture) = twice(size, row);
            for bytes in [bytes, earlier] {
                let mut image = packed(bytes).repeat(2);
                image.resize(picture.len(), 165);
                let (chain, data) = (&given.chain, &given.data);
                let answer = model::rebuild(given.width, 2, chain, data, &mut image);
                assert_eq!((answer, image), (0, picture.clone()));
            }
        }
    }

    /// "Retouch in the last column therefore moves those bits too": of 5 columns, in 2 records.
    #[test]
    fn retouching() {
        let (given, picture) = twice(3, &[0, 1, 2, 0, 2]);
        let mut desk = Desk::new(given.valid(), &picture);
        let last = Retouch {
            x: 4,
            y: 1,
            color: entry(1),
        };
        assert_eq!(desk.answer(last), 256 + 32 + 1);
        assert_eq!(desk.strip(), packed(&[36, 170, 36, 0b0101_0101]));
        assert_eq!(desk.answer(last), 256);
        // The last pixel is in this record, and stays.
        let (given, picture) = twice(3, &[0, 2]);
        let mut desk = Desk::new(given.valid(), &picture);
        let first = Retouch { x: 0, ..last };
        assert_eq!(desk.answer(first), 256 + 32 + 1);
        assert_eq!(desk.strip(), packed(&[0b1010_1000, 0b1010_1001]));
    }

    /// "Row ends that predict better": the predictor is given the bits too.
    #[test]
    fn predicting() {
        let (mut given, picture) = twice(2, &[1]);
        given.chain.extend(record(PREDICTOR, 2, 0, 4, 4));
        assert_eq!(
            stored(&given, &picture),
            [[0, 255, 0, 0], [0; 4]].as_flattened()
        );
        let earlier = model::stored_earlier(&given.valid(), &picture);
        assert_eq!(earlier, [[0, 1, 0, 0], [0; 4]].as_flattened());
    }
}

/// What document 02 (i) says, sentence by sentence.
#[cfg(rust_source)]
mod reports {
    use oracle::model;

    const PAPER: [u8; 4] = [200, 180, 90, 255];
    const METAL: [u8; 4] = [200, 180, 90, 254];
    const BELT: [u8; 4] = [0, 0, 0, 255];

    fn report(picture: &[[u8; 4]], colors: &[[u8; 4]], counters: &mut [[u8; 8]]) -> u32 {
        let (picture, colors) = (picture.as_flattened(), colors.as_flattened());
        let width = picture.len() as u32 / 4;
        model::report(width, 1, picture, colors, counters.as_flattened_mut())
    }

    /// "One 8-byte little-endian counter for each, then one for all other colors, without header."
    #[test]
    fn one_picture() {
        let picture = [PAPER, BELT, PAPER, METAL, BELT, BELT];
        let mut counters = [
            [0; 8],
            [255, 2, 0, 0, 0, 0, 0, 7],
            [254, 255, 0, 0, 0, 0, 0, 0],
        ];
        assert_eq!(report(&picture, &[PAPER, METAL], &mut counters), 0);
        assert_eq!(counters[0], [2, 0, 0, 0, 0, 0, 0, 0]);
        assert_eq!(counters[1], [0, 3, 0, 0, 0, 0, 0, 7]);
        assert_eq!(counters[2], [1, 0, 1, 0, 0, 0, 0, 0]);
    }

    /// "A call adds one picture to the counters." "Colors compare in all four bytes."
    #[test]
    fn two_pictures() {
        let mut counters = [[0; 8]; 3];
        for picture in [&[PAPER, PAPER, METAL][..], &[BELT, METAL]] {
            assert_eq!(report(picture, &[METAL, PAPER], &mut counters), 0);
        }
        assert_eq!(counters.map(u64::from_le_bytes), [2, 2, 1]);
        for byte in 0..4 {
            let mut near = PAPER;
            near[byte] ^= 128;
            let mut counters = [[0; 8]; 2];
            assert_eq!(report(&[near], &[PAPER], &mut counters), 0);
            assert_eq!(counters.map(u64::from_le_bytes), [0, 1]);
        }
    }

    /// "A color listed twice, or a list not of 4 to 1024 bytes in fours, tested after 1."
    #[test]
    fn lists() {
        let answer = |width, colors: &[u8]| {
            let mut counters = vec![0; 8 * 258];
            model::report(width, 1, &PAPER, colors, &mut counters)
        };
        let distinct: Vec<u8> = (0..257u32).flat_map(u32::to_le_bytes).collect();
        for len in 0..=distinct.len() {
            let listed = len % 4 == 0 && (1..=256).contains(&(len / 4));
            assert_eq!(answer(1, &distinct[..len]), if listed { 0 } else { 23 });
        }
        let twice = [PAPER, METAL, PAPER].concat();
        assert_eq!((answer(1, &twice), answer(1, &twice[..8])), (23, 0));
        assert_eq!((answer(0, &twice), answer(16385, &twice)), (1, 1));
    }

    /// "Under 8 bytes for each counter gets 8", after 23. Then the picture.
    #[test]
    fn short_buffers() {
        let answer = |pixels: usize, colors: &[[u8; 4]], len: usize| {
            let (picture, mut counters) = (PAPER.repeat(pixels), vec![165; len]);
            let colors = colors.as_flattened();
            let answer = model::report(2, 3, &picture, colors, &mut counters);
            assert!(answer == 0 || counters == vec![165; len]);
            answer
        };
        assert_eq!(answer(6, &[PAPER], 16), 0);
        assert_eq!((answer(6, &[PAPER], 15), answer(5, &[PAPER], 16)), (8, 8));
        assert_eq!(
            (answer(6, &[PAPER, METAL], 23), answer(7, &[PAPER], 17)),
            (8, 0)
        );
        assert_eq!(answer(0, &[PAPER, PAPER], 0), 23);
    }

    /// "A counter would pass 2^64 − 1, tested last." "A refused one leaves the counters."
    #[test]
    fn full_counters() {
        let full = u64::MAX.to_le_bytes();
        let room = (u64::MAX - 1).to_le_bytes();
        let mut counters = [[0; 8], room];
        assert_eq!(report(&[PAPER, BELT], &[PAPER], &mut counters), 0);
        assert_eq!(counters, [1u64.to_le_bytes(), full]);
        assert_eq!(report(&[PAPER, BELT], &[PAPER], &mut counters), 24);
        assert_eq!(counters, [1u64.to_le_bytes(), full]);
        assert_eq!(report(&[PAPER], &[PAPER], &mut counters), 0);
        assert_eq!(counters, [2u64.to_le_bytes(), full]);
        assert_eq!(report(&[BELT], &[PAPER], &mut counters[1..]), 8);
    }
}
