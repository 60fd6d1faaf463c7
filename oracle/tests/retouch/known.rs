//! Document 01's known retouches, by the desk and by the call.

use oracle::calls::{self, Retouch};
use oracle::given::{record, Given, PREDICTOR};
use oracle::model::Desk;

const BLACK: [u8; 4] = [0, 0, 0, 255];

/// Both answer so, and the call leaves the desk's bytes.
fn known(width: u32, height: u32, mode: u8, list: &[(Retouch, u32)]) -> Vec<u8> {
    let given = Given {
        width,
        height,
        chain: record(PREDICTOR, 2, 0, 0, 4),
        data: vec![0, mode, 0, 0],
    };
    let mut picture = vec![BLACK; (width * height) as usize].into_flattened();
    let mut desk = Desk::new(given.valid(), &picture);
    let mut strip = desk.strip();
    for &(retouch, answer) in list {
        assert_eq!(desk.answer(retouch), answer);
        let (chain, data) = (&given.chain, &given.data);
        let called = calls::retouch(
            width,
            height,
            chain,
            data,
            &mut picture,
            &mut strip,
            retouch,
        );
        assert_eq!(called, answer);
        assert_eq!(picture, desk.picture());
        assert_eq!(strip, desk.strip());
    }
    strip
}

#[test]
fn three_by_one() {
    let middle = Retouch {
        x: 1,
        y: 0,
        color: [9, 0, 0, 255],
    };
    let strip = known(3, 1, 0, &[(middle, 323), (middle, 256)]);
    assert_eq!(strip, [0, 0, 0, 0, 9, 0, 0, 0, 247, 0, 0, 0]);
}

#[test]
fn four_by_two() {
    let point = Retouch {
        x: 2,
        y: 0,
        color: [128, 0, 0, 255],
    };
    known(4, 2, 10, &[(point, 447)]);
}
