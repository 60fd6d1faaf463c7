//! Document 02 (iii): the mean of every two bytes, where one pixel is retouched.

use crate::buffers::{stored, Buffers};
use crate::compared::accepted;
use oracle::calls::Retouch;
use oracle::means::{self, MODES, SECOND_AT};
use oracle::model::Desk;
use oracle::random::Xorshift;

/// A list that paints the middle pixel of each cell. The strip is then the desk's. The desk is not
/// asked for each answer, since it stores the whole picture for one.
#[test]
fn every_two_bytes() {
    let mut random = Xorshift::new(0x80DE_B1FE_3B16_96B1);
    let mut calls = 0;
    for mode in MODES {
        let given = means::given(mode, 4);
        for second_at in SECOND_AT {
            let mut picture = means::map(second_at);
            let strip = stored(&given, &picture, picture.len());
            let mut buffers = Buffers::new(&mut random, &given, &picture, &strip);
            for (x, y) in means::middles() {
                let color = random.pixel();
                let at = 4 * (y * given.width + x) as usize;
                picture[at..at + 4].copy_from_slice(&color);
                let answer = buffers.retouch(Retouch { x, y, color });
                assert!(answer >= accepted(0), "{answer}, {}", given.shown());
                calls += 1;
            }
            let strip = Desk::new(given.valid(), &picture).strip();
            buffers.check(&picture, &strip, "after the list");
            buffers.check_kept();
        }
    }
    println!("every two bytes: {calls} calls");
}
