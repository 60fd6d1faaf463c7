//! Document 02 (iii): the mean of every two bytes, by the calls as they are compiled.

use crate::compared::Compared;
use oracle::means::{self, MODES, SECOND_AT};
use std::collections::BTreeSet;

/// In the shortest blocks and in the longest.
#[test]
fn every_two_bytes() {
    let mut compared = Compared::new("every two bytes", 0x550C_7DC3_72BE_5D74);
    for mode in MODES {
        for bits in [2, 9] {
            let given = means::given(mode, bits);
            for second_at in SECOND_AT {
                let map = means::map(second_at);
                let strip = compared.random.bytes(map.len());
                let stored = compared.store(&given, &map, &strip);
                let rebuilt = compared.rebuild(&given, &stored.bytes);
                assert!(rebuilt.bytes == map, "{}", given.shown());
            }
        }
    }
    compared.finish(&[0]);
}

/// What the maps are for: between them they give each mean every two bytes.
#[test]
fn every_two_bytes_meet() {
    let width = means::given(MODES[0], 2).width as usize;
    let mut met: [BTreeSet<(u8, u8)>; 7] = Default::default();
    for second_at in SECOND_AT {
        let map = means::map(second_at);
        let (pixels, _) = map.as_chunks::<4>();
        for (x, y) in means::middles() {
            let at = y as usize * width + x as usize;
            let neighbors = [1, width, width - 1, width + 1].map(|back| pixels[at - back]);
            for channel in 0..4 {
                let averaged = averaged(neighbors.map(|neighbor| neighbor[channel]));
                for (met, two) in met.iter_mut().zip(averaged) {
                    met.insert(two);
                }
            }
        }
    }
    assert_eq!(met.map(|met| met.len()), [256 * 256; 7]);
}

/// What modes 5 to 9 average, and mode 10 at last: its first averages are those of modes 6 and 9.
/// Mode 13's is that of mode 7.
fn averaged([l, t, tr, tl]: [u8; 4]) -> [(u8, u8); 7] {
    let avg = |a: u8, b: u8| ((u16::from(a) + u16::from(b)) / 2) as u8;
    [
        (l, tr),
        (avg(l, tr), t),
        (l, tl),
        (l, t),
        (tl, t),
        (t, tr),
        (avg(l, tl), avg(t, tr)),
    ]
}
