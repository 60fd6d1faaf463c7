//! The call's stack: under 256 KiB, of which the thread that calls wants some too.

use oracle::calls::{self, Retouch};
use oracle::given::{orders, Plan};
use oracle::random::Xorshift;
use std::thread::Builder;

/// The widest rows, and every record.
#[test]
fn stack_is_under_256_kib() {
    for kinds in orders().into_iter().filter(|kinds| kinds.len() == 4) {
        let mut random = Xorshift::new(0xD6E8_FEB8_6659_FD93);
        let given = Plan::any(&mut random, 16384, 2, &kinds).given(&mut random);
        let mut picture = given.storable(&mut random);
        let mut strip = picture.clone();
        let retouch = Retouch {
            x: 8191,
            y: 0,
            color: picture.as_chunks().0[8191],
        };
        let call = move || {
            let (chain, data) = (&given.chain, &given.data);
            let answer = calls::retouch(16384, 2, chain, data, &mut picture, &mut strip, retouch);
            assert!(answer >= 256);
        };
        let thread = Builder::new().stack_size(256 * 1024).spawn(call).unwrap();
        thread.join().unwrap();
    }
}
