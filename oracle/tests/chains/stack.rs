//! The calls' stack: under 256 KiB, of which the thread that calls wants some too.

use oracle::calls;
use oracle::given::{orders, Plan};
use oracle::random::Xorshift;
use std::thread::Builder;

/// The widest rows, and every record: a thread of 256 KiB is enough to store and to rebuild.
#[test]
fn stack_is_under_256_kib() {
    for kinds in orders().into_iter().filter(|kinds| kinds.len() == 4) {
        let mut random = Xorshift::new(0x9216_D5D9_8979_FB1B);
        let given = Plan::any(&mut random, 16384, 2, &kinds).given(&mut random);
        let picture = given.storable(&mut random);
        let (mut strip, mut image) = (picture.clone(), picture.clone());
        let calls = move || {
            let stored = calls::store(16384, 2, &given.chain, &given.data, &picture, &mut strip);
            image[..strip.len()].copy_from_slice(&strip);
            let rebuilt = calls::rebuild(16384, 2, &given.chain, &given.data, &mut image);
            assert_eq!((stored, rebuilt), (0, 0));
            assert!(image == picture);
        };
        let thread = Builder::new().stack_size(256 * 1024).spawn(calls).unwrap();
        thread.join().unwrap();
    }
}
