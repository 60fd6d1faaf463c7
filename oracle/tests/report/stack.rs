//! The call's stack: under 256 KiB, of which the thread that calls wants some too.

use oracle::calls;
use oracle::random::Xorshift;
use oracle::report_damage::undamaged;
use oracle::shipments::{any_colors, any_pixels, MOST};
use std::thread::Builder;

/// The widest rows, and the most colors.
#[test]
fn stack_is_under_256_kib() {
    let mut random = Xorshift::new(0x9216_D5D9_8979_FB1B);
    let colors = any_colors(&mut random, MOST);
    let mut shipment = undamaged(&mut random, &colors);
    let picture = any_pixels(&mut random, 2 * 16384, &colors).into_flattened();
    let call = move || {
        let (colors, counters) = (&shipment.colors, &mut shipment.counters);
        assert_eq!(calls::report(16384, 2, &picture, colors, counters), 0);
    };
    let thread = Builder::new().stack_size(256 * 1024).spawn(call).unwrap();
    thread.join().unwrap();
}
