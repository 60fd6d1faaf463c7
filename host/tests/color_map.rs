//! The color map calls, held against the sums written out here.

mod common;

use common::Xorshift;
use letchwater::{
    adjust_color_map, adjust_color_map_in_place, unadjust_color_map, unadjust_color_map_in_place,
    Pixel,
};

#[test]
fn every_number_of_entries() {
    let mut random = Xorshift::new(0x5DEE_CE66_D1CE_CAFE);
    for count in 1..=256 {
        let map = random.pixels(count);
        let mut sum = Pixel::default();
        let add = |entry: &Pixel| {
            sum = Pixel::new(
                sum.red.wrapping_add(entry.red),
                sum.green.wrapping_add(entry.green),
                sum.blue.wrapping_add(entry.blue),
                sum.alpha.wrapping_add(entry.alpha),
            );
            sum
        };
        let entries: Vec<Pixel> = map.iter().map(add).collect();
        assert_eq!(adjust_color_map(&map).as_ref(), Ok(&entries));
        assert_eq!(unadjust_color_map(&entries).as_ref(), Ok(&map));
    }
}

#[test]
fn in_place() {
    let map = [250, 0, 0, 255, 10, 1, 0, 0];
    let mut bytes = map;
    adjust_color_map_in_place(&mut bytes).unwrap();
    assert_eq!(bytes, [250, 0, 0, 255, 4, 1, 0, 255]);
    unadjust_color_map_in_place(&mut bytes).unwrap();
    assert_eq!(bytes, map);
}
