//! Counters next to 2^64 - 1, and next to a carry into each of their bytes.

use crate::compared::Compared;
use oracle::model::counter_of;
use oracle::report_damage::undamaged;
use oracle::shipments::{any_colors, Map, Shipment, MOST};

/// Each counter in turn has room for a few pixels, and the map has a few of its color: accepted
/// exactly where they fit. The others have grown before the last one is looked at.
#[test]
fn room_for_a_few() {
    let mut compared = Compared::new("room for a few", 0x3956_C25B_F348_B538);
    for count in [1, 2, 5] {
        let colors = any_colors(&mut compared.random, count);
        for counter in 0..=count {
            for (room, pixels) in (0..6).flat_map(|room| (0..8).map(move |n| (room, n))) {
                let mut shipment = with_pixels(&mut compared, &colors, counter, pixels);
                shipment.set_counter(counter, u64::MAX - room);
                let number = if pixels as u64 <= room { 0 } else { 24 };
                assert_eq!(compared.list(&shipment).answers, [number]);
            }
        }
    }
    compared.finish(&[0, 24]);
}

/// One of 257 counters is full: the rest is not written either.
#[test]
fn one_of_many_is_full() {
    let mut compared = Compared::new("one of many is full", 0x59F1_11F1_B605_D019);
    let colors = any_colors(&mut compared.random, MOST);
    for full in 0..=MOST {
        let mut shipment = undamaged(&mut compared.random, &colors);
        shipment.set_counter(full, u64::MAX);
        assert_eq!(compared.list(&shipment).answers, [24]);
    }
    compared.finish(&[24]);
}

/// A counter goes over the end of each of its bytes, by a pixel and by many.
#[test]
fn every_carry() {
    let mut compared = Compared::new("every carry", 0x923F_82A4_AF19_4F9B);
    let colors = any_colors(&mut compared.random, 3);
    for (counter, byte) in (0..4).flat_map(|counter| (0..8).map(move |byte| (counter, byte))) {
        let most = u64::MAX >> (56 - 8 * byte);
        for (less, pixels) in [(0, 0), (0, 1), (1, 1), (1, 2), (9, 9), (9, 10), (3, 300)] {
            let mut shipment = with_pixels(&mut compared, &colors, counter, pixels);
            // Bytes above the carry, which it must not reach.
            let above = compared.random.number() & !most & !most.wrapping_add(1);
            shipment.set_counter(counter, above | (most - less));
            compared.list(&shipment);
        }
    }
    compared.finish(&[0, 24]);
}

/// Many maps of one color: the counter goes through the end of a byte, pixel by pixel.
#[test]
fn pixel_by_pixel() {
    let mut compared = Compared::new("pixel by pixel", 0xAB1C_5ED5_DA6D_8118);
    let colors = any_colors(&mut compared.random, 1);
    for (counter, most) in (0..2).flat_map(|c| [8, 16, 32, 64].map(|bits| (c, bits))) {
        let most = u64::MAX >> (64 - most);
        let mut shipment = with_pixels(&mut compared, &colors, counter, 1);
        shipment.set_counter(counter, most - 20);
        shipment.maps = vec![shipment.maps[0].clone(); 40];
        let accepted = if most == u64::MAX { 20 } else { 40 };
        let answers = compared.list(&shipment).answers;
        assert!(answers[..accepted].iter().all(|&answer| answer == 0));
        assert!(answers[accepted..].iter().all(|&answer| answer == 24));
    }
    compared.finish(&[0, 24]);
}

/// Together they are far past 2^64 - 1, and none is.
#[test]
fn all_next_to_the_most() {
    let mut compared = Compared::new("all next to the most", 0xD807_AA98_A303_0242);
    for count in [1, 3, MOST] {
        let colors = any_colors(&mut compared.random, count);
        let mut shipment = undamaged(&mut compared.random, &colors);
        for counter in 0..=count {
            shipment.set_counter(counter, u64::MAX - 1);
        }
        shipment.maps = vec![shipment.maps[0].clone(); 2];
        let reported = compared.list(&shipment);
        assert_eq!(reported.answers, [0, 24]);
        assert!(reported.numbers.iter().all(|&number| number == u64::MAX));
    }
    compared.finish(&[0, 24]);
}

/// A map with a pixel for each counter, and with so many for this one, in any order. The counters
/// are low.
fn with_pixels(
    compared: &mut Compared,
    colors: &[[u8; 4]],
    counter: usize,
    pixels: usize,
) -> Shipment {
    let random = &mut compared.random;
    let mut shipment = undamaged(random, colors);
    let mut map = shipment.maps[0].picture.as_chunks().0.to_vec();
    let at = map
        .iter()
        .position(|pixel| counter_of(colors, pixel) == counter);
    let color = map.swap_remove(at.expect("there is one"));
    map.extend(std::iter::repeat_n(color, pixels));
    random.shuffle(&mut map);
    shipment.maps = vec![Map::new(map.len() as u32, 1, map)];
    shipment
}
