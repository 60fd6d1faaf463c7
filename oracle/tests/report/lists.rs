//! Lists of any maps, accepted and refused, under one list of colors.

use crate::compared::Compared;
use oracle::given::no_entry;
use oracle::shipments::{any_colors, any_pixels, Map, Shipment, COUNTS, MOST};

#[test]
fn any_lists() {
    let mut compared = Compared::new("any lists", 0x2545_F491_4F6C_DD1D);
    for count in COUNTS {
        for _ in 0..60 {
            let colors = any_colors(&mut compared.random, count);
            let len = compared.random.choose(&[1, 5, 20, 60]);
            let shipment = Shipment::any(&mut compared.random, &colors, len);
            compared.list(&shipment);
        }
    }
    compared.finish(&[0, 1, 8, 24]);
}

#[test]
fn every_count_of_colors() {
    let mut compared = Compared::new("every count of colors", 0x9FB2_1C65_1E98_DF25);
    for count in 1..=MOST {
        let colors = any_colors(&mut compared.random, count);
        let shipment = Shipment::any(&mut compared.random, &colors, 12);
        compared.list(&shipment);
    }
    compared.finish(&[0, 1, 8, 24]);
}

/// The widest and the highest, and more pixels of one color than 16 bits count.
#[test]
fn long_sides() {
    const LONG: [(u32, u32); 8] = [
        (16384, 1),
        (1, 16384),
        (16383, 3),
        (5, 4097),
        (513, 33),
        (257, 257),
        (2, 8192),
        (16384, 5),
    ];
    let mut compared = Compared::new("long sides", 0xD6E8_FEB8_6659_FD93);
    for count in [1, 2, 17, MOST] {
        let colors = any_colors(&mut compared.random, count);
        let mut shipment = Shipment::any(&mut compared.random, &colors, 0);
        let other = no_entry(&mut compared.random, &colors);
        let all = [colors.as_slice(), &[other]].concat();
        for drawn in [&all[..], &all[..1], &all[count..]] {
            let map = |&sides| map_of(&mut compared, sides, drawn);
            shipment.maps.extend(LONG.iter().map(map));
        }
        compared.list(&shipment);
    }
    compared.finish(&[0]);
}

/// The largest map there is.
#[test]
#[ignore = "takes 2 GiB of memory and some seconds; run by hand"]
fn largest_map() {
    let mut compared = Compared::new("largest map", 0x27D4_EB2F_1656_67C5);
    let colors = any_colors(&mut compared.random, 3);
    let mut shipment = Shipment::any(&mut compared.random, &colors[1..], 0);
    shipment.counters.fill(0);
    let map = map_of(&mut compared, (16384, 16384), &colors);
    shipment.maps.push(map);
    assert_eq!(compared.list(&shipment).answers, [0]);
    compared.finish(&[0]);
}

fn map_of(compared: &mut Compared, (width, height): (u32, u32), drawn: &[[u8; 4]]) -> Map {
    let len = (width * height) as usize;
    let pixels = any_pixels(&mut compared.random, len, drawn);
    Map::new(width, height, pixels)
}
