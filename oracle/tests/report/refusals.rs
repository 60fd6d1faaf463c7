//! Every refusal under its condition and under no other, and which of two comes first. A refusal
//! changes no byte.

use crate::compared::Compared;
use oracle::damage::SIDES;
use oracle::report_damage::{damages, listed_twice, undamaged, Damage};
use oracle::shipments::{any_colors, distinct, of_one_slot, Map, Shipment, COUNTS, MOST};

const ALL: [u32; 4] = [1, 8, 23, 24];

#[test]
fn one_damage() {
    let mut compared = Compared::new("one damage", 0x9E6C_63D0_876A_3F9B);
    for count in COUNTS {
        for _ in 0..8 {
            let colors = any_colors(&mut compared.random, count);
            let shipment = undamaged(&mut compared.random, &colors);
            expect(&mut compared, &shipment, &[], 0);
            for damage in damages(&mut compared.random, &shipment) {
                expect(&mut compared, &shipment, &[&damage], damage.number);
            }
        }
    }
    compared.finish(&ALL);
}

/// The damage that is to be answered is done last, since both may be to the same field.
#[test]
fn two_damages() {
    let mut compared = Compared::new("two damages", 0xC3A5_C85C_97CB_3127);
    for count in [1, 2, 5, MOST] {
        let colors = any_colors(&mut compared.random, count);
        let shipment = undamaged(&mut compared.random, &colors);
        let damages = damages(&mut compared.random, &shipment);
        for (at, first) in damages.iter().enumerate() {
            for second in &damages[at + 1..] {
                expect(&mut compared, &shipment, &[second, first], first.number);
            }
        }
    }
    compared.finish(&ALL);
}

/// No color twice, and counters for all: a list is refused by its length alone.
#[test]
fn every_length_of_the_list() {
    let mut compared = Compared::new("every length of the list", 0xB492_B66F_BE98_F273);
    let colors = distinct(260, || compared.random.pixel());
    let mut shipment = undamaged(&mut compared.random, &colors);
    for len in 0..=4 * colors.len() {
        shipment.colors = colors.as_flattened()[..len].to_vec();
        let accepted = len % 4 == 0 && (4..=1024).contains(&len);
        let number = if accepted { 0 } else { 23 };
        expect(&mut compared, &shipment, &[], number);
    }
    compared.finish(&[0, 23]);
}

/// Any colors, and colors that share a slot.
#[test]
fn every_distance_between_two() {
    let mut compared = Compared::new("every distance between two", 0x5851_F42D_4C95_7F2D);
    for count in [2, 17, MOST] {
        let any = distinct(count, || compared.random.pixel());
        let sharing = of_one_slot(&mut compared.random, count);
        for colors in [any, sharing] {
            let mut shipment = undamaged(&mut compared.random, &colors);
            for (first, second) in pairs_of_places(count) {
                shipment.colors = listed_twice(&colors, first, second);
                expect(&mut compared, &shipment, &[], 23);
            }
        }
    }
    compared.finish(&[23]);
}

/// For each distance from the first place on and to the last one, and some between; of few places
/// all pairs.
fn pairs_of_places(count: usize) -> Vec<(usize, usize)> {
    let step = count.div_ceil(32);
    let pairs = |distance| {
        let last = count - 1 - distance;
        let firsts = (0..last).step_by(step).chain([last]);
        firsts.map(move |first| (first, first + distance))
    };
    (1..count).flat_map(pairs).collect()
}

#[test]
fn every_length_of_the_buffers() {
    let mut compared = Compared::new("every length of the buffers", 0x9AE1_6A3B_2F90_404F);
    for count in [1, 2, 4] {
        let colors = any_colors(&mut compared.random, count);
        let input = undamaged(&mut compared.random, &colors);
        let needed = (input.counters.len(), input.maps[0].picture.len());
        for counters in 0..=needed.0 + 9 {
            for picture in 0..=needed.1 + 5 {
                let mut other = input.clone();
                other.counters.resize(counters, 0xA5);
                other.maps[0].picture.resize(picture, 0xA5);
                let fits = counters >= needed.0 && picture >= needed.1;
                expect(&mut compared, &other, &[], if fits { 0 } else { 8 });
            }
        }
    }
    compared.finish(&[0, 8]);
}

/// With pictures that are empty or have one pixel: 1 or 8, and 0 for one pixel alone.
#[test]
fn every_kind_of_side() {
    let mut compared = Compared::new("every kind of side", 0x1283_5B01_4570_6FBE);
    let colors = any_colors(&mut compared.random, 2);
    let mut shipment = undamaged(&mut compared.random, &colors);
    for (width, height) in SIDES.iter().flat_map(|&w| SIDES.map(|h| (w, h))) {
        for len in [0, 4] {
            let picture = compared.random.bytes(len);
            shipment.maps = vec![Map {
                width,
                height,
                picture,
            }];
            compared.list(&shipment);
        }
    }
    compared.finish(&[0, 1, 8]);
}

/// One call: the model agrees with the order that document 02 gives, and the call with the model.
fn expect(compared: &mut Compared, shipment: &Shipment, damages: &[&Damage], number: u32) {
    let mut damaged = shipment.clone();
    for damage in damages {
        damage.apply(&mut damaged);
    }
    let reported = compared.list(&damaged);
    assert_eq!(reported.answers, [number], "{}", damaged.shown());
}
