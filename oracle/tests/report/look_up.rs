//! Lists of colors that a look-up could get wrong, and maps of these colors and of others.

use crate::compared::Compared;
use oracle::given::no_entry;
use oracle::random::Xorshift;
use oracle::report_damage::undamaged;
use oracle::shipments::{any_colors, distinct, of_one_slot, Map, COUNTS, MOST};

/// A list of any one color, and of all that differ in one byte; maps of all that differ in one
/// byte, in the same one or in another.
#[test]
fn one_byte_apart() {
    let mut compared = Compared::new("one byte apart", 0xA076_1D64_78BD_642F);
    let differing = |color: [u8; 4], byte: usize| {
        let with = |value| {
            let mut other = color;
            other[byte] = value;
            other
        };
        (0..=255).map(with).collect::<Vec<[u8; 4]>>()
    };
    for byte in 0..4 {
        for _ in 0..20 {
            let color = compared.random.pixel();
            for colors in [vec![color], differing(color, byte)] {
                let maps = (0..4).map(|byte| differing(color, byte)).collect();
                count(&mut compared, &colors, maps);
            }
        }
    }
    compared.finish(&[0]);
}

/// Colors of one slot and of few, half of them listed.
#[test]
fn shared_slots() {
    let mut compared = Compared::new("shared slots", 0xE703_7ED1_A0B4_28DB);
    for listed in COUNTS {
        for slots in [1, 1, 2, 5, 40] {
            let each = (2 * listed).div_ceil(slots);
            let mut seen: Vec<[u8; 4]> = (0..slots)
                .flat_map(|_| of_one_slot(&mut compared.random, each))
                .collect();
            compared.random.shuffle(&mut seen);
            // Two of the slots may be the same one, and have colors in common.
            let mut drawn = seen.iter().copied();
            let colors = distinct(listed, || drawn.next().expect("half of them are enough"));
            compared.random.shuffle(&mut seen);
            count(&mut compared, &colors, vec![seen.clone(), colors.clone()]);
        }
    }
    compared.finish(&[0]);
}

#[test]
fn none_is_listed() {
    let mut compared = Compared::new("none is listed", 0x8EBC_6AF0_9C88_C6E3);
    for len in COUNTS {
        let colors = any_colors(&mut compared.random, len);
        let mut others = || no_entry(&mut compared.random, &colors);
        let maps = [1, 7, 256, 4000].map(|len| (0..len).map(|_| others()).collect());
        let counts = count(&mut compared, &colors, maps.into());
        assert!(counts[..len].iter().all(|&count| count == 0));
        assert_eq!(counts[len], 1 + 7 + 256 + 4000);
    }
    compared.finish(&[0]);
}

/// Clear pixels, which are all zero, as free places of a table may be: listed at each place of a
/// short list, and not listed; then every color that has one bit.
#[test]
fn clear_pixels() {
    let mut compared = Compared::new("clear pixels", 0x5899_65CC_7537_4CC3);
    let clear = [0; 4];
    let mut seen: Vec<[u8; 4]> = (0..32).map(|bit| (1u32 << bit).to_le_bytes()).collect();
    seen.push(clear);
    for len in [1, 2, 3, 32] {
        for place in 0..=len {
            let mut colors = distinct(len, || compared.random.pixel().map(|byte| byte | 1));
            let listed = place < len;
            if listed {
                colors[place] = clear;
            }
            let counts = count(&mut compared, &colors, vec![vec![clear; 9], seen.clone()]);
            assert_eq!(counts[place], if listed { 10 } else { 42 });
        }
    }
    for rotation in 0..seen.len() {
        seen.rotate_left(1);
        count(&mut compared, &seen[..1 + rotation], vec![seen.clone()]);
    }
    compared.finish(&[0]);
}

/// More colors than slots, which go through the slots that are taken and those that are not.
#[test]
fn every_slot() {
    let mut compared = Compared::new("every slot", 0x1D8E_4E27_C47D_124F);
    for len in [1, 16, MOST] {
        let colors = any_colors(&mut compared.random, len);
        let any = |random: &mut Xorshift| (0..16384).map(|_| random.pixel()).collect();
        let maps = [(); 4].map(|()| any(&mut compared.random));
        count(&mut compared, &colors, maps.into());
    }
    compared.finish(&[0]);
}

/// What the counters count from zero. Every map has one row.
fn count(compared: &mut Compared, colors: &[[u8; 4]], maps: Vec<Vec<[u8; 4]>>) -> Vec<u64> {
    let mut shipment = undamaged(&mut compared.random, colors);
    shipment.counters.fill(0);
    let row = |pixels: Vec<[u8; 4]>| Map::new(pixels.len() as u32, 1, pixels);
    shipment.maps = maps.into_iter().map(row).collect();
    let reported = compared.list(&shipment);
    assert!(reported.answers.iter().all(|&answer| answer == 0));
    reported.numbers
}
