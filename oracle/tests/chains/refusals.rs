//! Every refusal under its condition and under no other, and which of two comes first.

use crate::compared::Compared;
use oracle::damage::{damages, Damage, Input, SIDES};
use oracle::given::{orders, record, Given, Plan, COLOR, COLOR_TABLE, PREDICTOR};

const ALL: [u32; 9] = [1, 2, 3, 4, 5, 6, 7, 8, 21];

const SMALL: [(u16, u16); 4] = [(1, 1), (5, 3), (9, 2), (2, 6)];

#[test]
fn one_damage() {
    let mut compared = Compared::new("one damage", 0x8EB4_4A87_6858_1511);
    for kinds in orders() {
        for (width, height) in SMALL {
            let plan = Plan::any(&mut compared.random, width, height, &kinds);
            let input = Input::new(&mut compared.random, &plan);
            for damage in damages(&input) {
                expect(&mut compared, &input, &[&damage], damage.number);
            }
        }
    }
    compared.finish(&ALL);
}

/// The damage that is to be answered is done last, since both may be to the same field.
#[test]
fn two_damages() {
    let mut compared = Compared::new("two damages", 0xDB0C_2E0D_64F9_8FA7);
    let long = orders().into_iter().filter(|kinds| kinds.len() >= 3);
    for kinds in long {
        let plan = Plan::any(&mut compared.random, 5, 3, &kinds);
        let input = Input::new(&mut compared.random, &plan);
        let mut damages = damages(&input);
        damages.sort_by_key(Damage::place);
        for (at, first) in damages.iter().enumerate() {
            for second in &damages[at + 1..] {
                expect(&mut compared, &input, &[second, first], first.number);
            }
        }
    }
    compared.finish(&ALL[..8]);
}

#[test]
fn every_bit_of_a_chain() {
    let mut compared = Compared::new("every bit of a chain", 0x47B5_481D_BEFA_4FA4);
    for kinds in orders() {
        for (width, height) in SMALL {
            let plan = Plan::any(&mut compared.random, width, height, &kinds);
            let input = Input::new(&mut compared.random, &plan);
            for bit in 0..8 * input.given.chain.len() {
                let mut damaged = input.clone();
                damaged.given.chain[bit / 8] ^= 1 << (bit % 8);
                compare(&mut compared, &damaged);
            }
        }
    }
    compared.finish(&[0, 3, 4, 5, 6, 7]);
}

/// One to four bytes of the chain replaced, and here and there a side or the end of the data.
#[test]
fn any_bytes_of_a_chain() {
    let mut compared = Compared::new("any bytes of a chain", 0x3956_C25B_F348_B538);
    let orders = orders();
    for turn in 0..200_000 {
        let kinds = &orders[turn % orders.len()];
        let (width, height) = compared.random.choose(&SMALL);
        let plan = Plan::any(&mut compared.random, width, height, kinds);
        let mut input = Input::new(&mut compared.random, &plan);
        damage_bytes(&mut compared, &mut input);
        compare(&mut compared, &input);
    }
    compared.finish(&[0, 1, 3, 4, 5, 6, 7, 8]);
}

fn damage_bytes(compared: &mut Compared, input: &mut Input) {
    let random = &mut compared.random;
    let len = input.given.chain.len();
    if len > 0 {
        for _ in 0..random.below(5) {
            let value = random.choose(&[0, 1, 2, 3, 4, 5, 9, 16, 17, 255]);
            input.given.chain[random.below(len)] = value;
        }
    }
    match random.below(8) {
        0 => input.given.width = random.below(20_000) as u32,
        1 => input.given.height = random.below(20_000) as u32,
        2 => {
            let len = random.below(input.given.data.len() + 1);
            input.given.data.truncate(len);
        }
        _ => {}
    }
}

/// Cut short, or followed by zeros or by its own first bytes.
#[test]
fn every_length_of_a_chain() {
    let mut compared = Compared::new("every length of a chain", 0x59F1_11F1_B605_D019);
    for kinds in orders() {
        let plan = Plan::any(&mut compared.random, 5, 3, &kinds);
        let input = Input::new(&mut compared.random, &plan);
        for len in 0..=80 {
            let mut zeros = input.clone();
            zeros.given.chain.resize(len, 0);
            compare(&mut compared, &zeros);
            let mut again = input.clone();
            let bytes = input.given.chain.iter().copied().cycle();
            again.given.chain = bytes.take(len).collect();
            compare(&mut compared, &again);
        }
    }
    compared.finish(&[0, 2, 4, 5]);
}

#[test]
fn every_length_of_the_data() {
    let mut compared = Compared::new("every length of the data", 0x923F_82A4_AF19_4F9B);
    for kinds in orders() {
        let mut plan = Plan::any(&mut compared.random, 9, 7, &kinds);
        plan.size = plan.size.min(17);
        let input = Input::new(&mut compared.random, &plan);
        for len in 0..input.given.data.len() {
            let mut shorter = input.clone();
            shorter.given.data.truncate(len);
            compare(&mut compared, &shorter);
        }
    }
    compared.finish(&[0, 7]);
}

#[test]
fn every_length_of_the_buffers() {
    let mut compared = Compared::new("every length of the buffers", 0xAB1C_5ED5_DA6D_8118);
    for kinds in orders() {
        for (width, height) in [(1, 1), (5, 2), (3, 3)] {
            let plan = Plan::any(&mut compared.random, width, height, &kinds);
            let input = Input::new(&mut compared.random, &plan);
            let longest = input.picture.len() + 2;
            for picture in 0..=longest {
                for strip in 0..=longest {
                    let mut other = input.clone();
                    other.picture.resize(picture, 0xA5);
                    other.strip.resize(strip, 0xA5);
                    compared.store(&other.given, &other.picture, &other.strip);
                }
                let mut image = input.picture.clone();
                image.resize(picture, 0xA5);
                compared.rebuild(&input.given, &image);
            }
        }
    }
    compared.finish(&[0, 8]);
}

/// Offsets and lengths about 2^32, where a sum of 32 bits would wrap to one inside the data.
#[test]
fn far_parts() {
    let mut compared = Compared::new("far parts", 0xD807_AA98_A303_0242);
    for kinds in orders() {
        let plan = Plan::any(&mut compared.random, 5, 3, &kinds);
        let input = Input::new(&mut compared.random, &plan);
        for record in 0..kinds.len() {
            let at = 16 * record + 8;
            let length = u32::from_le_bytes(input.given.chain[at..at + 4].try_into().unwrap());
            let end = input.given.data.len() as u32;
            let fitting = end - length;
            let around = |far: u32| (0..3).map(move |step| far.wrapping_sub(1).wrapping_add(step));
            let far = [0, length, fitting, end, 1 << 31, length.wrapping_neg()];
            let far: Vec<u32> = far.into_iter().flat_map(around).collect();
            for &offset in &far {
                compare_part(&mut compared, &input, record, offset, length);
                for &length in &far {
                    compare_part(&mut compared, &input, record, offset, length);
                }
            }
        }
    }
    compared.finish(&[0, 5, 6, 7]);
}

fn compare_part(compared: &mut Compared, input: &Input, record: usize, offset: u32, length: u32) {
    let mut other = input.clone();
    let part = &mut other.given.chain[16 * record + 4..16 * record + 12];
    part[..4].copy_from_slice(&offset.to_le_bytes());
    part[4..].copy_from_slice(&length.to_le_bytes());
    compare(compared, &other);
}

/// With buffers that are empty or have one pixel: 1 or 8, and 0 for one pixel alone.
#[test]
fn every_kind_of_side() {
    let mut compared = Compared::new("every kind of side", 0x1283_5B01_4570_6FBE);
    for width in SIDES {
        for height in SIDES {
            for len in [0, 4] {
                let given = Given {
                    width,
                    height,
                    chain: Vec::new(),
                    data: Vec::new(),
                };
                let buffer = compared.random.bytes(len);
                compared.rebuild(&given, &buffer);
                compared.store(&given, &buffer, &buffer);
            }
        }
    }
    compared.finish(&[0, 1, 8]);
}

/// 16384 by 16384 has valid chains; the buffers are too short, and with blocks of 4 the data is.
#[test]
fn largest_sides() {
    let mut compared = Compared::new("largest sides", 0x243F_6A88_85A3_08D3);
    let (blocks, packed) = (record(PREDICTOR, 9, 0, 0, 4096), 512);
    let table = record(COLOR_TABLE, 0, 2, 0, 8);
    let small_blocks = record(PREDICTOR, 2, 0, 0, 1 << 26);
    for chain in [
        blocks.clone(),
        [blocks.clone(), table.clone()].concat(),
        [table.clone(), record(COLOR, 9, 0, 0, packed)].concat(),
        [table, blocks].concat(),
        small_blocks,
    ] {
        let given = Given {
            width: 16384,
            height: 16384,
            chain,
            data: compared.random.bytes(4096),
        };
        for len in [0, 4, 65_536] {
            let buffer = compared.random.bytes(len);
            compared.rebuild(&given, &buffer);
            compared.store(&given, &buffer, &buffer);
        }
    }
    compared.finish(&[6, 7, 8]);
}

/// The model agrees with the order that document 01 gives, and the calls with the model.
fn expect(compared: &mut Compared, input: &Input, damages: &[&Damage], number: u32) {
    let mut damaged = input.clone();
    for damage in damages {
        damage.apply(&mut damaged);
    }
    let stored = compared.store(&damaged.given, &damaged.picture, &damaged.strip);
    assert_eq!(stored.answer, number);
    if damages.iter().any(|damage| damage.storing_only) {
        return;
    }
    let rebuilt = compared.rebuild(&damaged.given, &damaged.picture);
    assert_eq!(rebuilt.answer, number);
}

fn compare(compared: &mut Compared, input: &Input) {
    compared.store(&input.given, &input.picture, &input.strip);
    compared.rebuild(&input.given, &input.picture);
}
