//! Every refusal under its condition and under no other, and which of two comes first. A refusal
//! changes no byte: the model's buffers are unchanged then.

use crate::compared::Compared;
use oracle::damage::{retouch_damages, Damage, Input};
use oracle::given::{orders, Plan};
use oracle::model;

const ALL: [u32; 10] = [1, 2, 3, 4, 5, 6, 7, 8, 9, 22];

const SMALL: [(u16, u16); 4] = [(1, 1), (5, 3), (9, 2), (2, 6)];

#[test]
fn one_damage() {
    let mut compared = Compared::new("one damage", 0x9E6C_63D0_876A_3F9B);
    for kinds in orders() {
        for (width, height) in SMALL {
            let plan = Plan::any(&mut compared.random, width, height, &kinds);
            let input = Input::new(&mut compared.random, &plan);
            assert!(answered(&input) >= 256);
            compare(&mut compared, &input);
            for damage in retouch_damages(&input) {
                expect(&mut compared, &input, &[&damage], damage.number);
                // A color that would show, were it painted.
                let mut other = input.clone();
                other.retouch.color = input.retouch.color.map(|byte| !byte);
                expect(&mut compared, &other, &[&damage], damage.number);
            }
        }
    }
    compared.finish(&ALL);
}

/// The damage that is to be answered is done last, since both may be to the same field.
#[test]
fn two_damages() {
    let mut compared = Compared::new("two damages", 0xC3A5_C85C_97CB_3127);
    for kinds in orders().into_iter().filter(|kinds| kinds.len() != 3) {
        let plan = Plan::any(&mut compared.random, 5, 3, &kinds);
        let input = Input::new(&mut compared.random, &plan);
        let mut damages = retouch_damages(&input);
        damages.sort_by_key(Damage::place);
        for (at, first) in damages.iter().enumerate() {
            for second in &damages[at + 1..] {
                expect(&mut compared, &input, &[second, first], first.number);
            }
        }
    }
    compared.finish(&ALL[..9]);
}

#[test]
fn every_bit_of_a_chain() {
    let mut compared = Compared::new("every bit of a chain", 0xB492_B66F_BE98_F273);
    for kinds in orders() {
        for (width, height) in SMALL {
            let plan = Plan::any(&mut compared.random, width, height, &kinds);
            let input = Input::new(&mut compared.random, &plan);
            for bit in 0..8 * input.given.chain.len() {
                let mut damaged = input.clone();
                damaged.given.chain[bit / 8] ^= 1 << (bit % 8);
                compare(&mut compared, &damaged);
            }
        }
    }
    compared.finish(&[3, 4, 5, 6, 7]);
}

#[test]
fn every_length_of_the_buffers() {
    let mut compared = Compared::new("every length of the buffers", 0x9AE1_6A3B_2F90_404F);
    for kinds in orders() {
        for (width, height) in [(1, 1), (5, 2), (2, 3)] {
            let plan = Plan::any(&mut compared.random, width, height, &kinds);
            let input = Input::new(&mut compared.random, &plan);
            let longest = input.picture.len() + 2;
            for picture in 0..=longest {
                for strip in 0..=longest {
                    let mut other = input.clone();
                    other.picture.resize(picture, 0xA5);
                    other.strip.resize(strip, 0xA5);
                    compare(&mut compared, &other);
                }
            }
        }
    }
    compared.finish(&[8]);
}

/// The model agrees with the order that document 01 gives, and the call with the model.
fn expect(compared: &mut Compared, input: &Input, damages: &[&Damage], number: u32) {
    let mut damaged = input.clone();
    for damage in damages {
        damage.apply(&mut damaged);
    }
    assert_eq!(answered(&damaged), number);
    compare(compared, &damaged);
}

/// By the model.
fn answered(input: &Input) -> u32 {
    let given = &input.given;
    let (mut picture, mut strip) = (input.picture.clone(), input.strip.clone());
    let answer = model::retouch(
        given.width,
        given.height,
        &given.chain,
        &given.data,
        &mut picture,
        &mut strip,
        input.retouch,
    );
    let written = picture != input.picture || strip != input.strip;
    assert!(answer >= 256 || !written);
    answer
}

fn compare(compared: &mut Compared, input: &Input) {
    compared.with_model(&input.given, &input.picture, &input.strip, &[input.retouch]);
}
