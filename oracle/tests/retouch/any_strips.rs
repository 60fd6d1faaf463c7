//! Lists from strips that are not their picture's, and from pictures that storing does not accept,
//! beside the model of the call.

use crate::compared::{Compared, LISTED};
use oracle::given::{orders, Given, Plan, SIZES};
use oracle::model::{self, Desk};
use oracle::scenes::Scene;

/// Every mask is possible where a strip holds anything.
#[test]
fn every_order_with_any_strip() {
    let mut compared = Compared::new("every order, any strip", 0xA076_1D64_78BD_642F);
    for kinds in orders() {
        for size in SIZES {
            for _ in 0..15 {
                let width = 1 + compared.random.below(12) as u16;
                let height = 1 + compared.random.below(7) as u16;
                let mut plan = Plan::any(&mut compared.random, width, height, &kinds);
                plan.size = size;
                list(&mut compared, &plan, 30);
            }
        }
    }
    assert_eq!(compared.masks.len(), 32);
    compared.finish(&LISTED);
}

#[test]
fn long_sides_with_any_strip() {
    let mut compared = Compared::new("long sides, any strip", 0xE703_7ED1_A0B4_28DB);
    let sides = [(16384, 1), (1, 16384), (16383, 2), (3, 8191), (300, 70)];
    for (kinds, (width, height)) in orders().iter().zip(sides.into_iter().cycle()) {
        let plan = Plan::any(&mut compared.random, width, height, kinds);
        list(&mut compared, &plan, 6);
    }
    compared.finish(&LISTED);
}

/// Some of the picture's pixels are replaced after storing, few or many; so are bytes of the strip.
fn list(compared: &mut Compared, plan: &Plan, len: usize) {
    let Scene {
        given,
        mut picture,
        list,
    } = Scene::any(&mut compared.random, plan, len);
    let mut strip = Desk::new(given.valid(), &picture).strip();
    for _ in 0..compared.random.choose(&[0, 1, 1, 2, 8]) {
        let pixel = compared.random.below(picture.len() / 4);
        picture[4 * pixel..4 * pixel + 4].copy_from_slice(&compared.random.pixel());
    }
    match compared.random.below(3) {
        0 => strip = compared.random.bytes(strip.len()),
        1 => {
            for _ in 0..8 {
                let at = compared.random.below(strip.len());
                strip[at] ^= 1 << compared.random.below(8);
            }
        }
        _ => {}
    }
    picture.extend(compared.beyond());
    strip.extend(compared.beyond());
    compared.with_model(&given, &picture, &strip, &list);
}

/// The model of the call is the desk where the desk is asked.
#[test]
fn model_is_the_desk() {
    let mut compared = Compared::new("the model and the desk", 0x8EBC_6AF0_9C88_C6E3);
    for kinds in orders() {
        for _ in 0..25 {
            let width = 1 + compared.random.below(9) as u16;
            let height = 1 + compared.random.below(6) as u16;
            let plan = Plan::any(&mut compared.random, width, height, &kinds);
            let scene = Scene::any(&mut compared.random, &plan, 20);
            compare_models(&scene);
        }
    }
}

fn compare_models(scene: &Scene) {
    let Given {
        width,
        height,
        chain,
        data,
    } = &scene.given;
    let mut desk = Desk::new(scene.given.valid(), &scene.picture);
    let (mut picture, mut strip) = (scene.picture.clone(), desk.strip());
    for &retouch in &scene.list {
        let answer = model::retouch(
            *width,
            *height,
            chain,
            data,
            &mut picture,
            &mut strip,
            retouch,
        );
        assert_eq!(answer, desk.answer(retouch));
        assert!(picture == desk.picture());
        assert!(strip == desk.strip());
    }
}
