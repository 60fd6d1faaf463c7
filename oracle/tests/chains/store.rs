//! Storing is the model's; what was stored rebuilds to the picture; a pixel without an entry is
//! refused by 21 before anything is written.

use crate::compared::Compared;
use crate::rebuild::{beyond, LONG};
use oracle::given::{orders, Given, Plan, COLOR_TABLE, SIZES};

#[test]
fn every_order_is_stored_and_rebuilt() {
    let mut compared = Compared::new("stored and rebuilt", 0xCBBB_9D5D_C105_9ED8);
    for kinds in orders() {
        for size in SIZES {
            for _ in 0..60 {
                let width = 1 + compared.random.below(40) as u16;
                let height = 1 + compared.random.below(40) as u16;
                let mut plan = Plan::any(&mut compared.random, width, height, &kinds);
                plan.size = size;
                store_and_rebuild(&mut compared, &plan);
            }
        }
    }
    compared.finish(&[0]);
}

#[test]
fn long_sides_are_stored_and_rebuilt() {
    let mut compared = Compared::new("long sides stored and rebuilt", 0x629A_292A_367C_D507);
    for kinds in orders() {
        for (width, height) in LONG {
            let plan = Plan::any(&mut compared.random, width, height, &kinds);
            store_and_rebuild(&mut compared, &plan);
        }
    }
    compared.finish(&[0]);
}

/// Every size of table alone, at widths about the ends of packed pixels: unused positions have to
/// hold the row's last index, and the lowest of several indices is taken.
#[test]
fn every_size_of_table_is_stored() {
    let mut compared = Compared::new("every size of table stored", 0x9159_015A_3070_DD17);
    for size in 1..=256 {
        for width in 1..=18 {
            let mut plan = Plan::any(&mut compared.random, width, 3, &[COLOR_TABLE]);
            plan.size = size;
            store_and_rebuild(&mut compared, &plan);
        }
    }
    compared.finish(&[0]);
}

/// The first pixel, the last, the last of the first row, the first of the last row, and some
/// between.
#[test]
fn one_pixel_without_entry() {
    let mut compared = Compared::new("one pixel without entry", 0x152F_ECD8_F70E_5939);
    let with_table = orders()
        .into_iter()
        .filter(|kinds| kinds.contains(&COLOR_TABLE));
    for kinds in with_table {
        for size in SIZES {
            for (width, height) in [(1, 1), (1, 9), (9, 1), (7, 5), (8, 4), (33, 12)] {
                let mut plan = Plan::any(&mut compared.random, width, height, &kinds);
                plan.size = size;
                let given = plan.given(&mut compared.random);
                refuse_pixels(&mut compared, &given);
            }
        }
    }
    compared.finish(&[21]);
}

#[test]
fn one_pixel_without_entry_at_long_sides() {
    let mut compared = Compared::new("one without entry, long sides", 0x6733_2667_FFC0_0B31);
    for kinds in [
        vec![3],
        vec![3, 0],
        vec![0, 3],
        vec![2, 1, 3],
        vec![1, 3, 0, 2],
    ] {
        for (width, height) in LONG {
            let given = Plan::any(&mut compared.random, width, height, &kinds);
            let given = given.given(&mut compared.random);
            refuse_pixels(&mut compared, &given);
        }
    }
    compared.finish(&[21]);
}

fn refuse_pixels(compared: &mut Compared, given: &Given) {
    let (width, height) = (given.width as usize, given.height as usize);
    let any = compared.random.below(width * height);
    let middle = width * height / 2;
    for pixel in [
        0,
        width * height - 1,
        width - 1,
        width * (height - 1),
        middle,
        any,
    ] {
        let beyond = beyond(compared);
        let mut picture = given.unstorable(&mut compared.random, pixel);
        picture.extend(compared.random.bytes(beyond));
        let strip = any_strip(compared, given, beyond);
        let refused = compared.store(given, &picture, &strip);
        assert_eq!(refused.answer, 21);
        assert!(refused.bytes == strip, "written before 21");
    }
}

fn store_and_rebuild(compared: &mut Compared, plan: &Plan) {
    let given = plan.given(&mut compared.random);
    let beyond = beyond(compared);
    let mut picture = given.storable(&mut compared.random);
    let picture_len = picture.len();
    picture.extend(compared.random.bytes(beyond));
    let strip = any_strip(compared, &given, beyond);
    let stored = compared.store(&given, &picture, &strip);
    assert_eq!(stored.answer, 0);

    let mut image = stored.bytes;
    image.truncate(given.valid().strip_len());
    let rest = picture.len() - image.len();
    image.extend(compared.random.bytes(rest));
    let rebuilt = compared.rebuild(&given, &image);
    assert_eq!(rebuilt.answer, 0);
    assert!(
        rebuilt.bytes[..picture_len] == picture[..picture_len],
        "the picture is lost"
    );
}

fn any_strip(compared: &mut Compared, given: &Given, beyond: usize) -> Vec<u8> {
    compared.random.bytes(given.valid().strip_len() + beyond)
}
