//! Document 02 (ii): a retouch in the last column moves the unused bits of the row's last packed
//! record too. A list begins from a strip stored under this rule; one that was stored earlier, under
//! document 01's zero bits, is rebuilt and stored first.

use crate::buffers::{self, Buffers};
use crate::compared::{accepted, Compared, LISTED};
use oracle::calls;
use oracle::given::Given;
use oracle::model::{self, Desk};
use oracle::random::Xorshift;
use oracle::row_ends::{plans, RowEnd};
use oracle::scenes::Scene;
use oracle::seen::Seen;

#[test]
fn last_column_beside_the_desk() {
    let mut compared = Compared::new("last column", 0x550C_7DC3_D5FF_B4E2);
    for plan in plans(&mut compared.random) {
        let scene = Scene::at_row_ends(&mut compared.random, &plan, 6);
        compared.with_desk(&scene);
    }
    compared.finish(&LISTED);
}

/// The sentence itself, without the desk.
#[test]
fn last_column_moves_the_unused_bits() {
    let mut random = Xorshift::new(0x72BE_5D74_F27B_896F);
    let mut moved = Seen::default();
    for plan in plans(&mut random) {
        let scene = Scene::at_row_ends(&mut random, &plan, 0);
        let given = &scene.given;
        let strip = stored(given, &scene.picture);
        let mut buffers = Buffers::new(&mut random, given, &scene.picture, &strip);
        let mut before = buffers.row_ends();
        for &retouch in &scene.list {
            let answer = buffers.retouch(retouch);
            assert!(answer >= accepted(0), "{answer}, {}", given.shown());
            let after = buffers.row_ends();
            assert!(
                after.iter().all(RowEnd::repeats_last_index),
                "{retouch:?}, {}",
                given.shown()
            );
            let row = retouch.y as usize;
            moved.saw((before[row].unused != after[row].unused).into());
            before = after;
        }
    }
    let said = format!("unused bits: {} calls", moved.all());
    let name = |moved| ["stayed", "moved"][moved as usize].to_string();
    moved.finish(&said, name, &[0, 1]);
}

/// A strip stored earlier becomes one under the new rule: it is rebuilt, and its picture stored.
#[test]
fn lists_after_converting() {
    let mut compared = Compared::new("after converting", 0x80DE_B1FE_3B16_96B1);
    for plan in plans(&mut compared.random) {
        let scene = Scene::at_row_ends(&mut compared.random, &plan, 2);
        let given = &scene.given;
        let mut image = model::stored_earlier(&given.valid(), &scene.picture);
        image.resize(scene.picture.len(), 0xA5);
        let (chain, data) = (&given.chain, &given.data);
        let answer = calls::rebuild(given.width, given.height, chain, data, &mut image);
        assert_eq!(answer, 0);
        assert!(image == scene.picture, "the picture is lost");
        let strip = Desk::new(given.valid(), &image).strip();
        assert!(stored(given, &image) == strip, "{}", given.shown());
        compared.with_desk(&scene);
    }
    compared.finish(&LISTED);
}

/// From a strip stored earlier the call answers as its model, but records away from the spots keep
/// their zero bits: after some of the lists the strip is not the picture stored.
#[test]
fn lists_without_converting() {
    let mut compared = Compared::new("without converting", 0x9BDC_06A7_25C7_1235);
    let mut unlike = 0;
    for plan in plans(&mut compared.random) {
        let Scene {
            given,
            picture,
            list,
        } = Scene::any(&mut compared.random, &plan, 4);
        let strip = model::stored_earlier(&given.valid(), &picture);
        let (picture, strip) = compared.with_model(&given, &picture, &strip, &list);
        unlike += u32::from(strip != stored(&given, &picture));
    }
    assert!(unlike > 0);
    compared.finish(&LISTED);
}

fn stored(given: &Given, picture: &[u8]) -> Vec<u8> {
    buffers::stored(given, picture, given.valid().strip_len())
}
