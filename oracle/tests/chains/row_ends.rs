//! Document 02 (ii): the unused positions of a row's last packed record hold the index of the row's
//! last pixel, repeated. Rebuilding ignores them: strips stored earlier, under document 01's zero
//! bits, rebuild as before.

use crate::compared::Compared;
use oracle::given::{Given, COLOR_TABLE};
use oracle::model;
use oracle::row_ends::{packed, plans, row_ends};

#[test]
fn row_ends_are_stored() {
    let mut compared = Compared::new("row ends stored", 0xD807_AA98_A303_0242);
    for plan in plans(&mut compared.random) {
        let given = plan.given(&mut compared.random);
        let picture = given.storable_row_ends(&mut compared.random);
        let strip = compared.random.bytes(given.valid().strip_len());
        let stored = compared.store(&given, &picture, &strip);
        assert_eq!(stored.answer, 0);
        check_row_ends(&given, &picture, &stored.bytes);
    }
    compared.finish(&[0]);
}

/// The sentence itself, without the model's packing. But for the unused positions the packed pixels
/// are those of document 01, which are zero there.
fn check_row_ends(given: &Given, picture: &[u8], strip: &[u8]) {
    let earlier = model::stored_earlier(&given.valid(), picture);
    let ends = row_ends(given, picture, strip);
    let earlier_ends = row_ends(given, picture, &earlier);
    for (end, earlier) in ends.iter().zip(&earlier_ends) {
        assert_eq!(end.used.last(), Some(&end.last_index));
        assert!(end.repeats_last_index(), "{}", given.shown());
        assert!(earlier.unused.iter().all(|&held| held == 0));
        assert_eq!(end.used, earlier.used);
    }
    assert!(but_for_row_ends(given, strip) == but_for_row_ends(given, &earlier));
}

/// The packed pixels without the byte that the ends of rows are in.
fn but_for_row_ends(given: &Given, strip: &[u8]) -> Vec<[u8; 4]> {
    let columns = usize::from(given.valid().strip_width);
    let mut packed = packed(given, strip);
    for row in packed.chunks_mut(columns) {
        row[columns - 1][1] = 0;
    }
    packed
}

#[test]
fn strips_stored_earlier_rebuild() {
    let mut compared = Compared::new("stored earlier", 0x1283_5B01_4570_6FBE);
    for plan in plans(&mut compared.random) {
        let given = plan.given(&mut compared.random);
        let picture = given.storable_row_ends(&mut compared.random);
        let earlier = model::stored_earlier(&given.valid(), &picture);
        expect_picture(&mut compared, &given, earlier, &picture);
    }
    compared.finish(&[0]);
}

/// Where the table is the last record, and nothing carries the bits on.
#[test]
fn any_unused_bits_rebuild() {
    let mut compared = Compared::new("any unused bits", 0x2431_85BE_4EE4_B28C);
    for plan in plans(&mut compared.random) {
        if plan.kinds.last() != Some(&COLOR_TABLE) {
            continue;
        }
        let given = plan.given(&mut compared.random);
        let picture = given.storable_row_ends(&mut compared.random);
        let mut strip = model::stored_earlier(&given.valid(), &picture);
        let columns = usize::from(given.valid().strip_width);
        let ends = row_ends(&given, &picture, &strip);
        for (end, row) in ends.iter().zip(strip.chunks_mut(4 * columns)) {
            let bits = 8 / (end.used.len() + end.unused.len());
            let any = usize::from(compared.random.byte()) << (bits * end.used.len());
            row[4 * columns - 3] |= any as u8;
        }
        expect_picture(&mut compared, &given, strip, &picture);
    }
    compared.finish(&[0]);
}

/// The strip stands at the front of a buffer of the picture's size.
fn expect_picture(compared: &mut Compared, given: &Given, strip: Vec<u8>, picture: &[u8]) {
    let mut image = strip;
    image.extend(compared.random.bytes(picture.len() - image.len()));
    let rebuilt = compared.rebuild(given, &image);
    assert_eq!(rebuilt.answer, 0);
    assert!(rebuilt.bytes == picture, "the picture is lost");
}
