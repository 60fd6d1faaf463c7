//! The chain calls' inputs of the list: every order, every band of tables, ends of rows, and
//! refusals.

use crate::given::{orders, Given, Plan, COLOR, COLOR_TABLE, PREDICTOR, SIZES, SUBTRACT_GREEN};
use crate::list::{Call, ChainCase};
use crate::model;
use crate::random::Xorshift;
use crate::row_ends::listed_scenes;
use crate::scenes::Scene;

type Edit = fn(&mut ChainCase);

/// Damages to the records of `DAMAGED`, and what refuses them. Of two the first is answered, and is
/// done last, since both may be to the same field.
const RECORD_DAMAGES: [(u32, &[Edit]); 22] = [
    (1, &[|case| case.given.width = 0]),
    (1, &[|case| case.given.height = 16385]),
    (2, &[|case| case.given.chain.truncate(63)]),
    (2, &[|case| case.given.chain.resize(80, 0)]),
    (3, &[|case| case.given.chain[16] = 4]),
    (4, &[|case| case.given.chain[32] = SUBTRACT_GREEN]),
    (5, &[|case| case.given.chain[17] = 1]),
    (
        5,
        &[|case| case.given.chain[34..36].copy_from_slice(&[1, 1])],
    ),
    (5, &[|case| case.given.chain[4] = 1]),
    (5, &[|case| case.given.chain[63] = 128]),
    (6, &[|case| case.given.chain[24] += 4]),
    (6, &[|case| case.given.chain[8] = 4]),
    (7, &[|case| case.given.chain[23] = 128]),
    (7, &[|case| set_offset(case, 1, one_too_far)]),
    (7, &[|case| set_offset(case, 3, wrapping)]),
    (
        1,
        &[
            |case| case.given.width = 16385,
            |case| case.given.chain.truncate(17),
        ],
    ),
    (
        2,
        &[
            |case| case.given.chain.resize(65, 0),
            |case| case.given.chain[0] = 255,
        ],
    ),
    (
        7,
        &[
            |case| set_offset(case, 1, one_too_far),
            |case| case.given.chain[32] = 4,
        ],
    ),
    (
        4,
        &[
            |case| case.given.chain[48] = PREDICTOR,
            |case| case.given.chain[60] = 1,
        ],
    ),
    (
        5,
        &[
            |case| case.given.chain[33] = 1,
            |case| case.given.chain[40] = 1,
        ],
    ),
    (
        6,
        &[
            |case| case.given.chain[56] += 1,
            |case| set_offset(case, 3, one_too_far),
        ],
    ),
    (
        7,
        &[
            |case| set_offset(case, 2, wrapping),
            |case| case.input.truncate(1),
        ],
    ),
];

const DAMAGED: [u8; 4] = [SUBTRACT_GREEN, PREDICTOR, COLOR_TABLE, COLOR];

pub(crate) fn order_cases(random: &mut Xorshift) -> Vec<ChainCase> {
    let mut cases = Vec::new();
    for (kinds, size) in orders().iter().zip(SIZES.into_iter().cycle()) {
        for beyond in [0, 5] {
            let width = 1 + random.below(19) as u16;
            let height = 1 + random.below(9) as u16;
            let mut plan = Plan::any(random, width, height, kinds);
            plan.size = size;
            let given = plan.given(random);
            cases.push(if beyond == 0 {
                store_case(random, given, 7)
            } else {
                rebuild_case(random, given, beyond)
            });
        }
    }
    cases
}

/// Each band's edges at one column, at two, and about the end of a packed pixel.
pub(crate) fn band_cases(random: &mut Xorshift) -> Vec<ChainCase> {
    let mut cases = Vec::new();
    for (size, width) in SIZES
        .into_iter()
        .zip([1, 2, 8, 9, 4, 5, 3].into_iter().cycle())
    {
        for kinds in [[COLOR_TABLE, PREDICTOR], [PREDICTOR, COLOR_TABLE]] {
            let mut plan = Plan::any(random, width, 3, &kinds);
            plan.size = size;
            plan.predictor_bits = 2;
            let given = plan.given(random);
            cases.push(rebuild_case(random, given.clone(), 0));
            cases.push(store_case(random, given, 0));
        }
    }
    cases
}

/// Each picture is stored. Its strip as it was stored earlier, under document 01's zero bits, is
/// kept here too: it rebuilds to the picture.
pub(crate) fn row_end_cases(random: &mut Xorshift) -> Vec<ChainCase> {
    let mut cases = Vec::new();
    for Scene { given, picture, .. } in listed_scenes(random) {
        let mut image = model::stored_earlier(&given.valid(), &picture);
        image.extend(random.bytes(picture.len() - image.len()));
        let rebuilt = ChainCase {
            call: Call::Rebuild,
            given: given.clone(),
            input: image,
        };
        assert!(rebuilt.answered() == (0, picture.clone()));
        let strip_len = given.valid().strip_len();
        let stored = ChainCase {
            call: Call::Store { strip_len },
            given,
            input: picture,
        };
        cases.extend([stored, rebuilt]);
    }
    cases
}

pub(crate) fn refusal_cases(random: &mut Xorshift) -> Vec<ChainCase> {
    let mut cases = Vec::new();
    for (number, edits) in RECORD_DAMAGES {
        for made in [rebuild_case, store_case] {
            let given = damaged_plan(random).given(random);
            let mut case = made(random, given, 2);
            for edit in edits.iter().rev() {
                edit(&mut case);
            }
            assert_eq!(case.answered().0, number);
            cases.push(case);
        }
    }
    cases.extend(buffer_cases(random));
    cases
}

/// Refusals 8 and 21, and 8 before 21.
fn buffer_cases(random: &mut Xorshift) -> Vec<ChainCase> {
    let given = damaged_plan(random).given(random);
    let mut short_image = rebuild_case(random, given.clone(), 0);
    short_image.input.pop();

    let mut short_picture = store_case(random, given.clone(), 0);
    short_picture.input.pop();
    let mut short_strip = store_case(random, given.clone(), 0);
    shorten_strip(&mut short_strip);
    let mut cases = vec![short_image, short_picture, short_strip];

    let last = (given.width * given.height) as usize - 1;
    for pixel in [0, last / 2, last] {
        let mut without_entry = store_case(random, given.clone(), 3);
        without_entry.input = given.unstorable(random, pixel);
        cases.push(without_entry);
    }
    let mut both = store_case(random, given.clone(), 0);
    both.input = given.unstorable(random, 0);
    shorten_strip(&mut both);
    cases.push(both);

    let numbers: Vec<u32> = cases.iter().map(|case| case.answered().0).collect();
    assert_eq!(numbers, [8, 8, 8, 21, 21, 21, 8]);
    cases
}

fn damaged_plan(random: &mut Xorshift) -> Plan {
    Plan {
        predictor_bits: 2,
        color_bits: 2,
        size: 3,
        overlapping: false,
        ..Plan::any(random, 9, 5, &DAMAGED)
    }
}

fn rebuild_case(random: &mut Xorshift, given: Given, beyond: usize) -> ChainCase {
    let mut input = given.any_image(random);
    input.extend(random.bytes(beyond));
    ChainCase {
        call: Call::Rebuild,
        given,
        input,
    }
}

fn store_case(random: &mut Xorshift, given: Given, beyond: usize) -> ChainCase {
    let mut input = given.storable(random);
    input.extend(random.bytes(beyond));
    let strip_len = given.valid().strip_len() + beyond;
    ChainCase {
        call: Call::Store { strip_len },
        given,
        input,
    }
}

fn shorten_strip(case: &mut ChainCase) {
    if let Call::Store { strip_len } = &mut case.call {
        *strip_len -= 1;
    }
}

/// Sets a record's offset by its length and the data's.
fn set_offset(case: &mut ChainCase, record: usize, offset: fn(u32, u32) -> u32) {
    let part = &mut case.given.chain[16 * record + 4..16 * record + 12];
    let length = u32::from_le_bytes(part[4..].try_into().unwrap());
    let offset = offset(length, case.given.data.len() as u32);
    part[..4].copy_from_slice(&offset.to_le_bytes());
}

fn one_too_far(length: u32, end: u32) -> u32 {
    end - length + 1
}

/// The sum with the length is 2^32.
fn wrapping(length: u32, _end: u32) -> u32 {
    length.wrapping_neg()
}
