//! Document 02 (ii), the ends of rows: which chains and widths to look at, and what a strip holds
//! there.

use crate::given::{orders, Given, Plan, COLOR_TABLE, PREDICTOR};
use crate::model::{self, indices_in_byte};
use crate::random::Xorshift;
use crate::scenes::Scene;

/// The end of a row at the table's stage.
pub struct RowEnd {
    /// The lowest index of the row's last pixel.
    pub last_index: usize,
    /// What the positions of the row's last packed pixel hold, those of pixels and the others.
    pub used: Vec<usize>,
    pub unused: Vec<usize>,
}

impl RowEnd {
    /// Whether the unused positions hold "the index of the row's last pixel, repeated".
    pub fn repeats_last_index(&self) -> bool {
        self.unused.iter().all(|&held| held == self.last_index)
    }
}

/// The ends of all rows of a picture and a strip, under a chain with a table.
pub fn row_ends(given: &Given, picture: &[u8], strip: &[u8]) -> Vec<RowEnd> {
    let entries = given.part(table(given));
    let n = usize::from(indices_in_byte(entries.len() as u16));
    let width = given.width as usize;
    let row_end = |(pixels, packed): (&[[u8; 4]], &[[u8; 4]])| {
        let last = pixels[width - 1];
        let last_index = entries.iter().position(|entry| *entry == last);
        let mut used = positions(packed[packed.len() - 1][1], n);
        let unused = used.split_off((width - 1) % n + 1);
        RowEnd {
            last_index: last_index.expect("the picture is accepted"),
            used,
            unused,
        }
    };
    let (looked_up, packed) = (looked_up(given, picture), packed(given, strip));
    let rows = looked_up
        .chunks(width)
        .zip(packed.chunks(width.div_ceil(n)));
    rows.map(row_end).collect()
}

/// The packed pixels: the strip, with what the records after the table did undone. Their current
/// width is the strip's, so that they are a chain by themselves.
pub fn packed(given: &Given, strip: &[u8]) -> Vec<[u8; 4]> {
    let mut packed = strip.to_vec();
    let answer = model::rebuild(
        given.valid().strip_width.into(),
        given.height,
        &given.chain[16 * (table(given) + 1)..],
        &given.data,
        &mut packed,
    );
    assert_eq!(answer, 0);
    packed.as_chunks().0.to_vec()
}

/// The pixels that reach the table.
fn looked_up(given: &Given, picture: &[u8]) -> Vec<[u8; 4]> {
    let mut pixels = picture.to_vec();
    let answer = model::store(
        given.width,
        given.height,
        &given.chain[..16 * table(given)],
        &given.data,
        picture,
        &mut pixels,
    );
    assert_eq!(answer, 0);
    pixels.as_chunks().0.to_vec()
}

fn table(given: &Given) -> usize {
    let mut records = given.chain.chunks(16);
    let table = records.position(|record| record[0] == COLOR_TABLE);
    table.expect("there is a table")
}

/// The indices in a packed byte, lowest bits first.
fn positions(byte: u8, n: usize) -> Vec<usize> {
    let bits = 8 / n;
    let index = |place| usize::from(byte) >> (bits * place) & ((1 << bits) - 1);
    (0..n).map(index).collect()
}

/// Every order that has a table, every size that packs several pixels and two that do not, and
/// every width up to 24.
pub fn plans(random: &mut Xorshift) -> Vec<Plan> {
    let mut plans = Vec::new();
    let with_table = orders().into_iter();
    for kinds in with_table.filter(|kinds| kinds.contains(&COLOR_TABLE)) {
        for size in (1..=16).chain([17, 256]) {
            for width in 1..=24 {
                let height = 1 + random.below(3) as u16;
                let mut plan = Plan::any(random, width, height, &kinds);
                plan.size = size;
                plans.push(plan);
            }
        }
    }
    plans
}

/// For the list: every size of table that packs several pixels, at every width modulo 8, with the
/// table before the predictor and after it. Rows of up to 8 pixels and of more take turns.
pub(crate) fn listed_scenes(random: &mut Xorshift) -> Vec<Scene> {
    let mut scenes = Vec::new();
    for (size, residue) in (1..=16).flat_map(|size| (1..=8).map(move |residue| (size, residue))) {
        for (turn, kinds) in [(0, [COLOR_TABLE, PREDICTOR]), (1, [PREDICTOR, COLOR_TABLE])] {
            let width = residue + 8 * ((size + residue + turn) % 2);
            let mut plan = Plan::any(random, width, 2 + size % 2, &kinds);
            plan.size = size;
            scenes.push(Scene::at_row_ends(random, &plan, 2));
        }
    }
    scenes
}
