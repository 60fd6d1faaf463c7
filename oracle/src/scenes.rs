//! Lists of retouches, and what they start from: valid chains, and pictures that storing accepts.

use crate::calls::Retouch;
use crate::given::{Given, Plan, COLOR_TABLE, PREDICTOR};
use crate::model;
use crate::random::Xorshift;
use std::collections::BTreeSet;

/// The most entries that a table has.
const ENTRIES: usize = 256;

pub struct Scene {
    pub given: Given,
    pub picture: Vec<u8>,
    pub list: Vec<Retouch>,
}

impl Scene {
    /// With a table behind the predictor nearly any retouch leaves a residual without entry. So
    /// most of these chains get a table that fits.
    pub fn any(random: &mut Xorshift, plan: &Plan, len: usize) -> Self {
        let residuals_are_looked_up = residuals_are_looked_up(plan);
        let small = usize::from(plan.width) * usize::from(plan.height) < ENTRIES;
        match random.below(4) {
            1 | 2 if residuals_are_looked_up => Self::of_steps(random, plan, len),
            3 if residuals_are_looked_up && small => Self::fitted(random, plan, len),
            _ => Self::of_entries(random, plan, len),
        }
    }

    /// Pixels of any colors; before a table, of its entries.
    fn of_entries(random: &mut Xorshift, plan: &Plan, len: usize) -> Self {
        let given = plan.given(random);
        let pictures = [(); 4].map(|()| given.storable(random));
        Self::from_pictures(random, given, pictures, len)
    }

    /// Alphas a step apart, and a table of their differences: storing accepts every picture of
    /// these colors.
    fn of_steps(random: &mut Xorshift, plan: &Plan, len: usize) -> Self {
        let given = stepped(random, plan);
        let alphas = (0..ENTRIES).step_by(step(plan.size));
        let colors: Vec<[u8; 4]> = alphas.map(|alpha| [0, 0, 0, alpha as u8 ^ 255]).collect();
        let pictures = [(); 4].map(|()| picture_of(random, &given, &colors));
        Self::from_pictures(random, given, pictures, len)
    }

    /// Calls in the last column, all of which are accepted, then `len` anywhere.
    pub fn at_row_ends(random: &mut Xorshift, plan: &Plan, len: usize) -> Self {
        let given = if residuals_are_looked_up(plan) {
            stepped(random, plan)
        } else {
            plan.given(random)
        };
        let mut pictures = vec![given.storable_row_ends(random)];
        // So many that even of two colors nearly every point has both.
        pictures.extend((0..8).map(|_| given.storable(random)));
        let mut list = last_column(random, &given, &pictures);
        list.extend(any_list(random, &given, &pictures, len));
        let picture = pictures.swap_remove(0);
        Self {
            given,
            picture,
            list,
        }
    }

    /// A small picture of any few colors, and a table of what reaches it during a list.
    fn fitted(random: &mut Xorshift, plan: &Plan, len: usize) -> Self {
        let place = plan.kinds.iter().position(|&kind| kind == COLOR_TABLE);
        let table = place.expect("there is a table to fit");
        let before_table = Plan {
            kinds: plan.kinds[..table].to_vec(),
            overlapping: false,
            ..plan.clone()
        };
        let front = before_table.given(random);
        let colors: Vec<[u8; 4]> = (0..random.choose(&[1, 2, 2, 3, 8]))
            .map(|_| random.pixel())
            .collect();
        let pictures = [(); 3].map(|()| picture_of(random, &front, &colors));
        let scene = Self::from_pictures(random, front, pictures, len);
        let mut entries: Vec<[u8; 4]> = scene.reaching_the_table(random).into_iter().collect();
        random.shuffle(&mut entries);

        let whole = Plan {
            size: entries.len() as u16,
            overlapping: false,
            ..plan.clone()
        };
        let mut given = whole.given(random);
        for record in 0..table {
            let part = given.part_mut(record);
            part.copy_from_slice(scene.given.part(record));
        }
        given.part_mut(table).copy_from_slice(&entries);
        Self { given, ..scene }
    }

    /// What the chain, which ends before a table, makes of the pictures along the list. Some
    /// retouches are left out, and are to be refused.
    fn reaching_the_table(&self, random: &mut Xorshift) -> BTreeSet<[u8; 4]> {
        let mut held = self.picture.clone();
        let mut reaching = self.stored(&held);
        for retouch in &self.list {
            let Some(pixel) = self.given.valid().pixel_of(*retouch) else {
                continue;
            };
            let mut new = held.clone();
            new[4 * pixel..4 * pixel + 4].copy_from_slice(&retouch.color);
            let more = &reaching | &self.stored(&new);
            if more.len() <= ENTRIES && random.below(4) != 0 {
                (reaching, held) = (more, new);
            }
        }
        reaching
    }

    fn stored(&self, picture: &[u8]) -> BTreeSet<[u8; 4]> {
        let Given {
            width,
            height,
            chain,
            data,
        } = &self.given;
        let mut strip = vec![0; picture.len()];
        let answer = model::store(*width, *height, chain, data, picture, &mut strip);
        assert_eq!(answer, 0);
        strip.as_chunks().0.iter().copied().collect()
    }

    /// The list starts from the first picture.
    fn from_pictures<const N: usize>(
        random: &mut Xorshift,
        given: Given,
        pictures: [Vec<u8>; N],
        len: usize,
    ) -> Self {
        let list = any_list(random, &given, &pictures, len);
        let picture = pictures.into_iter().next().expect("there is one");
        Self {
            given,
            picture,
            list,
        }
    }
}

fn residuals_are_looked_up(plan: &Plan) -> bool {
    let place = |kind| plan.kinds.iter().position(|&other| other == kind);
    matches!((place(PREDICTOR), place(COLOR_TABLE)), (Some(p), Some(t)) if p < t)
}

/// For a chain in which residuals are looked up: its table has every difference of the alphas that
/// are a step apart. Where the step is not 1, averages would come between.
fn stepped(random: &mut Xorshift, plan: &Plan) -> Given {
    let plan = Plan {
        overlapping: false,
        ..plan.clone()
    };
    let step = step(plan.size);
    let mut given = plan.given(random);
    for (record, &kind) in plan.kinds.iter().enumerate() {
        let part = given.part_mut(record);
        if kind == PREDICTOR {
            for block in part {
                block[1] = match step {
                    1 => random.below(14) as u8,
                    _ => random.choose(&[0, 1, 2, 3, 4, 11]),
                };
            }
        } else if kind == COLOR_TABLE {
            for (i, entry) in part.iter_mut().enumerate() {
                *entry = [0, 0, 0, (i * step) as u8];
            }
            random.shuffle(part);
        }
    }
    given
}

/// The alphas are as many as fit into a table of this size, in a number that divides 256.
fn step(size: u16) -> usize {
    ENTRIES >> size.ilog2()
}

fn picture_of(random: &mut Xorshift, given: &Given, colors: &[[u8; 4]]) -> Vec<u8> {
    let pixels = (0..given.width * given.height).map(|_| random.choose(colors));
    pixels.collect::<Vec<_>>().into_flattened()
}

/// In every row the color that a picture has there, unlike the first's where there is one, and the
/// same again; then in every second row the first picture's color.
fn last_column(random: &mut Xorshift, given: &Given, pictures: &[Vec<u8>]) -> Vec<Retouch> {
    let x = given.width - 1;
    let color_in = |picture: &[u8], y: u32| picture.as_chunks().0[(y * given.width + x) as usize];
    let mut list = Vec::new();
    for y in 0..given.height {
        let first = color_in(&pictures[0], y);
        let others = pictures.iter().map(|picture| color_in(picture, y));
        let others: Vec<[u8; 4]> = others.filter(|&color| color != first).collect();
        let color = match others[..] {
            [] => first,
            _ => random.choose(&others),
        };
        list.extend([Retouch { x, y, color }; 2]);
    }
    for y in (0..given.height).step_by(2) {
        let color = color_in(&pictures[0], y);
        list.push(Retouch { x, y, color });
    }
    list
}

/// Mostly the color that one of the pictures has at the point. Some calls are made twice.
pub fn any_list(
    random: &mut Xorshift,
    given: &Given,
    pictures: &[Vec<u8>],
    len: usize,
) -> Vec<Retouch> {
    let mut list = Vec::with_capacity(len);
    for _ in 0..len {
        let next = match list.last() {
            Some(&last) if random.below(12) == 0 => last,
            _ => any_retouch(random, given, pictures),
        };
        list.push(next);
    }
    list
}

fn any_retouch(random: &mut Xorshift, given: &Given, pictures: &[Vec<u8>]) -> Retouch {
    let (width, height) = (given.width, given.height);
    let (x, y) = any_point(random, width, height);
    let picture = &pictures[random.below(pictures.len())];
    let pixels = picture.as_chunks().0;
    let at_point = pixels[(y % height * width + x % width) as usize];
    let color = match random.below(12) {
        0 => random.pixel(),
        1 => random.choose(pixels),
        2 => {
            let mut near = at_point;
            near[random.below(4)] ^= 1 << random.below(8);
            near
        }
        _ => at_point,
    };
    Retouch { x, y, color }
}

/// Inside anywhere, at the borders, and outside: also where the flat index would be inside, or the
/// low bits.
fn any_point(random: &mut Xorshift, width: u32, height: u32) -> (u32, u32) {
    let x = random.below(width as usize) as u32;
    let y = random.below(height as usize) as u32;
    match random.below(32) {
        0..4 => (width - 1, y),
        4..6 => (0, y),
        6 => (x, 0),
        7 => (x, height - 1),
        8 => (width + x, y),
        9 => (x, height + y),
        10 => (x + 65536, y),
        11 => (x, y + (1 << 31)),
        12 => (u32::MAX, y),
        13 => (x, u32::MAX),
        _ => (x, y),
    }
}
