//! Inputs that are accepted, and ways to damage them, each of which calls for one refusal.

use crate::calls::Retouch;
use crate::given::{Given, Plan, COLOR_TABLE, SUBTRACT_GREEN};
use crate::model;
use crate::random::Xorshift;

/// What the calls are given. The picture's buffer is also rebuilding's one buffer. The retouch
/// paints a pixel with the color that it has.
#[derive(Clone)]
pub struct Input {
    pub given: Given,
    pub picture: Vec<u8>,
    pub strip: Vec<u8>,
    pub retouch: Retouch,
    /// Where there is a table: the picture with one pixel that has no entry.
    unstorable: Option<Vec<u8>>,
    /// Where there is a table: a color that the retouched pixel cannot take.
    without_entry: Option<[u8; 4]>,
}

/// Sides in range and out of it, and such that a product of 32 or of 64 bits would wrap to one that
/// fits.
pub const SIDES: [u32; 16] = [
    0,
    1,
    2,
    3,
    8192,
    16383,
    16384,
    16385,
    32768,
    65535,
    65536,
    65537,
    1 << 30,
    1 << 31,
    (1 << 31) + 1,
    u32::MAX,
];

pub struct Damage {
    pub number: u32,
    /// The record that is damaged, for refusals 3 to 7.
    pub record: usize,
    /// Whether the damage is to what storing alone is given.
    pub storing_only: bool,
    edit: Box<dyn Fn(&mut Input)>,
}

impl Input {
    pub fn new(random: &mut Xorshift, plan: &Plan) -> Self {
        let given = plan.given(random);
        let picture = given.storable(random);
        let strip = random.bytes(given.valid().strip_len());
        let pixel = random.below(picture.len() / 4);
        let table = plan.kinds.contains(&COLOR_TABLE);
        let unstorable = table.then(|| given.unstorable(random, pixel));
        let retouch = Retouch {
            x: pixel as u32 % given.width,
            y: pixel as u32 / given.width,
            color: picture.as_chunks().0[pixel],
        };
        let without_entry = table.then(|| without_entry(random, &given, &picture, pixel));
        Self {
            given,
            picture,
            strip,
            retouch,
            unstorable,
            without_entry,
        }
    }
}

/// Any color with which storing does not accept the picture.
fn without_entry(random: &mut Xorshift, given: &Given, picture: &[u8], pixel: usize) -> [u8; 4] {
    let Given {
        width,
        height,
        chain,
        data,
    } = given;
    let mut picture = picture.to_vec();
    let mut strip = vec![0; picture.len()];
    loop {
        let color = random.pixel();
        picture[4 * pixel..4 * pixel + 4].copy_from_slice(&color);
        if model::store(*width, *height, chain, data, &picture, &mut strip) == 21 {
            return color;
        }
    }
}

impl Damage {
    fn new(number: u32, edit: impl Fn(&mut Input) + 'static) -> Self {
        Self {
            number,
            record: 0,
            storing_only: false,
            edit: Box::new(edit),
        }
    }

    /// Replaces bytes of a record.
    fn field(number: u32, record: usize, at: usize, bytes: &[u8]) -> Self {
        let (from, bytes) = (16 * record + at, bytes.to_vec());
        let damage = Self::new(number, move |input| {
            input.given.chain[from..from + bytes.len()].copy_from_slice(&bytes);
        });
        Self { record, ..damage }
    }

    fn storing_only(self) -> Self {
        Self {
            storing_only: true,
            ..self
        }
    }

    pub fn apply(&self, input: &mut Input) {
        (self.edit)(input);
    }

    /// Of two damages the one with the lesser place is answered: 1, 2; then 3 to 7 on each record
    /// in turn; then 8, 9, 21 or 22.
    pub fn place(&self) -> (u32, usize, u32) {
        match self.number {
            3..=7 => (3, self.record, self.number),
            8.. => (4, 0, self.number),
            _ => (self.number, 0, 0),
        }
    }
}

/// Those for rebuilding and storing.
pub fn damages(input: &Input) -> Vec<Damage> {
    let mut damages = common_damages(input);
    if let Some(unstorable) = input.unstorable.clone() {
        let without_entry = Damage::new(21, move |input| input.picture.clone_from(&unstorable));
        damages.push(without_entry.storing_only());
    }
    damages
}

/// Those for retouching.
pub fn retouch_damages(input: &Input) -> Vec<Damage> {
    let mut damages = common_damages(input);
    damages.extend(points(&input.given));
    if let Some(color) = input.without_entry {
        damages.push(Damage::new(22, move |input| input.retouch.color = color));
    }
    damages
}

fn common_damages(input: &Input) -> Vec<Damage> {
    let mut damages = sides(&input.given);
    damages.extend(chain_lengths(input.given.chain.len()));
    for record in 0..input.given.chain.len() / 16 {
        damages.extend(kinds(&input.given, record));
        damages.extend(fields(&input.given, record));
        damages.extend(parts(&input.given, record));
    }
    damages.extend(buffers(input));
    damages
}

/// Just out of range, far out of range, and right in the low 16 bits.
fn sides(given: &Given) -> Vec<Damage> {
    let mut damages = Vec::new();
    for side in [0, 16385, u32::MAX] {
        damages.push(Damage::new(1, move |input| input.given.width = side));
        damages.push(Damage::new(1, move |input| input.given.height = side));
    }
    let (width, height) = (given.width + 65536, given.height + 65536);
    damages.push(Damage::new(1, move |input| input.given.width = width));
    damages.push(Damage::new(1, move |input| input.given.height = height));
    damages
}

/// Refusal 2. Lengths are set, not changed by one, so that no other damage can undo this one.
fn chain_lengths(len: usize) -> Vec<Damage> {
    let wrong = [len + 1, 80, len.saturating_sub(1)].into_iter();
    wrong
        .filter(|&wrong| wrong != 0)
        .map(|wrong| Damage::new(2, move |input| input.given.chain.resize(wrong, 0)))
        .collect()
}

/// Refusals 3 and 4.
fn kinds(given: &Given, record: usize) -> Vec<Damage> {
    let kind = given.chain[16 * record];
    let mut damages = Vec::new();
    for unknown in [4, kind | 4, kind | 128, 255] {
        damages.push(Damage::field(3, record, 0, &[unknown]));
    }
    for earlier in 0..record {
        let used = given.chain[16 * earlier];
        damages.push(Damage::field(4, record, 0, &[used]));
    }
    damages
}

/// Refusal 5.
fn fields(given: &Given, record: usize) -> Vec<Damage> {
    let mut damages = Vec::new();
    let kind = given.chain[16 * record];
    let (bits, sizes): (&[u8], &[u16]) = match kind {
        SUBTRACT_GREEN => (&[1, 2, 128], &[1, 256]),
        COLOR_TABLE => (&[1, 2, 128], &[0, 257, 512, 65535]),
        _ => (&[0, 1, 10, 18, 255], &[1, 256]),
    };
    for &bits in bits {
        damages.push(Damage::field(5, record, 1, &[bits]));
    }
    for &size in sizes {
        damages.push(Damage::field(5, record, 2, &size.to_le_bytes()));
    }
    if kind == SUBTRACT_GREEN {
        for offset in [1u32, 1 << 24] {
            damages.push(Damage::field(5, record, 4, &offset.to_le_bytes()));
        }
    }
    for zero in 12..16 {
        damages.push(Damage::field(5, record, zero, &[1 << (zero - 9)]));
    }
    damages
}

/// Refusals 6 and 7.
fn parts(given: &Given, record: usize) -> Vec<Damage> {
    let mut damages = Vec::new();
    let length = &given.chain[16 * record + 8..16 * record + 12];
    let length = u32::from_le_bytes(length.try_into().unwrap());
    for wrong in [1, 4, length + 1, length + 4, length | 1 << 31, u32::MAX] {
        if wrong != length {
            damages.push(Damage::field(6, record, 8, &wrong.to_le_bytes()));
        }
    }
    if length == 0 {
        return damages;
    }
    damages.push(Damage::field(6, record, 8, &[0; 4]));
    damages.push(Damage::field(6, record, 8, &(length - 1).to_le_bytes()));
    // One byte too far; none of it inside; a sum of 2^32, and one past it.
    let end = given.data.len() as u32;
    let wrapped = length.wrapping_neg();
    for offset in [end - length + 1, end, wrapped, wrapped + 1, u32::MAX] {
        damages.push(Damage::field(7, record, 4, &offset.to_le_bytes()));
    }
    damages
}

/// Refusal 8.
fn buffers(input: &Input) -> Vec<Damage> {
    let mut damages = Vec::new();
    let (picture, strip) = (input.picture.len(), input.strip.len());
    for len in [0, picture - 4, picture - 1] {
        damages.push(Damage::new(8, move |input| input.picture.truncate(len)));
    }
    if strip < picture {
        damages.push(Damage::new(8, move |input| input.picture.truncate(strip)));
    }
    for len in [0, strip - 4, strip - 1] {
        let short = Damage::new(8, move |input| input.strip.truncate(len));
        damages.push(short.storing_only());
    }
    damages
}

/// Refusal 9: just outside, far outside, and right in the low 16 bits.
fn points(given: &Given) -> Vec<Damage> {
    let mut damages = Vec::new();
    for (x, y) in [
        (given.width, given.height),
        (16384, 16384),
        (65536, 65536),
        (1 << 31, 1 << 31),
        (u32::MAX, u32::MAX),
    ] {
        damages.push(Damage::new(9, move |input| input.retouch.x = x));
        damages.push(Damage::new(9, move |input| input.retouch.y = y));
    }
    damages
}
