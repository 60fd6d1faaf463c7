//! What both calls are given beside their buffers, and buffers for it: valid, and made at random.

use crate::model::{indices_in_byte, Chain, Transform, KINDS};
use crate::random::Xorshift;
use std::ops::Range;

pub const PREDICTOR: u8 = 0;
pub const COLOR: u8 = 1;
pub const SUBTRACT_GREEN: u8 = 2;
pub const COLOR_TABLE: u8 = 3;

/// Table sizes at the edges of the four bands.
pub const SIZES: [u16; 10] = [1, 2, 3, 4, 5, 15, 16, 17, 255, 256];

#[derive(Clone)]
pub struct Given {
    pub width: u32,
    pub height: u32,
    pub chain: Vec<u8>,
    pub data: Vec<u8>,
}

/// Which chain to make.
#[derive(Clone)]
pub struct Plan {
    pub width: u16,
    pub height: u16,
    pub kinds: Vec<u8>,
    pub predictor_bits: u8,
    pub color_bits: u8,
    pub size: u16,
    /// Whether the parts of the data lie over one another.
    pub overlapping: bool,
}

/// Every order of every set of kinds, shorter ones first; the first is empty.
pub fn orders() -> Vec<Vec<u8>> {
    let mut orders = vec![Vec::new()];
    let mut at = 0;
    while at < orders.len() {
        for kind in 0..KINDS as u8 {
            if !orders[at].contains(&kind) {
                orders.push([orders[at].as_slice(), &[kind]].concat());
            }
        }
        at += 1;
    }
    orders
}

/// One record of a chain.
pub fn record(kind: u8, bits: u8, size: u16, offset: u32, length: u32) -> Vec<u8> {
    let mut record = vec![kind, bits];
    record.extend(size.to_le_bytes());
    record.extend(offset.to_le_bytes());
    record.extend(length.to_le_bytes());
    record.extend([0; 4]);
    record
}

impl Plan {
    /// Any bits and any size of table.
    pub fn any(random: &mut Xorshift, width: u16, height: u16, kinds: &[u8]) -> Self {
        Self {
            width,
            height,
            kinds: kinds.to_vec(),
            predictor_bits: 2 + random.below(8) as u8,
            color_bits: 2 + random.below(8) as u8,
            size: random.choose(&SIZES),
            overlapping: random.below(4) == 0,
        }
    }

    pub fn given(&self, random: &mut Xorshift) -> Given {
        let lengths = self.lengths();
        let (offsets, end) = if self.overlapping {
            overlapping(random, &lengths)
        } else {
            side_by_side(random, &lengths)
        };
        let mut data = random.bytes(end);
        let mut chain = Vec::new();
        for ((&kind, &length), &offset) in self.kinds.iter().zip(&lengths).zip(&offsets) {
            let (bits, size) = self.fields(kind);
            chain.extend(record(kind, bits, size, offset as u32, length as u32));
            fill(random, kind, &mut data[offset..offset + length]);
        }
        Given {
            width: self.width.into(),
            height: self.height.into(),
            chain,
            data,
        }
    }

    fn fields(&self, kind: u8) -> (u8, u16) {
        match kind {
            PREDICTOR => (self.predictor_bits, 0),
            COLOR => (self.color_bits, 0),
            SUBTRACT_GREEN => (0, 0),
            _ => (0, self.size),
        }
    }

    fn lengths(&self) -> Vec<usize> {
        let mut width = self.width;
        let mut lengths = Vec::new();
        for &kind in &self.kinds {
            let (bits, size) = self.fields(kind);
            lengths.push(match kind {
                PREDICTOR | COLOR => {
                    let (bx, by) = (width.div_ceil(1 << bits), self.height.div_ceil(1 << bits));
                    4 * usize::from(bx) * usize::from(by)
                }
                SUBTRACT_GREEN => 0,
                _ => 4 * usize::from(size),
            });
            if kind == COLOR_TABLE {
                width = width.div_ceil(indices_in_byte(size));
            }
        }
        lengths
    }
}

/// Any part of the data for each record, and the length of the data. A record without data has
/// offset 0.
fn overlapping(random: &mut Xorshift, lengths: &[usize]) -> (Vec<usize>, usize) {
    let longest = lengths.iter().copied().max().unwrap_or(0);
    let end = longest + random.below(12);
    let any = |&length: &usize| match length {
        0 => 0,
        _ => random.below(end - length + 1),
    };
    (lengths.iter().map(any).collect(), end)
}

/// The same with one part after another, and bytes between them that no record names.
fn side_by_side(random: &mut Xorshift, lengths: &[usize]) -> (Vec<usize>, usize) {
    let mut end = 0;
    let mut next = |&length: &usize| {
        if length == 0 {
            return 0;
        }
        let offset = end + random.below(6);
        end = offset + length;
        offset
    };
    let offsets = lengths.iter().map(&mut next).collect();
    (offsets, end + random.below(6))
}

/// Modes that mostly predict; tables of any colors, of few, so that some are alike, and some with
/// an entry that an index past the table would give.
fn fill(random: &mut Xorshift, kind: u8, part: &mut [u8]) {
    let (pixels, _) = part.as_chunks_mut::<4>();
    if kind == PREDICTOR {
        for pixel in pixels {
            if random.below(4) != 0 {
                pixel[1] = random.below(14) as u8;
            }
        }
        return;
    }
    if kind == COLOR_TABLE && random.below(2) == 0 {
        let last = pixels.len() - 1;
        for at in 0..=last {
            pixels[at] = pixels[random.below(at + 1)];
        }
        pixels[random.below(last + 1)] = [0; 4];
    }
}

impl Given {
    /// For messages: without the bytes of the data, which may be very many.
    pub fn shown(&self) -> String {
        let Self {
            width,
            height,
            chain,
            data,
        } = self;
        let records: Vec<&[u8]> = chain.chunks(16).collect();
        let len = data.len();
        format!("{width} by {height}, chain {records:?}, {len} bytes of data")
    }

    pub fn read(&self) -> Result<Chain<'_>, u32> {
        Chain::read(self.width, self.height, &self.chain, &self.data)
    }

    /// For valid ones.
    pub fn valid(&self) -> Chain<'_> {
        self.read()
            .unwrap_or_else(|number| panic!("a chain made to be valid is refused by {number}"))
    }

    /// The data of a record.
    pub fn part(&self, record: usize) -> &[[u8; 4]] {
        self.data[self.part_range(record)].as_chunks().0
    }

    pub fn part_mut(&mut self, record: usize) -> &mut [[u8; 4]] {
        let range = self.part_range(record);
        self.data[range].as_chunks_mut().0
    }

    fn part_range(&self, record: usize) -> Range<usize> {
        let field = |at: usize| {
            let bytes = &self.chain[16 * record + at..16 * record + at + 4];
            u32::from_le_bytes(bytes.try_into().unwrap()) as usize
        };
        field(4)..field(4) + field(8)
    }

    /// Rebuilding's buffer: any strip, then bytes that are to be overwritten.
    pub fn any_image(&self, random: &mut Xorshift) -> Vec<u8> {
        let chain = self.valid();
        let mut image = random.residuals(chain.strip_len());
        image.extend(random.bytes(chain.picture_len() - chain.strip_len()));
        image
    }

    /// A picture that storing accepts.
    pub fn storable(&self, random: &mut Xorshift) -> Vec<u8> {
        self.picture(random, |_, _, _| {})
    }

    /// The same, but of the pixels that reach the table exactly this one has no entry.
    pub fn unstorable(&self, random: &mut Xorshift, without_entry: usize) -> Vec<u8> {
        self.picture(random, |random, entries, pixels| {
            pixels[without_entry] = no_entry(random, entries);
        })
    }

    /// A picture that storing accepts, in which the index of a row's last pixel is not 0, unless
    /// the table has one color alone.
    pub fn storable_row_ends(&self, random: &mut Xorshift) -> Vec<u8> {
        self.picture(random, |random, entries, pixels| {
            let others = entries.iter().filter(|&entry| *entry != entries[0]);
            let others: Vec<[u8; 4]> = others.copied().collect();
            if others.is_empty() {
                return;
            }
            for row in pixels.chunks_exact_mut(self.width as usize) {
                row[row.len() - 1] = random.choose(&others);
            }
        })
    }

    /// Any entries reach the table, but for the edit, which is given the entries and these pixels.
    fn picture(
        &self,
        random: &mut Xorshift,
        edit: impl FnOnce(&mut Xorshift, &[[u8; 4]], &mut [[u8; 4]]),
    ) -> Vec<u8> {
        let chain = self.valid();
        let table = chain.steps.iter().enumerate().find_map(|(at, step)| {
            let Transform::ColorTable { entries, .. } = step.transform else {
                return None;
            };
            Some((at, entries.as_chunks::<4>().0))
        });
        let Some((at, entries)) = table else {
            return random.residuals(chain.picture_len());
        };
        let mut pixels: Vec<[u8; 4]> = (0..chain.picture_len() / 4)
            .map(|_| random.choose(entries))
            .collect();
        edit(random, entries, &mut pixels);
        let mut picture = pixels.into_flattened();
        chain.rebuild_before(at, &mut picture);
        picture
    }
}

/// A color that differs from an entry in few bits, and is none.
pub fn no_entry(random: &mut Xorshift, entries: &[[u8; 4]]) -> [u8; 4] {
    let mut color = random.choose(entries);
    while entries.contains(&color) {
        color[random.below(4)] ^= 1 << random.below(8);
    }
    color
}
