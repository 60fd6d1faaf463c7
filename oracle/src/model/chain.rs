//! Reading a chain, with refusals 1 to 7 in their order.

pub const KINDS: usize = 4;

const RECORD: usize = 16;

/// A valid chain, with the parts of the data that it names.
pub struct Chain<'a> {
    pub width: u16,
    pub height: u16,
    pub steps: Vec<Step<'a>>,
    /// The current width after the last record.
    pub strip_width: u16,
}

pub struct Step<'a> {
    pub transform: Transform<'a>,
    /// The current width before the record: the width of what storing gives to the step, and of
    /// what rebuilding makes of it.
    pub width: u16,
}

#[derive(Clone, Copy)]
pub enum Transform<'a> {
    Predictor { bits: u8, blocks: &'a [u8] },
    Color { bits: u8, blocks: &'a [u8] },
    SubtractGreen,
    ColorTable { size: u16, entries: &'a [u8] },
}

struct Record {
    kind: u8,
    bits: u8,
    size: u16,
    offset: u32,
    length: u32,
    zeros: [u8; 4],
}

impl<'a> Chain<'a> {
    pub fn read(width: u32, height: u32, chain: &[u8], data: &'a [u8]) -> Result<Self, u32> {
        let (width, height) = (side(width).ok_or(1u32)?, side(height).ok_or(1u32)?);
        if !chain.len().is_multiple_of(RECORD) || chain.len() > KINDS * RECORD {
            return Err(2);
        }
        let mut read = Self {
            width,
            height,
            steps: Vec::new(),
            strip_width: width,
        };
        let mut used = Vec::new();
        for record in chain.chunks_exact(RECORD).map(Record::read) {
            read.push(&record, &used, data)?;
            used.push(record.kind);
        }
        Ok(read)
    }

    /// Refusals 3 to 7 on one record.
    fn push(&mut self, record: &Record, used: &[u8], data: &'a [u8]) -> Result<(), u32> {
        let width = self.strip_width;
        if usize::from(record.kind) >= KINDS {
            return Err(3);
        }
        if used.contains(&record.kind) {
            return Err(4);
        }
        if !record.fields_as_tabled() {
            return Err(5);
        }
        if u64::from(record.length) != record.tabled_length(width, self.height) {
            return Err(6);
        }
        let part = record.part(data).ok_or(7u32)?;
        if record.kind == 3 {
            self.strip_width = width.div_ceil(indices_in_byte(record.size));
        }
        let transform = record.transform(part);
        self.steps.push(Step { transform, width });
        Ok(())
    }

    pub fn picture_len(&self) -> usize {
        self.stage_len(self.width)
    }

    pub fn strip_len(&self) -> usize {
        self.stage_len(self.strip_width)
    }

    pub fn stage_len(&self, width: u16) -> usize {
        4 * usize::from(width) * usize::from(self.height)
    }
}

impl Record {
    /// Little-endian.
    fn read(bytes: &[u8]) -> Self {
        let four = |at: usize| -> [u8; 4] { bytes[at..at + 4].try_into().unwrap() };
        Self {
            kind: bytes[0],
            bits: bytes[1],
            size: u16::from_le_bytes([bytes[2], bytes[3]]),
            offset: u32::from_le_bytes(four(4)),
            length: u32::from_le_bytes(four(8)),
            zeros: four(12),
        }
    }

    /// All fields that refusal 5 is about.
    fn fields_as_tabled(&self) -> bool {
        let fields = match self.kind {
            0 | 1 => matches!(self.bits, 2..=9) && self.size == 0,
            2 => self.bits == 0 && self.size == 0 && self.offset == 0,
            _ => self.bits == 0 && matches!(self.size, 1..=256),
        };
        fields && self.zeros == [0; 4]
    }

    fn tabled_length(&self, width: u16, height: u16) -> u64 {
        match self.kind {
            0 | 1 => {
                let side = 1 << self.bits;
                let (bx, by) = (width.div_ceil(side), height.div_ceil(side));
                4 * u64::from(bx) * u64::from(by)
            }
            2 => 0,
            _ => 4 * u64::from(self.size),
        }
    }

    /// The sum of offset and length does not wrap.
    fn part<'a>(&self, data: &'a [u8]) -> Option<&'a [u8]> {
        let end = u64::from(self.offset) + u64::from(self.length);
        if end > data.len() as u64 {
            return None;
        }
        Some(&data[self.offset as usize..end as usize])
    }

    fn transform<'a>(&self, part: &'a [u8]) -> Transform<'a> {
        let (bits, size) = (self.bits, self.size);
        match self.kind {
            0 => Transform::Predictor { bits, blocks: part },
            1 => Transform::Color { bits, blocks: part },
            2 => Transform::SubtractGreen,
            _ => Transform::ColorTable {
                size,
                entries: part,
            },
        }
    }
}

pub fn side(number: u32) -> Option<u16> {
    if matches!(number, 1..=16384) {
        Some(number as u16)
    } else {
        None
    }
}

pub fn indices_in_byte(size: u16) -> u16 {
    match size {
        1..=2 => 8,
        3..=4 => 4,
        5..=16 => 2,
        _ => 1,
    }
}
