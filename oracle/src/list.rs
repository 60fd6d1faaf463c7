//! The fixed list of the oracle's answers, which the program `replay` runs through.
//!
//! A case is a header of 16 bytes, then data, input and expected output; the list ends with the
//! last case. Numbers are little-endian.
//!
//! | at | bytes | field |
//! |---|---|---|
//! | 0 | 1 | transform: predictor 0, color 1, subtract green 2, color table 3, color map 4 |
//! | 1 | 1 | bits, for transforms with blocks |
//! | 2 | 2 | size of the color table |
//! | 4 | 2 | width (color map: the number of entries) |
//! | 6 | 2 | height (color map: 1) |
//! | 8 | 4 | length of the data: block pixels or table entries |
//! | 12 | 4 | length of the input: packed pixels for a color table, else as the output |
//!
//! The output is width × height × 4 bytes.
//!
//! A case of an exported call on a chain has these 16 bytes, then chain, data, input and expected
//! output. Such cases stand after those of transforms.
//!
//! | at | bytes | field |
//! |---|---|---|
//! | 0 | 1 | call: rebuild 5, store 6 |
//! | 1 | 1 | the expected answer |
//! | 2 | 2 | length of the chain |
//! | 4 | 2 | width, which may be out of range |
//! | 6 | 2 | height, likewise |
//! | 8 | 2 | length of the data |
//! | 10 | 2 | length of the output |
//! | 12 | 4 | length of the input |
//!
//! Rebuild: input and output are the whole image buffer, before and after the call, and have one
//! length. Store: the input is the whole picture buffer; the strip's buffer has the output's length
//! and holds 165 in every byte before the call; the output is what it holds after it. Either buffer
//! may be longer than needed or, where the answer is 8, too short. After a refusal the output is
//! what the buffer held. Some of the rebuilt strips are as those stored earlier, with document 01's
//! zero bits at the ends of rows.
//!
//! A list of retouches on the same buffers has these 16 bytes, then chain, data, picture and strip
//! before the list, the calls, picture and strip after the list. Such cases stand after those of
//! one call.
//!
//! | at | bytes | field |
//! |---|---|---|
//! | 0 | 1 | call: retouch 7 |
//! | 1 | 1 | the number of calls, at least 1 |
//! | 2 | 2 | length of the chain |
//! | 4 | 2 | width, which may be out of range |
//! | 6 | 2 | height, likewise |
//! | 8 | 2 | length of the data |
//! | 10 | 2 | length of the strip's buffer |
//! | 12 | 4 | length of the picture's buffer |
//!
//! A call has 16 bytes:
//!
//! | at | bytes | field |
//! |---|---|---|
//! | 0 | 4 | column, which may be outside |
//! | 4 | 4 | row, likewise |
//! | 8 | 4 | color: red, green, blue, alpha |
//! | 12 | 4 | the expected answer |
//!
//! Either buffer may be longer than needed or, where the answer is 8, too short.
//!
//! A list of reports under the same colors has these 16 bytes, then the colors, the counters'
//! buffer before the list, the calls, and the counters' buffer after the list. Such cases stand
//! last.
//!
//! | at | bytes | field |
//! |---|---|---|
//! | 0 | 1 | call: report 8 |
//! | 1 | 1 | the number of calls, at least 1 |
//! | 2 | 2 | length of the colors, which may be out of range |
//! | 4 | 2 | length of the counters' buffer |
//! | 6 | 10 | zero |
//!
//! A call has 16 bytes, and then the picture's buffer:
//!
//! | at | bytes | field |
//! |---|---|---|
//! | 0 | 4 | width, which may be out of range |
//! | 4 | 4 | height, likewise |
//! | 8 | 4 | length of the picture's buffer |
//! | 12 | 4 | the expected answer |
//!
//! These buffers too may be longer than needed or, where the answer is 8, too short.

use crate::cases::{
    color_cases, color_map_cases, color_table_cases, predictor_cases, subtract_green_cases,
};
use crate::chain_cases::{band_cases, order_cases, refusal_cases, row_end_cases};
use crate::given::Given;
use crate::model;
use crate::random::Xorshift;
use crate::reference::picture_len;
use crate::report_cases::{full_cases, list_cases, refused_reports, shipment_cases, twice_cases};
use crate::retouch_cases::{desk_cases, refused_cases, row_end_lists};
use crate::{color, color_map, color_table, predictor, subtract_green};

/// What a part of a case may have at most, so that a replayer's buffers are fixed.
pub(crate) const PART: usize = 16384;

const SEED: u64 = 0x9E37_79B9_7F4A_7C15;

#[derive(Clone, Copy)]
pub(crate) enum Transform {
    Predictor = 0,
    Color = 1,
    SubtractGreen = 2,
    ColorTable = 3,
    ColorMap = 4,
}

pub(crate) struct Case {
    pub transform: Transform,
    pub bits: u8,
    pub size: u16,
    pub width: u16,
    pub height: u16,
    pub data: Vec<u8>,
    pub input: Vec<u8>,
}

impl Case {
    fn output(&self) -> Vec<u8> {
        let mut bytes = self.input.clone();
        // Room for the expanded picture. What stands in it must not matter, so it is not zero.
        bytes.resize(picture_len(self.width, self.height), 0xA5);
        match self.transform {
            Transform::Predictor => {
                predictor(self.width, self.height, self.bits, &self.data, &mut bytes);
            }
            Transform::Color => color(self.width, self.bits, &self.data, &mut bytes),
            Transform::SubtractGreen => subtract_green(&mut bytes),
            Transform::ColorTable => {
                color_table(self.width, self.height, self.size, &self.data, &mut bytes);
            }
            Transform::ColorMap => color_map(&mut bytes),
        }
        bytes
    }

    fn write(&self, list: &mut Vec<u8>) {
        let output = self.output();
        assert!(self.data.len().max(self.input.len()).max(output.len()) <= PART);
        list.extend([self.transform as u8, self.bits]);
        list.extend(self.size.to_le_bytes());
        list.extend(self.width.to_le_bytes());
        list.extend(self.height.to_le_bytes());
        list.extend((self.data.len() as u32).to_le_bytes());
        list.extend((self.input.len() as u32).to_le_bytes());
        list.extend(&self.data);
        list.extend(&self.input);
        list.extend(output);
    }
}

pub(crate) enum Call {
    Rebuild,
    Store { strip_len: usize },
}

pub(crate) struct ChainCase {
    pub call: Call,
    pub given: Given,
    pub input: Vec<u8>,
}

impl ChainCase {
    /// The number, and the written buffer after the call.
    pub fn answered(&self) -> (u32, Vec<u8>) {
        let Given {
            width,
            height,
            chain,
            data,
        } = &self.given;
        let mut written = match self.call {
            Call::Rebuild => self.input.clone(),
            Call::Store { strip_len } => vec![165; strip_len],
        };
        let answer = match self.call {
            Call::Rebuild => model::rebuild(*width, *height, chain, data, &mut written),
            Call::Store { .. } => {
                model::store(*width, *height, chain, data, &self.input, &mut written)
            }
        };
        (answer, written)
    }

    fn write(&self, list: &mut Vec<u8>) {
        let given = &self.given;
        let (answer, output) = self.answered();
        assert!(given.data.len().max(self.input.len()).max(output.len()) <= PART);
        list.push(match self.call {
            Call::Rebuild => 5,
            Call::Store { .. } => 6,
        });
        list.push(answer as u8);
        list.extend((given.chain.len() as u16).to_le_bytes());
        list.extend((given.width as u16).to_le_bytes());
        list.extend((given.height as u16).to_le_bytes());
        list.extend((given.data.len() as u16).to_le_bytes());
        list.extend((output.len() as u16).to_le_bytes());
        list.extend((self.input.len() as u32).to_le_bytes());
        list.extend(&given.chain);
        list.extend(&given.data);
        list.extend(&self.input);
        list.extend(output);
    }
}

/// The whole list, the same on every run.
pub fn answers() -> Vec<u8> {
    let mut list = Vec::new();
    for cases in [
        predictor_cases,
        color_cases,
        subtract_green_cases,
        color_table_cases,
        color_map_cases,
    ] {
        for case in cases(&mut Xorshift::new(SEED)) {
            case.write(&mut list);
        }
    }
    for cases in [order_cases, band_cases, row_end_cases, refusal_cases] {
        for case in cases(&mut Xorshift::new(SEED)) {
            case.write(&mut list);
        }
    }
    for cases in [desk_cases, row_end_lists, refused_cases] {
        for case in cases(&mut Xorshift::new(SEED)) {
            case.write(&mut list);
        }
    }
    for cases in [
        shipment_cases,
        list_cases,
        twice_cases,
        full_cases,
        refused_reports,
    ] {
        for case in cases(&mut Xorshift::new(SEED)) {
            case.write(&mut list);
        }
    }
    list
}
