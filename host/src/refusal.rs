//! The numbers by which the library refuses.

use std::fmt;

/// Why the library refused a call. A refused call has changed no byte.
///
/// The library tests 1 and 2, then 3 to 7 on each record of the chain in turn, then 8, 9, and 21 or
/// 22, and answers the first that applies. A report tests 1, 23, 8 and 24.
#[derive(Clone, Copy, Debug, PartialEq, Eq, Hash)]
#[non_exhaustive]
pub enum Refusal {
    /// 1: width or height out of range.
    SizeOutOfRange,
    /// 2: the chain is not whole records of 16 bytes, or more than 4 of them.
    ChainLength,
    /// 3: a record's kind is over 3.
    UnknownKind,
    /// 4: a record's kind was used before.
    KindAgain,
    /// 5: a record's bits, size, offset or zero bytes are not those of its kind.
    NotTabled,
    /// 6: the length of a record's data is not that of its kind.
    WrongLength,
    /// 7: a record's data end beyond the chain's data.
    BeyondData,
    /// 8: a buffer is too short.
    BufferTooShort,
    /// 9: retouching, the point is outside the picture.
    PointOutside,
    /// 10: the length of a color map.
    ColorMapLength,
    /// 21: storing, a pixel that reaches the color table has no entry.
    NoEntry,
    /// 22: retouching, a pixel that would then reach the color table has no entry.
    NoEntryForRetouch,
    /// 23: a report's list of colors has one twice, or is not 1 to 256 colors of 4 bytes.
    ColorList,
    /// 24: a report's counter would pass 2^64 - 1.
    CounterOverflow,
}

impl Refusal {
    /// Every refusal, in the order of the numbers.
    pub const ALL: [Self; 14] = [
        Self::SizeOutOfRange,
        Self::ChainLength,
        Self::UnknownKind,
        Self::KindAgain,
        Self::NotTabled,
        Self::WrongLength,
        Self::BeyondData,
        Self::BufferTooShort,
        Self::PointOutside,
        Self::ColorMapLength,
        Self::NoEntry,
        Self::NoEntryForRetouch,
        Self::ColorList,
        Self::CounterOverflow,
    ];

    /// The number that the library answers.
    pub const fn number(self) -> u32 {
        match self {
            Self::SizeOutOfRange => 1,
            Self::ChainLength => 2,
            Self::UnknownKind => 3,
            Self::KindAgain => 4,
            Self::NotTabled => 5,
            Self::WrongLength => 6,
            Self::BeyondData => 7,
            Self::BufferTooShort => 8,
            Self::PointOutside => 9,
            Self::ColorMapLength => 10,
            Self::NoEntry => 21,
            Self::NoEntryForRetouch => 22,
            Self::ColorList => 23,
            Self::CounterOverflow => 24,
        }
    }

    /// The refusal that has this number.
    pub fn from_number(number: u32) -> Option<Self> {
        Self::ALL
            .into_iter()
            .find(|refusal| refusal.number() == number)
    }

    const fn text(self) -> &'static str {
        match self {
            Self::SizeOutOfRange => "the picture's width or height is not 1 to 16384",
            Self::ChainLength => {
                "the chain is not made of whole records of 16 bytes, or has more than 4 of them"
            }
            Self::UnknownKind => {
                "a record of the chain has a kind over 3, which is no kind of transform"
            }
            Self::KindAgain => "the chain has two records of the same kind, and may have one of each",
            Self::NotTabled => {
                "a record of the chain has a field that does not fit its kind: predictor and color \
                 take bits 2 to 9, a color table takes 1 to 256 entries, and what a kind does not \
                 use is 0"
            }
            Self::WrongLength => {
                "a record of the chain has data of the wrong length: predictor and color take 4 \
                 bytes for each block, a color table 4 for each entry, subtract green none"
            }
            Self::BeyondData => "a record of the chain names data beyond the end of the data given",
            Self::BufferTooShort => {
                "a buffer is too short for the picture, for the strip, or for a report's counters"
            }
            Self::PointOutside => {
                "the point is outside the picture: columns and rows count from 0, and end before the \
                 picture's width and height"
            }
            Self::ColorMapLength => "a color map has 4 to 1024 bytes, 4 for each entry",
            Self::NoEntry => {
                "the picture cannot be stored with this chain: a pixel that reaches the color table \
                 has no entry there; give the table an entry for it"
            }
            Self::NoEntryForRetouch => {
                "the pixel cannot take this color: what would then reach the color table has no entry \
                 there; choose another color, or store the painted picture with a table that has the \
                 entry"
            }
            Self::ColorList => {
                "a report takes a list of 1 to 256 colors, 4 bytes for each, and this one has another \
                 length or a color twice; list each color once"
            }
            Self::CounterOverflow => {
                "the picture cannot be counted: a counter of the report would pass 2^64 - 1, the most \
                 that it holds; begin another report with this picture"
            }
        }
    }
}

impl fmt::Display for Refusal {
    fn fmt(&self, f: &mut fmt::Formatter<'_>) -> fmt::Result {
        write!(f, "refusal {}: {}", self.number(), self.text())
    }
}

impl std::error::Error for Refusal {}

#[cfg(test)]
mod tests {
    use super::*;

    #[test]
    fn numbers_are_those_of_documents_01_and_02() {
        let numbers = Refusal::ALL.map(Refusal::number);
        assert_eq!(numbers, [1, 2, 3, 4, 5, 6, 7, 8, 9, 10, 21, 22, 23, 24]);
    }

    #[test]
    fn number_and_back() {
        for number in 0..300 {
            let refusal = Refusal::from_number(number);
            let listed = Refusal::ALL.iter().any(|known| known.number() == number);
            assert_eq!(refusal.map(Refusal::number), listed.then_some(number));
        }
    }

    #[test]
    fn every_text_begins_with_its_number_and_is_one_line() {
        for refusal in Refusal::ALL {
            let text = refusal.to_string();
            let number = format!("refusal {}: ", refusal.number());
            assert!(text.starts_with(&number), "{text}");
            assert!(
                !text.contains(['\n', '\t']) && !text.contains("  "),
                "{text}"
            );
        }
    }
}
