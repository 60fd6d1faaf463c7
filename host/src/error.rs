//! What the safe calls return where they do not succeed.

use crate::{Refusal, Size};
use std::fmt;

/// Why a call gave no result. Lent buffers are as they were, unless the answer was unknown.
#[derive(Clone, Copy, Debug, PartialEq, Eq)]
#[non_exhaustive]
pub enum Error {
    /// The library refused.
    Refused(Refusal),
    /// The library answered a number that this crate does not know: the two do not belong together.
    UnknownAnswer(u32),
    /// A picture or a strip of this size has another number of bytes.
    ByteCount {
        /// The size that was named.
        size: Size,
        /// How many bytes came with it.
        given: usize,
    },
    /// The picture or the strip is not of the chain's size.
    OtherSize {
        /// What the chain is for.
        expected: Size,
        /// What came with it.
        given: Size,
    },
    /// Counters that were kept are not those of a report on so many colors.
    CounterBytes {
        /// How many colors were listed.
        colors: usize,
        /// How many bytes came with them.
        given: usize,
    },
    /// There is no memory for so many pixels.
    OutOfMemory(Size),
}

impl Error {
    /// The refusal, if the library refused.
    pub fn refusal(&self) -> Option<Refusal> {
        match self {
            Self::Refused(refusal) => Some(*refusal),
            _ => None,
        }
    }
}

impl From<Refusal> for Error {
    fn from(refusal: Refusal) -> Self {
        Self::Refused(refusal)
    }
}

impl fmt::Display for Error {
    fn fmt(&self, f: &mut fmt::Formatter<'_>) -> fmt::Result {
        match self {
            Self::Refused(refusal) => refusal.fmt(f),
            Self::UnknownAnswer(answer) => write!(
                f,
                "the library answered {answer}, which this version of its Rust crate does not know"
            ),
            Self::ByteCount { size, given } => {
                write!(
                    f,
                    "{size} pixels take 4 bytes each, and {given} bytes were given"
                )
            }
            Self::OtherSize { expected, given } => {
                write!(
                    f,
                    "the chain is for {expected} pixels, and {given} were given"
                )
            }
            Self::CounterBytes { colors, given } => {
                write!(
                    f,
                    "a report's counters take 8 bytes for each of its {colors} colors and 8 for all \
                     others, and {given} bytes were given"
                )
            }
            Self::OutOfMemory(size) => write!(f, "there is no memory for {size} pixels"),
        }
    }
}

impl std::error::Error for Error {}

/// Reads the answer of a call.
pub(crate) fn accepted(answer: u32) -> Result<(), Error> {
    if answer == 0 {
        return Ok(());
    }
    Err(refused(answer))
}

/// What is refused before buffers are looked at, by the result of a call that lent none: 8 says that
/// nothing was.
pub(crate) fn before_buffers(result: Result<(), Error>) -> Result<(), Error> {
    match result {
        Err(Error::Refused(Refusal::BufferTooShort)) => Ok(()),
        result => result,
    }
}

/// What an answer means that accepts nothing.
pub(crate) fn refused(answer: u32) -> Error {
    Refusal::from_number(answer).map_or(Error::UnknownAnswer(answer), Error::Refused)
}

#[cfg(test)]
mod tests {
    use super::*;

    #[test]
    fn answers() {
        assert_eq!(accepted(0), Ok(()));
        for refusal in Refusal::ALL {
            assert_eq!(accepted(refusal.number()), Err(Error::Refused(refusal)));
        }
        for unknown in [11, 20, 33, 255, 256, u32::MAX] {
            assert_eq!(accepted(unknown), Err(Error::UnknownAnswer(unknown)));
            let text = Error::UnknownAnswer(unknown).to_string();
            assert!(text.contains(&unknown.to_string()), "{text}");
        }
    }
}
