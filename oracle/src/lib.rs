//! The Rust original as the oracle: the five functions that document 01 names as references,
//! compiled unchanged from the folder `shared` beside the repository.

pub mod calls;
pub mod lent;
pub mod random;
pub mod seen;

/// What a program says where there is no oracle to ask.
pub const SKIPPED: &str = "skipped: the Rust source is absent \
    (neither ../shared/docs/src beside the repository nor $LETCHWATER_RUST)";

#[cfg(rust_source)]
mod decoder {
    /// None of the references ever makes an error.
    pub enum DecodingError {}
}

#[cfg(rust_source)]
mod reference;

#[cfg(rust_source)]
pub use reference::{color, color_map, color_table, predictor, subtract_green};

#[cfg(rust_source)]
pub mod model;

#[cfg(rust_source)]
pub mod given;

#[cfg(rust_source)]
pub mod damage;

#[cfg(rust_source)]
pub mod scenes;

#[cfg(rust_source)]
pub mod row_ends;

#[cfg(rust_source)]
pub mod means;

#[cfg(rust_source)]
pub mod shipments;

#[cfg(rust_source)]
pub mod report_damage;

#[cfg(rust_source)]
mod cases;

#[cfg(rust_source)]
mod chain_cases;

#[cfg(rust_source)]
mod retouch_cases;

#[cfg(rust_source)]
mod report_cases;

#[cfg(rust_source)]
pub mod list;
