//! The report call: lists of calls under one list of colors beside document 02's model, and beside
//! what the accepted maps have of each color.

#[cfg(not(rust_source))]
#[test]
#[ignore = "skipped: the Rust source of ../shared is absent"]
fn reports_are_compared_with_the_model() {}

#[cfg(rust_source)]
mod compared;

#[cfg(rust_source)]
mod counters;

#[cfg(rust_source)]
mod lists;

#[cfg(rust_source)]
mod look_up;

#[cfg(rust_source)]
mod refusals;

#[cfg(rust_source)]
mod runs;

#[cfg(rust_source)]
mod stack;
