//! The exported calls on chains, held against the Rust (rebuilding) and against the model of
//! documents 01 and 02 (storing and refusals).

#[cfg(not(rust_source))]
#[test]
#[ignore = "skipped: the Rust source of ../shared is absent"]
fn chains_are_compared_with_the_rust() {}

#[cfg(rust_source)]
mod compared;

#[cfg(rust_source)]
mod means;

#[cfg(rust_source)]
mod rebuild;

#[cfg(rust_source)]
mod refusals;

#[cfg(rust_source)]
mod row_ends;

#[cfg(rust_source)]
mod store;

#[cfg(rust_source)]
mod stack;
