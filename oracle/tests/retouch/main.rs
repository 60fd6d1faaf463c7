//! The retouch call: lists of calls beside document 01's plain desk, and, where the strip is not
//! the picture's or the picture is not accepted, beside the model of the call.

#[cfg(not(rust_source))]
#[test]
#[ignore = "skipped: the Rust source of ../shared is absent"]
fn retouches_are_compared_with_the_desk() {}

#[cfg(rust_source)]
mod any_strips;

#[cfg(rust_source)]
mod buffers;

#[cfg(rust_source)]
mod compared;

#[cfg(rust_source)]
mod known;

#[cfg(rust_source)]
mod lists;

#[cfg(rust_source)]
mod means;

#[cfg(rust_source)]
mod named;

#[cfg(rust_source)]
mod refusals;

#[cfg(rust_source)]
mod row_ends;

#[cfg(rust_source)]
mod stack;
