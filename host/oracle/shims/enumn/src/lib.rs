//! Stand-in for `enumn`. Assumed: `#[derive(N)]` gives `fn n(value: Repr) -> Option<Self>`, the case of that number or none.
#![no_std]

pub use derive::N;
