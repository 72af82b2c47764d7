//! The auditor's page of an announcement or a recording: one fact a line, its name first. `announce` prints it of the model device, `host/console` of a real one.
#![no_std]
#![forbid(unsafe_code)]
#![deny(clippy::unwrap_used, clippy::expect_used, clippy::panic, clippy::indexing_slicing)]

mod account;
mod capture;
mod faults;
mod frames;
mod page;
mod spoken;

pub use account::{Gap, Part, Same, Why, gaps};
pub use capture::{CapturePage, Heard, Recorded};
pub use faults::{Completed, Fault, Refused, What, When};
pub use frames::{Warning, frame, sample, second, warnings};
pub use page::{
    ARCHIVE, Answered, Built, Drain, GoingOn, InFile, Jacks, Joined, Page, Stream, Times, Together, Turns, Virtio,
    at_most,
};
pub use spoken::Spoken;
