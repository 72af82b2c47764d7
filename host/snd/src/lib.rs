//! Safe Rust over the C entries of the proved VirtIO sound driver.
//!
//! [`Sound`] is the driver's state, [`Ring`] the record of a transfer, [`Model`] a device to try them on. Each lives in a byte store of a
//! fixed size that you own or lend; the entries read and write it in place. Nothing here allocates or panics, and any content of a
//! store is safe: one that no call could have left is refused with [`Refusal::InvalidParam`].
//!
//! A control call says what to send. You send it, and feed the answer page:
//!
//! ```
//! use snd::{Model, Page, PcmInfo, Ring, Sound, Step};
//!
//! let mut device = Model::new(&[], &[PcmInfo::output(1, 2).to_bytes()], &[])?;
//! let (mut sound, ring, mut page) = (Sound::new(0, 1, 0), Ring::new(), Page::new());
//!
//! let mut step = sound.output_streams(&ring)?;
//! let streams = loop {
//!     match step {
//!         Step::Done(streams) => break streams,
//!         Step::Send(exchange) => {
//!             device.control(exchange.bytes(), &mut page)?;
//!             step = sound.feed(exchange, &page)?;
//!         }
//!     }
//! };
//! assert_eq!(streams.ids(), [0]);
//! # Ok::<(), snd::Refusal>(())
//! ```
//!
//! Where a device may write less than it is asked for, feed by [`Sound::feed_written`]: what stood in the page before is then not read.
//!
//! Where the device refuses, [`Refusal::IoError`] and [`Refusal::Unsupported`] carry what it said: a [`Status`], or none where no status was the cause.
//!
//! Where a stream must not be started unprepared, make the state by [`Sound::new_guarded`]: it sends no command, and takes no transfer, that the
//! standard's lifecycle of a stream does not permit.
//!
//! A device of VirtIO 1.3 may have control elements: [`Config::read`] reads its counts, [`latest_notification_in`] its events.
//!
//! Announcements that were recorded on a desk computer come as WAVE files: see [`wav`].
//!
//! A transfer goes turn by turn, and keeps its frames until no device reads them: see [`Transfer`].
//!
//! A transfer may write a trace of what it did on the queue, and anyone's trace can be judged: see [`Traced`] and [`trace`].
//!
//! A capture goes turn by turn as well, and joins what a microphone heard into a recording: see [`Capture`].
//!
//! A console that has other work meanwhile submits period by period and goes on: see [`Places`].
//!
//! With the feature `alloc` frames may be a `Vec<u8>` or a `Box<[u8]>`; else the crate needs no allocator.
#![no_std]
#![deny(unsafe_code)]
#![deny(
    clippy::unwrap_used,
    clippy::expect_used,
    clippy::panic,
    clippy::indexing_slicing,
    clippy::arithmetic_side_effects,
    clippy::todo,
    clippy::unreachable
)]

#[cfg(target_endian = "big")]
compile_error!("snd is for little-endian targets: the driver's archive is made for no other");
#[cfg(not(target_pointer_width = "64"))]
compile_error!("snd is for targets of 64 bits: a length has 64 bits in the driver's entries");

mod answer;
mod bytes;
mod capture;
mod event;
pub mod ffi;
mod layout;
mod model;
mod params;
mod pending;
mod records;
mod ring;
mod sound;
mod status;
mod step;
mod supported;
pub mod trace;
mod traced;
mod transfer;
mod version;
pub mod wav;

pub use answer::{Answer, Refusal};
pub use capture::{CAPTURE_STATUS, Capture, Captured, Capturing, Room};
pub use event::{Event, EventKind, latest_notification};
pub use model::{Model, TransferStatus};
pub use params::{Format, Params, Rate};
pub use pending::{Pending, PlaceStore, Places, Submitted};
pub use records::{ChannelMap, JackInfo, PcmInfo};
pub use ring::{Carried, Offer, Reading, Ring, Turn};
pub use sound::Sound;
pub use status::{Cause, Status};
pub use step::{Exchange, Message, Page, Step, StreamList, Unfed, Value};
pub use supported::{ChannelRange, Features, Formats, Rates};
pub use traced::{Traced, Tracing};
pub use transfer::{Frames, Started, Transfer};
pub use version::{Config, F_CTLS, Notification, Version, latest_notification_in};

/// The size of a state's store.
pub const STATE_SIZE: usize = 14_703;
/// The size of a ring's store.
pub const RING_SIZE: usize = 636;
/// The size of a message buffer.
pub const MESSAGE_SIZE: usize = 24;
/// The size of a result.
pub const RESULT_SIZE: usize = 512;
/// The size of an answer page.
pub const PAGE_SIZE: usize = 4_096;
/// The size of a model device's store.
pub const MODEL_SIZE: usize = 16_427;

/// The status by which a device says that all is well.
pub const STATUS_OK: u32 = 0x8000;
/// How many slots a ring has: the length of an array by slot.
pub const SLOTS: usize = 32;
/// How many places there are for submissions that do not wait: the length of an array by token.
pub const PLACES: usize = 16;
/// The same with a ring for indirect descriptors.
pub const PLACES_INDIRECT: usize = 32;
