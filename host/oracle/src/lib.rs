//! The sound driver of virtio-drivers 0.13.0, its text compiled as it stands from outside this repository, over stand-ins for
//! what the text leans on and does not bring: queue, transport, config, hal and the external crates. Each stand-in says in its
//! head what it assumes.
//!
//! Assumed here: a page is 4,096 bytes; the errors have the names below; the driver asks nothing of a hal itself.
#![allow(unexpected_cfgs)]

mod api;
pub use api::*;

/// Whether the Rust driver's text was at hand when this was built.
pub const AT_HAND: bool = cfg!(have_rust);

/// The files of the text that were compiled, with their sha256.
pub fn text() -> Vec<(&'static str, String)> {
    #[cfg(have_rust)]
    let files = include!(concat!(env!("OUT_DIR"), "/text.rs"));
    #[cfg(not(have_rust))]
    let files: [(&str, &[u8]); 0] = [];
    files.iter().map(|(name, bytes)| (*name, sha256::hex(bytes))).collect()
}

/// The driver over a scripted outside, with indirect descriptors or without; none where the text is not at hand.
pub fn sound(_counts: [u32; 3], _tokens: Tokens, _indirect: bool) -> Option<Box<dyn Sound>> {
    #[cfg(have_rust)]
    return Some(Box::new(driver::Host::new(_counts, _tokens, _indirect)));
    #[cfg(not(have_rust))]
    None
}

/// The model device over three tables of records; none where the text is not at hand.
pub fn model(_tables: [Vec<Vec<u8>>; 3]) -> Option<Box<dyn Model>> {
    #[cfg(have_rust)]
    return Some(driver::model(_tables));
    #[cfg(not(have_rust))]
    None
}

/// The mask bits of the format numbers and of the rate numbers; none where the text is not at hand.
pub fn masks() -> Option<(Vec<u64>, Vec<u64>)> {
    #[cfg(have_rust)]
    return Some(driver::masks());
    #[cfg(not(have_rust))]
    None
}

/// With logging on, the driver's own messages are formatted (and dropped); it is off at first.
pub fn logging(on: bool) {
    log::ENABLED.store(on, std::sync::atomic::Ordering::Relaxed);
}

#[cfg(have_rust)]
extern crate alloc;

/// The model device's text prints as it works; standard output is not its own.
#[cfg(have_rust)]
macro_rules! println {
    ($($a:tt)*) => {
        ()
    };
}

#[cfg(have_rust)]
#[allow(dead_code, clippy::all)]
mod device {
    include!(concat!(env!("OUT_DIR"), "/device.rs"));
}
#[cfg(have_rust)]
mod config;
#[cfg(have_rust)]
mod driver;
#[cfg(have_rust)]
mod queue;
#[cfg(have_rust)]
mod transport;

#[cfg(have_rust)]
#[allow(clippy::enum_variant_names)]
mod crate_root {
    pub trait Hal {}
    pub struct NoHal;
    impl Hal for NoHal {}

    pub const PAGE_SIZE: usize = 0x1000;
    pub type Result<T = ()> = core::result::Result<T, Error>;

    /// The crate's errors by name, those that the sound driver or a queue can give.
    #[derive(Copy, Clone, Debug, Eq, PartialEq)]
    pub enum Error {
        QueueFull,
        NotReady,
        WrongToken,
        /// what a failed control exchange gives here: sound.rs never makes it itself
        AlreadyUsed,
        InvalidParam,
        IoError,
        Unsupported,
    }
}
#[cfg(have_rust)]
use crate_root::*;
