//! The sound driver of virtio-drivers 0.13.0, its text compiled as it stands from outside this repository, over a guest's own queues. What the text leans on and
//! does not bring is stood in for: here and in the three modules below, and by the crates of host/oracle/shims.
#![no_std]

extern crate alloc;

mod config;
#[allow(dead_code, unexpected_cfgs, clippy::all)]
mod device {
    include!(concat!(env!("OUT_DIR"), "/device.rs"));
}
mod queue;
mod transport;

use alloc::rc::Rc;
use core::cell::RefCell;
use device::sound::{PcmFeatures, PcmFormat, PcmRate, VirtIOSound};
use transport::Guest;

const PAGE_SIZE: usize = 0x1000;
type Result<T = ()> = core::result::Result<T, Error>;

/// The crate's errors by name, those that the sound driver or these queues can give.
#[derive(Copy, Clone, Debug, Eq, PartialEq)]
pub enum Error {
    QueueFull,
    NotReady,
    WrongToken,
    /// What a failed control exchange gives here.
    AlreadyUsed,
    InvalidParam,
    IoError,
    Unsupported,
}

/// The driver asks nothing of it itself.
trait Hal {}
struct NoHal;
impl Hal for NoHal {}

/// What the guest's queues do for the driver. The device was reset, with VirtIO 1 and, where they are indirect, with indirect descriptors.
pub trait Queues {
    /// Whether descriptors are indirect.
    fn indirect(&self) -> bool;
    /// Jacks, streams, channel maps.
    fn counts(&self) -> [u32; 3];
    /// Sends a request and waits for its answer; false: the queue failed.
    fn control(&mut self, request: &[u8], page: &mut [u8]) -> bool;
    /// A turn of a transfer begins.
    fn turn(&mut self);
    /// Puts a period on the output's queue; false: there is no room.
    fn submit(&mut self, slot: u16, stream: u32, period: &[u8]) -> bool;
    /// Looks at that queue once: a slot and its status.
    fn poll(&mut self) -> Option<(u32, u32)>;
}
pub type Shared = Rc<RefCell<dyn Queues>>;

/// What a stream is set to, by VirtIO's numbers.
#[derive(Copy, Clone)]
pub struct Params {
    pub buffer: u32,
    pub period: u32,
    pub features: u32,
    pub channels: u8,
    pub format: u8,
    pub rate: u8,
}

/// The driver.
pub struct Driver(VirtIOSound<NoHal, Guest>);

impl Driver {
    pub fn new(queues: Shared) -> Result<Self> {
        VirtIOSound::new(Guest(queues)).map(Self)
    }

    /// Finds the first output, sets it and starts it.
    pub fn open(&mut self, to: Params) -> Result<u32> {
        let stream = self.0.output_streams()?.first().copied().ok_or(Error::Unsupported)?;
        let (format, rate) = (format(to.format)?, rate(to.rate)?);
        let features = PcmFeatures::from_bits_retain(to.features);
        self.0
            .pcm_set_params(stream, to.buffer, to.period, features, to.channels, format, rate)?;
        self.0.pcm_prepare(stream)?;
        self.0.pcm_start(stream)?;
        Ok(stream)
    }

    /// The driver's own transfer, which has no budget.
    pub fn transfer(&mut self, stream: u32, frames: &[u8]) -> Result {
        self.0.pcm_xfer(stream, frames)
    }

    pub fn close(&mut self, stream: u32) -> Result {
        self.0.pcm_stop(stream)?;
        self.0.pcm_release(stream)
    }
}

fn format(number: u8) -> Result<PcmFormat> {
    // SAFETY: repr(u8), 0 to 24 without a gap.
    (number <= 24)
        .then(|| unsafe { core::mem::transmute::<u8, PcmFormat>(number) })
        .ok_or(Error::InvalidParam)
}

fn rate(number: u8) -> Result<PcmRate> {
    // SAFETY: repr(u8), 0 to 13 without a gap.
    (number <= 13)
        .then(|| unsafe { core::mem::transmute::<u8, PcmRate>(number) })
        .ok_or(Error::InvalidParam)
}
