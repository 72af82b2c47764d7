//! A capture: periods that a device writes, joined into a recording.
use crate::bytes::{Results, size_at, u32_at};
use crate::step::slot_if_there;
use crate::{Exchange, RING_SIZE, Reading, Refusal, Ring, Turn};
use core::borrow::BorrowMut;
use core::fmt;

/// Bytes of the status that stands behind a payload.
pub const CAPTURE_STATUS: usize = 8;

/// What the host saw on the receive queue in a turn of a capture.
#[derive(Clone, Copy, PartialEq, Eq)]
pub enum Captured<'b> {
    /// Nothing was completed.
    Quiet,
    /// The device has completed a slot.
    Completed {
        /// The slot that the device names, as in [`Reading::Completed`].
        slot: u32,
        /// How many bytes the queue reports as written to its buffer, as it stands there: neither rounded nor cut to what the buffer has.
        written: u32,
        /// What the device wrote: the payload, then 8 bytes of status. All of it, or the whole buffer; of a length that no buffer has, a
        /// period and 8 bytes.
        bytes: &'b [u8],
    },
}

/// Short: the bytes by their number.
impl fmt::Debug for Captured<'_> {
    fn fmt(&self, f: &mut fmt::Formatter<'_>) -> fmt::Result {
        match self {
            Self::Quiet => f.write_str("Quiet"),
            Self::Completed { slot, written, bytes } => {
                let mut said = f.debug_struct("Completed");
                said.field("slot", slot).field("written", written);
                said.field("bytes", &bytes.len()).finish()
            }
        }
    }
}

impl<'b> Captured<'b> {
    /// Kind, slot, written length and bytes, as the entry takes them.
    pub(crate) const fn parts(self) -> (u32, u32, u32, &'b [u8]) {
        match self {
            Self::Quiet => (0, 0, 0, &[]),
            Self::Completed { slot, written, bytes } => (1, slot, written, bytes),
        }
    }
}

/// For a drain turn, which looks at the slot alone: the slot, and the status behind the payload, 0 where no status was written.
impl From<Captured<'_>> for Reading {
    fn from(seen: Captured<'_>) -> Self {
        match seen {
            Captured::Quiet => Self::Quiet,
            Captured::Completed { slot, written, bytes } => {
                let behind = bytes.get(..written as usize).and_then(<[u8]>::last_chunk);
                let status = behind.map_or(0, |status: &[u8; CAPTURE_STATUS]| u32_at(status, 0));
                Self::Completed { slot, status }
            }
        }
    }
}

/// What the next turn of a capture submits: room for a period.
#[derive(Clone, Copy, PartialEq, Eq, Debug)]
#[must_use = "the next turn takes it as submitted: hand a buffer to the device first"]
pub struct Room {
    /// The slot to submit it in.
    pub slot: u32,
    /// Bytes of the period: the device's buffer has [`CAPTURE_STATUS`] more.
    pub length: usize,
}

impl Room {
    /// What a result offers.
    pub(crate) fn read(result: &Results) -> Result<Option<Self>, Refusal> {
        let slot = slot_if_there(result)?;
        let length = size_at(result, 16);
        Ok(slot.map(|slot| Self { slot, length }))
    }
}

/// What came of [`crate::Sound::capture`], if it was not refused.
#[must_use = "a capture that runs keeps every call Busy"]
pub enum Capturing<'r, R: BorrowMut<[u8; RING_SIZE]> = [u8; RING_SIZE]> {
    /// It runs: take its turns.
    Runs(Capture<'r, R>),
    /// Set-up had to begin, and nothing runs. Feed the exchange to its end, which is a refusal; then set the parameters and start again.
    SetUp(Exchange<()>),
}

impl<R: BorrowMut<[u8; RING_SIZE]>> fmt::Debug for Capturing<'_, R> {
    fn fmt(&self, f: &mut fmt::Formatter<'_>) -> fmt::Result {
        match self {
            Self::Runs(capture) => f.debug_tuple("Runs").field(capture).finish(),
            Self::SetUp(exchange) => f.debug_tuple("SetUp").field(exchange).finish(),
        }
    }
}

/// A capture with its ring and its recording: [`crate::Sound::capture`] starts one.
///
/// A device writes into buffers of the host's own, of a period and 8 bytes for each slot, and never into the recording: a turn copies an
/// accepted payload behind what was kept before. So the recording is borrowed for as long as the capture is there, and needs no more care;
/// **a buffer is the device's until its slot is freed**, by a turn or by a drain turn, also where the capture was dropped meanwhile.
///
/// However a capture ends, the recording's first [`Capture::kept`] bytes are the payloads that were accepted, in order and without a gap, and
/// all behind them is as it was.
///
/// ```
/// use snd::{Captured, Capturing, STATUS_OK, Turn};
/// # use snd::{Format, Model, Page, Params, PcmInfo, Rate, Refusal, Ring, Sound, Step};
/// # let mut device = Model::new(&[], &[PcmInfo::input(1, 2).to_bytes()], &[])?;
/// # let (mut sound, mut ring, mut page) = (Sound::new(0, 1, 0), Ring::new(), Page::new());
/// # let to = Params { buffer: 8, period: 4, features: 0, channels: 2, format: Format::S16, rate: Rate::Hz48000 };
/// # let mut step = sound.pcm_set_params(&ring, 0, to)?;
/// # while let Step::Send(exchange) = step {
/// #     device.control(exchange.bytes(), &mut page)?;
/// #     step = sound.feed(exchange, &page)?;
/// # }
/// // stream 0 is an input with a period of 4 bytes; this device completes each at once, the second with one byte alone
/// let mut recording = *b"------------!";
/// let Capturing::Runs(mut capture) = sound.capture(&mut ring, 0, 3, &mut recording, 4)? else { unreachable!() };
/// let mut heard = [&b"feed"[..], b"e", b"r 14"].into_iter();
/// loop {
///     let (mut buffer, mut written) = ([0; 4 + 8], 0);
///     let room = capture.offered()?;
///     if let Some(payload) = room.and_then(|_| heard.next()) {
///         buffer[..payload.len()].copy_from_slice(payload);
///         buffer[payload.len()..][..4].copy_from_slice(&STATUS_OK.to_le_bytes());
///         written = payload.len() as u32 + 8;
///     }
///     let seen = match room {
///         Some(room) => Captured::Completed { slot: room.slot, written, bytes: &buffer },
///         None => Captured::Quiet,
///     };
///     if capture.turn(seen)? == Turn::Done {
///         break;
///     }
/// }
/// assert_eq!(capture.recorded()?, b"feeder 14");
/// assert_eq!(&recording, b"feeder 14---!");
/// # Ok::<(), Refusal>(())
/// ```
///
/// While the capture is there the recording cannot be changed, nor be replaced by one of another length:
///
/// ```compile_fail,E0506
/// # use snd::{Captured, Ring, Sound};
/// # let (mut sound, mut ring) = (Sound::new(0, 1, 0), Ring::new());
/// let mut recording = [0; 8];
/// let capture = sound.capture(&mut ring, 0, 2, &mut recording, 9);
/// recording[0] = 1;
/// drop(capture);
/// ```
#[must_use = "dropped while it runs it leaves every call Busy"]
pub struct Capture<'r, R: BorrowMut<[u8; RING_SIZE]> = [u8; RING_SIZE]> {
    ring: &'r mut Ring<R>,
    recording: &'r mut [u8],
}

impl<'r, R: BorrowMut<[u8; RING_SIZE]>> Capture<'r, R> {
    /// A capture that was started on this ring with this recording.
    pub(crate) fn new(ring: &'r mut Ring<R>, recording: &'r mut [u8]) -> Self {
        Self { ring, recording }
    }

    /// The room that the next turn submits, or `None` if it submits none: see [`Ring::capture_offered`].
    pub fn offered(&self) -> Result<Option<Room>, Refusal> {
        self.ring.capture_offered(self.recording)
    }

    /// One turn, with what was seen: see [`Ring::capture_turn`].
    pub fn turn(&mut self, seen: Captured<'_>) -> Result<Turn, Refusal> {
        self.ring.capture_turn(self.recording, seen)
    }

    /// After a turn that was refused with 2, 6, 9 or 17: frees the oldest slot in flight, see [`Ring::drain_turn`]. What the device wrote is
    /// not looked at, and nothing is recorded.
    pub fn drain_turn(&mut self, seen: Captured<'_>) -> Result<(), Refusal> {
        self.ring.drain_turn(seen.into())
    }

    /// The ring, to read.
    #[must_use]
    pub fn ring(&self) -> &Ring<R> {
        self.ring
    }

    /// How many bytes were accepted: see [`Ring::kept`].
    pub fn kept(&self) -> Result<usize, Refusal> {
        self.ring.kept()
    }

    /// What was recorded so far: the recording's first bytes, as many as were accepted.
    pub fn recorded(&self) -> Result<&[u8], Refusal> {
        let kept = self.kept()?;
        self.recording.get(..kept).ok_or(Refusal::Unknown)
    }
}

/// Short: the ring, and the recording by its length.
impl<R: BorrowMut<[u8; RING_SIZE]>> fmt::Debug for Capture<'_, R> {
    fn fmt(&self, f: &mut fmt::Formatter<'_>) -> fmt::Result {
        let mut said = f.debug_struct("Capture");
        said.field("ring", &self.ring)
            .field("room", &self.recording.len())
            .finish()
    }
}
