//! A transfer that writes a trace.
use crate::{Exchange, Frames, Offer, RING_SIZE, Reading, Refusal, Ring, Transfer, Turn};
use core::borrow::BorrowMut;
use core::fmt;

/// What came of [`crate::Sound::transfer_traced`].
#[must_use = "a transfer that runs keeps every call Busy, and a refused one gives its frames back"]
pub enum Tracing<'r, F: Frames, R: BorrowMut<[u8; RING_SIZE]> = [u8; RING_SIZE]> {
    /// It runs: take its turns.
    Runs(Traced<'r, F, R>),
    /// Set-up had to begin, and nothing runs: as [`crate::Started::SetUp`]. Here are the frames.
    SetUp(Exchange<()>, F),
    /// It was refused, and here are the frames.
    Refused(Refusal, F),
}

/// Short: the frames by their length.
impl<F: Frames, R: BorrowMut<[u8; RING_SIZE]>> fmt::Debug for Tracing<'_, F, R> {
    fn fmt(&self, f: &mut fmt::Formatter<'_>) -> fmt::Result {
        match self {
            Self::Runs(traced) => f.debug_tuple("Runs").field(traced).finish(),
            Self::SetUp(exchange, frames) => write!(f, "SetUp({exchange:?}, {} bytes)", frames.stable().len()),
            Self::Refused(refusal, frames) => write!(f, "Refused({refusal:?}, {} bytes)", frames.stable().len()),
        }
    }
}

/// A [`Transfer`] that writes a trace into a room, which it has until it ends or is dropped: [`crate::Sound::transfer_traced`] starts one. Frames,
/// ring and drain are as there.
///
/// ```
/// use snd::trace::{self, DIRECT, Field, Fields};
/// use snd::{Reading, STATUS_OK, Tracing, Turn};
/// # use snd::{Format, Model, Page, Params, PcmInfo, Rate, Refusal, Ring, Sound, Step};
/// # let mut device = Model::new(&[], &[PcmInfo::output(1, 2).to_bytes()], &[])?;
/// # let (mut sound, mut ring, mut page) = (Sound::new(0, 1, 0), Ring::new(), Page::new());
/// # let to = Params { buffer: 8, period: 4, features: 0, channels: 2, format: Format::S16, rate: Rate::Hz48000 };
/// # let mut step = sound.pcm_set_params(&ring, 0, to)?;
/// # while let Step::Send(exchange) = step {
/// #     device.control(exchange.bytes(), &mut page)?;
/// #     step = sound.feed(exchange, &page)?;
/// # }
/// // stream 0 has a period of 4 bytes; this device completes each period at once
/// let mut room = [0xff; trace::room_len(10, 4) + 1];
/// let Tracing::Runs(mut traced) = sound.transfer_traced(&mut ring, 0, b"ten bytes.", 4, &mut room) else { unreachable!() };
/// loop {
///     let reading = match traced.offered()? {
///         Some(offer) => Reading::Completed { slot: offer.slot, status: STATUS_OK },
///         None => Reading::Quiet,
///     };
///     if traced.turn(reading)? == Turn::Done {
///         break;
///     }
/// }
/// assert_eq!(trace::judge(DIRECT, traced.trace()?), Ok(()));
/// assert_eq!(Fields::of(traced.trace()?).nth(1), Some((15, Field::Submitted { slot: 0, offset: 0, length: 4 })));
/// assert_eq!(traced.trace()?.len(), 79);
/// assert_eq!(traced.end().ok(), Some(b"ten bytes."));
/// // what is behind the trace stays
/// assert_eq!(room[78..], [0, 0xff]);
/// # Ok::<(), Refusal>(())
/// ```
#[must_use = "dropped while it runs or a slot is in flight, it leaks its frames"]
pub struct Traced<'r, F: Frames, R: BorrowMut<[u8; RING_SIZE]> = [u8; RING_SIZE]> {
    transfer: Transfer<'r, F, R>,
    room: &'r mut [u8],
}

impl<'r, F: Frames, R: BorrowMut<[u8; RING_SIZE]>> Traced<'r, F, R> {
    /// A transfer that was started with this room.
    pub(crate) fn new(transfer: Transfer<'r, F, R>, room: &'r mut [u8]) -> Self {
        Self { transfer, room }
    }

    /// The period that the next turn submits, or `None` if it submits none: see [`Ring::offered`].
    pub fn offered(&self) -> Result<Option<Offer<'_>>, Refusal> {
        self.transfer.offered()
    }

    /// One turn, with what was seen: see [`Ring::turn_traced`].
    pub fn turn(&mut self, reading: Reading) -> Result<Turn, Refusal> {
        self.transfer.turn_in(self.room, reading)
    }

    /// After a turn that was refused with 2, 6 or 9: frees the oldest slot in flight, see [`Ring::drain_turn`]. It writes nothing.
    pub fn drain_turn(&mut self, reading: Reading) -> Result<(), Refusal> {
        self.transfer.drain_turn(reading)
    }

    /// The ring, to read.
    #[must_use]
    pub fn ring(&self) -> &Ring<R> {
        self.transfer.ring()
    }

    /// The frames, to read.
    #[must_use]
    pub fn frames(&self) -> &[u8] {
        self.transfer.frames()
    }

    /// What was written so far: the room's first bytes. Nothing before the first turn; whole once the transfer has ended, however it did.
    pub fn trace(&self) -> Result<&[u8], Refusal> {
        let length = self.ring().trace_length()?;
        self.room.get(..length).ok_or(Refusal::Unknown)
    }

    /// Gives the frames back, where no transfer runs and nothing is in flight; else the transfer, for more turns or drain turns.
    pub fn end(self) -> Result<F, Self> {
        let Self { transfer, room } = self;
        transfer.end().map_err(|transfer| Self { transfer, room })
    }
}

/// Short: the transfer, and the room by its length.
impl<F: Frames, R: BorrowMut<[u8; RING_SIZE]>> fmt::Debug for Traced<'_, F, R> {
    fn fmt(&self, f: &mut fmt::Formatter<'_>) -> fmt::Result {
        let mut said = f.debug_struct("Traced");
        said.field("transfer", &self.transfer)
            .field("room", &self.room.len())
            .finish()
    }
}
