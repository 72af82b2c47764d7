//! A transfer, turn by turn.
use crate::answer::Said;
use crate::bytes::{Results, part_at, size_at, u64_at};
use crate::layout::{is_indirect, new_ring};
use crate::step::{narrow, slot_if_there, told};
use crate::trace::{DIRECT, INDIRECT};
use crate::{Captured, RING_SIZE, Refusal, Room, ffi};
use core::borrow::{Borrow, BorrowMut};
use core::fmt;

/// What the host saw on the queue in a turn.
#[derive(Clone, Copy, PartialEq, Eq, Debug)]
pub enum Reading {
    /// Nothing was completed.
    Quiet,
    /// The device has completed a slot, or a submission that does not wait, with this status.
    Completed {
        /// The slot that the device names; of what does not wait, the token. Any number is safe; one that is not the oldest in flight is [`Refusal::WrongToken`]. A queue
        /// entry that names nothing you have out, as after a reset, is passed as `u32::MAX`.
        slot: u32,
        /// The status in the device's answer; 0x8000 is ok.
        status: u32,
    },
}

impl Reading {
    /// Kind, slot and status, as the entries take them.
    pub(crate) const fn numbers(self) -> (u32, u32, u32) {
        match self {
            Self::Quiet => (0, 0, 0),
            Self::Completed { slot, status } => (1, slot, status),
        }
    }
}

/// How a turn left the transfer, if it was not refused.
#[derive(Clone, Copy, PartialEq, Eq, Debug)]
#[must_use = "it says whether the transfer is over"]
pub enum Turn {
    /// It runs: another turn.
    Going,
    /// It is over, with Ok: the device has accepted every period, or of a capture completed every one well. What was to be played may not be
    /// played yet: wait before a stop.
    Done,
}

impl Turn {
    /// What the entry of a turn answers.
    const fn of(answer: u64) -> Result<Self, Refusal> {
        match Said::of(answer) {
            Said::Going => Ok(Self::Going),
            Said::Ok => Ok(Self::Done),
            Said::Refused(refusal) => Err(refusal),
            Said::Send(_) | Said::Nothing => Err(Refusal::Unknown),
        }
    }
}

/// The period that the next turn submits.
#[derive(Clone, Copy, PartialEq, Eq, Debug)]
#[must_use = "the next turn takes it as submitted: hand it to the device first"]
pub struct Offer<'f> {
    /// The slot to submit it in.
    pub slot: u32,
    /// Where it begins in the frames.
    pub offset: usize,
    /// That part of the frames itself.
    pub period: &'f [u8],
}

/// Where in the frames the bytes of a slot stand.
#[derive(Clone, Copy, PartialEq, Eq, Debug)]
pub struct Carried {
    /// Where they begin.
    pub offset: usize,
    /// How many they are.
    pub length: usize,
}

/// The record of a transfer in a byte store, owned (`Ring`) or lent (`Ring<&mut [u8; RING_SIZE]>`).
///
/// ```
/// use snd::{Ring, RING_SIZE};
/// let mut store = [0; RING_SIZE];
/// let ring = Ring::new_in(&mut store);
/// assert!(!ring.running()?);
/// assert_eq!(ring.free_descriptors()?, 32);
/// assert_eq!(format!("{ring:?}"), "Ring { running: false, in_flight: 0, stream: 0, turns_run: 0 }");
///
/// // one that is there from the start
/// static RING: std::sync::Mutex<Ring> = std::sync::Mutex::new(Ring::new());
/// # Ok::<(), snd::Refusal>(())
/// ```
#[derive(Clone, PartialEq, Eq)]
pub struct Ring<R = [u8; RING_SIZE]>(R);

impl Ring {
    /// A ring with nothing in flight. For a device that held periods, a reset and a new ring are not enough: see "After a reset" in
    /// docs/HOST.md.
    #[must_use]
    pub const fn new() -> Self {
        Self(new_ring(DIRECT))
    }

    /// The same for a queue with indirect descriptors, for good: a submission takes one of them and goes out whenever a slot is free, so that 32
    /// may be in flight, and [`crate::Places::new_indirect`] has as many places. Every call is the same with both. Make the ring from the features
    /// that were negotiated with the device (`VIRTIO_F_INDIRECT_DESC`, bit 28), and keep to one ring a state.
    ///
    /// ```
    /// # use snd::{Format, Model, Page, Params, PcmInfo, Rate, Reading, Refusal, Ring, STATUS_OK, Sound, Step, Turn};
    /// # let mut device = Model::new(&[], &[PcmInfo::output(1, 2).to_bytes()], &[])?;
    /// # let (mut sound, mut ring, mut page) = (Sound::new(0, 1, 0), Ring::new_indirect(), Page::new());
    /// # let to = Params { buffer: 8, period: 4, features: 0, channels: 2, format: Format::S16, rate: Rate::Hz48000 };
    /// # let mut step = sound.pcm_set_params(&ring, 0, to)?;
    /// # while let Step::Send(exchange) = step {
    /// #     device.control(exchange.bytes(), &mut page)?;
    /// #     step = sound.feed(exchange, &page)?;
    /// # }
    /// // 33 periods of 4 bytes, and nothing comes back
    /// let frames = [7; 33 * 4];
    /// assert_eq!(sound.pcm_xfer_start(&mut ring, 0, &frames, 99)?, Step::Done(()));
    /// for _ in 0..40 {
    ///     assert_eq!(ring.turn(&frames, Reading::Quiet)?, Turn::Going);
    /// }
    /// assert_eq!((ring.in_flight()?, ring.free_descriptors()?), (32, 0));
    /// assert_eq!(ring.offered(&frames)?, None);
    /// assert_eq!(ring.turn(&frames, Reading::Completed { slot: 0, status: STATUS_OK })?, Turn::Going);
    /// assert_eq!(ring.offered(&frames)?.map(|offer| offer.slot), Some(0));
    /// # Ok::<(), Refusal>(())
    /// ```
    #[must_use]
    pub const fn new_indirect() -> Self {
        Self(new_ring(INDIRECT))
    }
}

impl Default for Ring {
    fn default() -> Self {
        Self::new()
    }
}

impl<R: Borrow<[u8; RING_SIZE]>> Ring<R> {
    /// The ring that stands in your store. Any bytes are safe: an inconsistent ring is refused with 1.
    #[must_use]
    pub fn over(store: R) -> Self {
        Self(store)
    }

    /// The store's bytes.
    #[must_use]
    pub fn store(&self) -> &[u8; RING_SIZE] {
        self.0.borrow()
    }

    /// Whether it was made for indirect descriptors.
    #[must_use]
    pub fn indirect(&self) -> bool {
        is_indirect(self.store())
    }
}

/// Short: what runs and what is in flight, or that the store is inconsistent.
impl<R: Borrow<[u8; RING_SIZE]>> fmt::Debug for Ring<R> {
    fn fmt(&self, f: &mut fmt::Formatter<'_>) -> fmt::Result {
        let reads = (self.running(), self.in_flight(), self.stream(), self.turns_run());
        let (Ok(running), Ok(in_flight), Ok(stream), Ok(turns_run)) = reads else {
            return f.write_str("Ring(inconsistent)");
        };
        let mut said = f.debug_struct("Ring");
        if self.indirect() {
            said.field("indirect", &true);
        }
        said.field("running", &running).field("in_flight", &in_flight);
        said.field("stream", &stream).field("turns_run", &turns_run).finish()
    }
}

/// Turns, for hosts that keep the frames themselves; [`crate::Transfer`] keeps them for you. The host asks what is offered, submits it to
/// the device, polls the queue once, and runs the turn with what it saw. The order matters: a turn takes the offered period as submitted,
/// also where it ends the transfer.
///
/// **Keep the frames.** A turn borrows them for the call alone, and the device reads a period from its submission until its slot is freed.
/// Until no transfer runs and nothing is in flight ([`Ring::running`], [`Ring::in_flight`]), drain turns included, they must be neither
/// freed nor changed, and nothing here sees to it.
///
/// ```
/// use snd::{Model, Page, Reading, Refusal, Ring, Sound, Step, Turn, STATUS_OK};
/// # use snd::{Format, Params, PcmInfo, Rate};
/// # let mut device = Model::new(&[], &[PcmInfo::output(1, 2).to_bytes()], &[])?;
/// # let (mut sound, mut ring, mut page) = (Sound::new(0, 1, 0), Ring::new(), Page::new());
/// # let to = Params { buffer: 8, period: 4, features: 0, channels: 2, format: Format::S16, rate: Rate::Hz48000 };
/// # let mut step = sound.pcm_set_params(&ring, 0, to)?;
/// # while let Step::Send(exchange) = step {
/// #     device.control(exchange.bytes(), &mut page)?;
/// #     step = sound.feed(exchange, &page)?;
/// # }
/// // stream 0 has a period of 4 bytes; this device completes each period at once
/// let frames = b"ten bytes.";
/// assert_eq!(sound.pcm_xfer_start(&mut ring, 0, frames, 4)?, Step::Done(()));
/// let mut lengths = vec![];
/// loop {
///     let mut reading = Reading::Quiet;
///     if let Some(offer) = ring.offered(frames)? {
///         lengths.push(offer.period.len());
///         reading = Reading::Completed { slot: offer.slot, status: STATUS_OK };
///     }
///     if ring.turn(frames, reading)? == Turn::Done {
///         break;
///     }
/// }
/// assert_eq!((lengths, ring.turns_run()?), (vec![4, 4, 2], 4));
/// # Ok::<(), Refusal>(())
/// ```
impl<R: BorrowMut<[u8; RING_SIZE]>> Ring<R> {
    /// A ring with nothing in flight in your store; what it held is gone.
    #[must_use]
    pub fn new_in(mut store: R) -> Self {
        // the one refusal is 10, for a short store
        let _ok = ffi::snd_ring_new(store.borrow_mut());
        Self(store)
    }

    /// The same for indirect descriptors: see [`Ring::new_indirect`].
    #[must_use]
    pub fn new_indirect_in(mut store: R) -> Self {
        let _ok = ffi::snd_ring_new_indirect(store.borrow_mut());
        Self(store)
    }

    pub(crate) fn store_mut(&mut self) -> &mut [u8; RING_SIZE] {
        self.0.borrow_mut()
    }

    /// One turn. `frames` are those of the start, unchanged and in the same place: the device reads them until their slots are freed.
    ///
    /// [`Refusal::IoError`], which carries the completion's status, [`Refusal::WrongToken`] and [`Refusal::OutOfTurns`] end the transfer, and
    /// what is then in flight is owed: see [`Ring::drain_turn`]. A reading that is refused with `WrongToken` frees nothing, and is to be kept for the drain.
    pub fn turn(&mut self, frames: &[u8], reading: Reading) -> Result<Turn, Refusal> {
        let (kind, slot, status) = reading.numbers();
        Turn::of(ffi::snd_turn(self.store_mut(), frames, kind, slot, status))
    }

    /// One turn of a transfer that writes a trace: [`Ring::turn`], and its fields are written into the room behind those of the turns before; the
    /// first turn writes the start before its own. Frames and room are as long as at the start, else [`Refusal::BadLength`];
    /// [`Refusal::InvalidParam`] where no playback runs, or this store is none that a traced start left. A turn that is refused so is none
    /// and writes nothing. No byte behind the trace changes.
    ///
    /// [`Ring::turn`] is the turn with an empty room: it is refused with `BadLength` on a transfer that was started with one, as this one is
    /// with a room on any other.
    pub fn turn_traced(&mut self, frames: &[u8], room: &mut [u8], reading: Reading) -> Result<Turn, Refusal> {
        let (kind, slot, status) = reading.numbers();
        Turn::of(ffi::snd_turn_traced(self.store_mut(), frames, room, kind, slot, status))
    }

    /// One turn of a capture. `recording` is as long as at the start; an accepted payload is copied behind what was kept before, and no other
    /// byte of it changes.
    ///
    /// Refused in this order: [`Refusal::BadLength`] for a recording of another length than at the start, and for fewer bytes than were
    /// written, as far as a period and 8 go; [`Refusal::InvalidParam`] where no capture runs; neither counts as a turn. Then, and each ends the
    /// capture, [`Refusal::WrongToken`], [`Refusal::BadCapture`] for a written length under 8 or above a period and 8,
    /// [`Refusal::IoError`] with the status, and [`Refusal::OutOfTurns`]. What was accepted before stays, and what is then in flight is
    /// owed: see [`Ring::drain_turn`].
    pub fn capture_turn(&mut self, recording: &mut [u8], seen: Captured<'_>) -> Result<Turn, Refusal> {
        let (kind, slot, written, bytes) = seen.parts();
        Turn::of(ffi::snd_capture_turn(
            self.store_mut(),
            recording,
            kind,
            slot,
            written,
            bytes,
        ))
    }

    /// After a transfer that failed: frees the oldest slot in flight, whatever its status, once the device has completed it. Another slot
    /// is [`Refusal::WrongToken`] and frees none. The frames are to be kept until [`Ring::in_flight`] is 0.
    ///
    /// A completion out of order is consumed by the turn or drain turn that refuses it. Its slot is owed for good, and every call is
    /// [`Refusal::Busy`], unless you pass that completion again when its slot is [`Ring::oldest`]:
    ///
    /// ```
    /// # use snd::{Format, Model, Page, Params, PcmInfo, Rate, Reading, Refusal, Ring, STATUS_OK, Sound, Step, Turn};
    /// # let mut device = Model::new(&[], &[PcmInfo::output(1, 2).to_bytes()], &[])?;
    /// # let (mut sound, mut ring, mut page) = (Sound::new(0, 1, 0), Ring::new(), Page::new());
    /// # let to = Params { buffer: 8, period: 4, features: 0, channels: 2, format: Format::S16, rate: Rate::Hz48000 };
    /// # let mut step = sound.pcm_set_params(&ring, 0, to)?;
    /// # while let Step::Send(exchange) = step {
    /// #     device.control(exchange.bytes(), &mut page)?;
    /// #     step = sound.feed(exchange, &page)?;
    /// # }
    /// // periods of 4 bytes; the second comes back before the first
    /// let frames = b"8 bytes.";
    /// let (first, second) = (Reading::Completed { slot: 0, status: STATUS_OK }, Reading::Completed { slot: 1, status: STATUS_OK });
    /// assert_eq!(sound.pcm_xfer_start(&mut ring, 0, frames, 9)?, Step::Done(()));
    /// assert_eq!(ring.turn(frames, Reading::Quiet)?, Turn::Going);
    /// assert_eq!(ring.turn(frames, second), Err(Refusal::WrongToken));
    /// ring.drain_turn(first)?;
    /// assert_eq!(ring.oldest()?, Some(1)); // the device has no period left, and this slot is owed
    /// ring.drain_turn(second)?;
    /// assert_eq!(ring.oldest()?, None);
    /// # Ok::<(), Refusal>(())
    /// ```
    pub fn drain_turn(&mut self, reading: Reading) -> Result<(), Refusal> {
        let (kind, slot, status) = reading.numbers();
        Said::done(ffi::snd_drain_turn(self.store_mut(), kind, slot, status))
    }
}

/// Reads. None changes the ring.
impl<R: Borrow<[u8; RING_SIZE]>> Ring<R> {
    fn read(&self, entry: fn(&[u8], &mut [u8]) -> u64) -> Result<u64, Refusal> {
        told(|result| entry(self.store(), result), |result| u64_at(result, 0))
    }

    /// The period that the next turn submits, or `None` if it submits none. Refuses what the turn would refuse.
    ///
    /// The borrow ends with your use of the offer, the device's reading later: once submitted, the period must stay as it is and where it is
    /// until its slot is freed.
    pub fn offered<'f>(&self, frames: &'f [u8]) -> Result<Option<Offer<'f>>, Refusal> {
        told(
            |result| ffi::snd_offered(self.store(), frames, result),
            |result| offer_in(frames, result),
        )?
    }

    /// The room for a period that the next turn of a capture submits, or `None` if it submits none. Refuses what the turn would refuse. Of the
    /// recording only the length is looked at.
    pub fn capture_offered(&self, recording: &[u8]) -> Result<Option<Room>, Refusal> {
        told(
            |result| ffi::snd_capture_offered(self.store(), recording, result),
            Room::read,
        )?
    }

    /// How many bytes a capture has accepted: the recording's first. Of a playback 0.
    pub fn kept(&self) -> Result<usize, Refusal> {
        told(
            |result| ffi::snd_ring_kept(self.store(), result),
            |result| size_at(result, 0),
        )
    }

    /// How many periods the device has accepted of the transfer or capture that runs, or of the last that ran: its completions, each of the
    /// oldest slot, with ok, and of a capture with a good length. Drain turns and a start that is refused leave it as it is.
    ///
    /// So this is how much of a playback was spoken before it failed: the frames' first periods, as many. Of [`Refusal::IoError`] the next
    /// is the one that failed; those that were in flight at the end follow without a gap. [`Ring::spoken_bytes`] has it in bytes.
    ///
    /// ```
    /// # use snd::{Format, Model, Page, Params, PcmInfo, Rate, Reading, Refusal, Ring, STATUS_OK, Sound, Status, Step, Turn};
    /// # let mut device = Model::new(&[], &[PcmInfo::output(1, 2).to_bytes()], &[])?;
    /// # let (mut sound, mut ring, mut page) = (Sound::new(0, 1, 0), Ring::new(), Page::new());
    /// # let to = Params { buffer: 8, period: 4, features: 0, channels: 2, format: Format::S16, rate: Rate::Hz48000 };
    /// # let mut step = sound.pcm_set_params(&ring, 0, to)?;
    /// # while let Step::Send(exchange) = step {
    /// #     device.control(exchange.bytes(), &mut page)?;
    /// #     step = sound.feed(exchange, &page)?;
    /// # }
    /// // periods of 4, 4 and 2 bytes; the second fails while the third is out
    /// let frames = b"ten bytes.";
    /// let (good, failed) = (Reading::Completed { slot: 0, status: STATUS_OK }, Reading::Completed { slot: 1, status: 0x8003 });
    /// assert_eq!(sound.pcm_xfer_start(&mut ring, 0, frames, 9)?, Step::Done(()));
    /// assert_eq!(ring.turn(frames, Reading::Quiet)?, Turn::Going);
    /// assert_eq!(ring.turn(frames, good)?, Turn::Going);
    /// assert_eq!(ring.turn(frames, failed), Err(Refusal::IoError(Some(Status::IoError))));
    /// assert_eq!((ring.accepted()?, ring.spoken_bytes(4, frames.len())?), (1, 4));
    /// assert_eq!(ring.carried(2)?.offset, 8); // what is owed follows the one that failed
    /// ring.drain_turn(Reading::Completed { slot: 2, status: STATUS_OK })?;
    /// assert_eq!(ring.accepted()?, 1);
    /// # Ok::<(), Refusal>(())
    /// ```
    pub fn accepted(&self) -> Result<u64, Refusal> {
        self.read(ffi::snd_ring_accepted)
    }

    /// How many bytes of so many frames, in periods of this size, were spoken: those of the periods that were accepted.
    pub fn spoken_bytes(&self, period: u32, frames_len: usize) -> Result<usize, Refusal> {
        let whole = self.accepted()?.saturating_mul(period.into());
        Ok(usize::try_from(whole).map_or(frames_len, |whole| whole.min(frames_len)))
    }

    /// How long the trace is that this transfer has written, or the last one wrote: the room's first bytes. 0 where no turn ran, or none is
    /// written.
    pub fn trace_length(&self) -> Result<usize, Refusal> {
        told(
            |result| ffi::snd_trace_length(self.store(), result),
            |result| size_at(result, 0),
        )
    }

    /// Whether a transfer or a capture runs.
    pub fn running(&self) -> Result<bool, Refusal> {
        self.read(ffi::snd_ring_running).map(|runs| runs != 0)
    }

    /// How many slots are in flight; after a transfer has ended, how many are owed.
    pub fn in_flight(&self) -> Result<u64, Refusal> {
        self.read(ffi::snd_ring_in_flight)
    }

    /// How many of the 32 descriptors are free: a submission takes three, or one where they are indirect.
    pub fn free_descriptors(&self) -> Result<u64, Refusal> {
        self.read(ffi::snd_ring_free_descriptors)
    }

    /// How many turns the transfer has run, or the last one ran.
    pub fn turns_run(&self) -> Result<u64, Refusal> {
        self.read(ffi::snd_ring_turns_run)
    }

    /// The stream of the transfer, or of the last one.
    pub fn stream(&self) -> Result<u32, Refusal> {
        told(|result| ffi::snd_ring_stream(self.store(), result), narrow)?
    }

    /// What a slot carries, or carried last. A slot of 32 or more is [`Refusal::InvalidParam`].
    pub fn carried(&self, slot: u32) -> Result<Carried, Refusal> {
        told(
            |result| ffi::snd_ring_carried(self.store(), slot as usize, result),
            |result| Carried {
                offset: size_at(result, 0),
                length: size_at(result, 8),
            },
        )
    }

    /// The oldest slot in flight: the one whose completion is due.
    pub fn oldest(&self) -> Result<Option<u32>, Refusal> {
        told(|result| ffi::snd_ring_oldest(self.store(), result), slot_if_there)?
    }
}

/// What a result offers of the frames. A period that is no part of them is no answer.
fn offer_in<'f>(frames: &'f [u8], result: &Results) -> Result<Option<Offer<'f>>, Refusal> {
    let Some(slot) = slot_if_there(result)? else {
        return Ok(None);
    };
    let offset = size_at(result, 16);
    let period = part_at(frames, result, 16).ok_or(Refusal::Unknown)?;
    Ok(Some(Offer { slot, offset, period }))
}
