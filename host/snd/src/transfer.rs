//! A transfer that keeps its frames for as long as a device may read them.
use crate::{Exchange, Offer, RING_SIZE, Reading, Refusal, Ring, Turn};
use core::borrow::BorrowMut;
use core::fmt;
use core::mem::ManuallyDrop;

/// Bytes that stand still and stay as they are while a [`Transfer`] has them: `&'static [u8]`, `&'static [u8; N]`, `&'static mut [u8]`,
/// and with the feature `alloc` `Vec<u8>` and `Box<[u8]>`. Nothing else can be: a borrow that ends may end while a device still reads.
pub trait Frames: sealed::Stable {}

mod sealed {
    /// Where the bytes stand: the same place at every call, also after a move.
    pub trait Stable {
        #[doc(hidden)]
        fn stable(&self) -> &[u8];
    }
}
pub(crate) use sealed::Stable;

/// Types whose bytes are what they point to.
macro_rules! frames {
    ($($(#[$attribute:meta])* [$($of:tt)*] $frames:ty;)*) => {
        $($(#[$attribute])* impl<$($of)*> Frames for $frames {}
        $(#[$attribute])* impl<$($of)*> Stable for $frames {
            fn stable(&self) -> &[u8] {
                &self[..]
            }
        })*
    };
}

#[cfg(feature = "alloc")]
extern crate alloc;

frames! {
    [] &'static [u8];
    [] &'static mut [u8];
    [const N: usize] &'static [u8; N];
    #[cfg(feature = "alloc")] [] alloc::vec::Vec<u8>;
    #[cfg(feature = "alloc")] [] alloc::boxed::Box<[u8]>;
}

/// What came of [`crate::Sound::transfer`].
#[must_use = "a transfer that runs keeps every call Busy, and a refused one gives its frames back"]
pub enum Started<'r, F: Frames, R: BorrowMut<[u8; RING_SIZE]> = [u8; RING_SIZE]> {
    /// It runs: take its turns.
    Runs(Transfer<'r, F, R>),
    /// Set-up had to begin, and nothing runs: no stream has parameters before set-up is done. Feed the exchange to its end, which is a
    /// refusal (1, 2, 5 or 7, 11 in strict mode, and 12 for 2 under the guard); then set the parameters and start again. Here are the frames.
    SetUp(Exchange<()>, F),
    /// It was refused, and here are the frames.
    Refused(Refusal, F),
}

/// Short: the frames by their length.
impl<F: Frames, R: BorrowMut<[u8; RING_SIZE]>> fmt::Debug for Started<'_, F, R> {
    fn fmt(&self, f: &mut fmt::Formatter<'_>) -> fmt::Result {
        match self {
            Self::Runs(transfer) => f.debug_tuple("Runs").field(transfer).finish(),
            Self::SetUp(exchange, frames) => write!(f, "SetUp({exchange:?}, {} bytes)", frames.stable().len()),
            Self::Refused(refusal, frames) => write!(f, "Refused({refusal:?}, {} bytes)", frames.stable().len()),
        }
    }
}

/// A transfer with its ring and its frames: [`crate::Sound::transfer`] starts one.
///
/// It takes the frames, so that safe code can neither free nor replace them while a device reads them. [`Transfer::end`] gives them back
/// once no transfer runs and nothing is in flight. A transfer that is dropped before that, or forgotten, leaks its frames and never frees
/// them; what the ring says stays: every call is [`Refusal::Busy`] until [`Ring::drain_turn`] has freed what is owed.
///
/// That rests on readings that were seen, and on a ring whose store is the same bytes at each look.
///
/// ```
/// use snd::{Reading, STATUS_OK, Started, Turn};
/// # use snd::{Format, Model, Page, Params, PcmInfo, Rate, Refusal, Ring, Sound, Step};
/// # let mut device = Model::new(&[], &[PcmInfo::output(1, 2).to_bytes()], &[])?;
/// # let (mut sound, mut ring, mut page) = (Sound::new(0, 1, 0), Ring::new(), Page::new());
/// # let to = Params { buffer: 8, period: 4, features: 0, channels: 2, format: Format::S16, rate: Rate::Hz48000 };
/// # let mut step = sound.pcm_set_params(&ring, 0, to)?;
/// # while let Step::Send(exchange) = step {
/// #     device.control(exchange.bytes(), &mut page)?;
/// #     step = sound.feed(exchange, &page)?;
/// # }
/// // stream 0 has a period of 4 bytes; this device completes each period at once
/// let Started::Runs(mut transfer) = sound.transfer(&mut ring, 0, b"ten bytes.", 4) else { unreachable!() };
/// let mut lengths = vec![];
/// loop {
///     let mut reading = Reading::Quiet;
///     if let Some(offer) = transfer.offered()? {
///         lengths.push(offer.period.len());
///         reading = Reading::Completed { slot: offer.slot, status: STATUS_OK };
///     }
///     if transfer.turn(reading)? == Turn::Done {
///         break;
///     }
/// }
/// assert_eq!((lengths, transfer.ring().turns_run()?), (vec![4, 4, 2], 4));
/// assert_eq!(transfer.end().ok(), Some(b"ten bytes."));
/// # Ok::<(), Refusal>(())
/// ```
///
/// A turn that is refused may end the transfer with slots in flight: drain turns follow.
///
/// ```
/// # use snd::{Format, Model, Page, Params, PcmInfo, Rate, Reading, Refusal, Ring, STATUS_OK, Sound, Started, Step, Turn};
/// # let mut device = Model::new(&[], &[PcmInfo::output(1, 2).to_bytes()], &[])?;
/// # let (mut sound, mut ring, mut page) = (Sound::new(0, 1, 0), Ring::new(), Page::new());
/// # let to = Params { buffer: 8, period: 4, features: 0, channels: 2, format: Format::S16, rate: Rate::Hz48000 };
/// # let mut step = sound.pcm_set_params(&ring, 0, to)?;
/// # while let Step::Send(exchange) = step {
/// #     device.control(exchange.bytes(), &mut page)?;
/// #     step = sound.feed(exchange, &page)?;
/// # }
/// let Started::Runs(mut transfer) = sound.transfer(&mut ring, 0, b"4 by", 1) else { unreachable!() };
/// assert_eq!(transfer.turn(Reading::Quiet), Err(Refusal::OutOfTurns));
/// let Err(mut transfer) = transfer.end() else { unreachable!("a device still reads") };
/// transfer.drain_turn(Reading::Completed { slot: 0, status: STATUS_OK })?;
/// assert!(transfer.end().is_ok());
/// # Ok::<(), Refusal>(())
/// ```
///
/// Frames cannot be had back early, be they lent or given:
///
/// ```compile_fail,E0382
/// # use snd::{Ring, Sound, Started};
/// # let (mut sound, mut ring) = (Sound::new(0, 1, 0), Ring::new());
/// let frames = vec![0; 8];
/// let Started::Runs(transfer) = sound.transfer(&mut ring, 0, frames, 9) else { unreachable!() };
/// drop(frames);
/// ```
///
/// ```compile_fail,E0597
/// # use snd::{Ring, Sound, Started};
/// # let (mut sound, mut ring) = (Sound::new(0, 1, 0), Ring::new());
/// let frames = [0; 8];
/// let Started::Runs(transfer) = sound.transfer(&mut ring, 0, &frames, 9) else { unreachable!() };
/// ```
///
/// nor can the ring that knows what is in flight be replaced while the transfer is there:
///
/// ```compile_fail,E0506
/// # use snd::{Ring, Sound, Started};
/// # let (mut sound, mut ring) = (Sound::new(0, 1, 0), Ring::new());
/// let Started::Runs(transfer) = sound.transfer(&mut ring, 0, b"8 bytes.", 9) else { unreachable!() };
/// ring = Ring::new();
/// let frames = transfer.end();
/// ```
#[must_use = "dropped while it runs or a slot is in flight, it leaks its frames"]
pub struct Transfer<'r, F: Frames, R: BorrowMut<[u8; RING_SIZE]> = [u8; RING_SIZE]> {
    ring: &'r mut Ring<R>,
    /// There until they are given back. Not dropped with the transfer, so that to free them is an act of its own.
    frames: Option<ManuallyDrop<F>>,
}

impl<'r, F: Frames, R: BorrowMut<[u8; RING_SIZE]>> Transfer<'r, F, R> {
    /// A transfer that was started on this ring with these frames.
    pub(crate) fn new(ring: &'r mut Ring<R>, frames: F) -> Self {
        let frames = Some(ManuallyDrop::new(frames));
        Self { ring, frames }
    }

    /// The period that the next turn submits, or `None` if it submits none: see [`Ring::offered`].
    pub fn offered(&self) -> Result<Option<Offer<'_>>, Refusal> {
        self.ring.offered(self.frames())
    }

    /// One turn, with what was seen: see [`Ring::turn`]. Once shown, a period may be with the device, and this turn takes it as submitted.
    pub fn turn(&mut self, reading: Reading) -> Result<Turn, Refusal> {
        self.ring.turn(bytes(&self.frames), reading)
    }

    /// One turn that writes its fields into a room.
    pub(crate) fn turn_in(&mut self, room: &mut [u8], reading: Reading) -> Result<Turn, Refusal> {
        self.ring.turn_traced(bytes(&self.frames), room, reading)
    }

    /// After a turn that was refused with 2, 6 or 9: frees the oldest slot in flight, see [`Ring::drain_turn`].
    pub fn drain_turn(&mut self, reading: Reading) -> Result<(), Refusal> {
        self.ring.drain_turn(reading)
    }

    /// The ring, to read.
    #[must_use]
    pub fn ring(&self) -> &Ring<R> {
        self.ring
    }

    /// The frames, to read.
    #[must_use]
    pub fn frames(&self) -> &[u8] {
        bytes(&self.frames)
    }

    /// Gives the frames back, where no transfer runs and nothing is in flight; else the transfer, for more turns or drain turns.
    pub fn end(mut self) -> Result<F, Self> {
        self.freed().ok_or(self)
    }

    /// The frames, where no device reads them. While the transfer runs one may: the period that was offered may have been submitted already.
    fn freed(&mut self) -> Option<F> {
        let over = self.ring.running() == Ok(false) && self.ring.in_flight() == Ok(0);
        let frames = if over { self.frames.take() } else { None };
        frames.map(ManuallyDrop::into_inner)
    }
}

/// The bytes of frames; they are there as long as the transfer is.
fn bytes<F: Frames>(frames: &Option<ManuallyDrop<F>>) -> &[u8] {
    frames.as_ref().map_or(&[], |frames| frames.stable())
}

impl<F: Frames, R: BorrowMut<[u8; RING_SIZE]>> Drop for Transfer<'_, F, R> {
    fn drop(&mut self) {
        drop(self.freed());
    }
}

/// Short: the ring, and the frames by their length.
impl<F: Frames, R: BorrowMut<[u8; RING_SIZE]>> fmt::Debug for Transfer<'_, F, R> {
    fn fmt(&self, f: &mut fmt::Formatter<'_>) -> fmt::Result {
        let mut said = f.debug_struct("Transfer");
        said.field("ring", &self.ring)
            .field("bytes", &self.frames().len())
            .finish()
    }
}

#[cfg(test)]
mod tests {
    use super::{Frames, Stable, Started, Transfer};
    use crate::{
        Format, Model, Page, Params, PcmInfo, Rate, Reading, Refusal, Ring, STATUS_OK, Sound, Status, Step, Turn,
    };
    use core::cell::Cell;

    /// Frames that tell when they are freed.
    struct Counted<'c>(&'c Cell<u32>);

    impl Frames for Counted<'_> {}
    impl Stable for Counted<'_> {
        fn stable(&self) -> &[u8] {
            b"ten bytes."
        }
    }

    impl Drop for Counted<'_> {
        fn drop(&mut self) {
            self.0.set(self.0.get().wrapping_add(1));
        }
    }

    /// A state whose stream 0 has a period of 4 bytes.
    fn set() -> Result<Sound, Refusal> {
        let mut device = Model::new(&[], &[PcmInfo::output(1, 2).to_bytes()], &[])?;
        let (mut sound, mut page) = (Sound::new(0, 1, 0), Page::new());
        let to = Params {
            buffer: 8,
            period: 4,
            features: 0,
            channels: 2,
            format: Format::S16,
            rate: Rate::Hz48000,
        };
        let mut step = sound.pcm_set_params(&Ring::new(), 0, to)?;
        while let Step::Send(exchange) = step {
            device.control(exchange.bytes(), &mut page)?;
            step = sound.feed(exchange, &page)?;
        }
        Ok(sound)
    }

    const fn completed(slot: u32) -> Reading {
        Reading::Completed {
            slot,
            status: STATUS_OK,
        }
    }

    /// A transfer that runs.
    fn runs<'r, 'c>(
        sound: &mut Sound,
        ring: &'r mut Ring,
        freed: &'c Cell<u32>,
        budget: u64,
    ) -> Result<Transfer<'r, Counted<'c>>, Refusal> {
        match sound.transfer(ring, 0, Counted(freed), budget) {
            Started::Runs(transfer) => Ok(transfer),
            Started::SetUp(..) => Err(Refusal::Unknown),
            Started::Refused(refusal, _) => Err(refusal),
        }
    }

    #[test]
    fn dropped_in_flight_they_are_never_freed() -> Result<(), Refusal> {
        let (mut sound, mut ring, freed) = (set()?, Ring::new(), Cell::new(0));
        let mut transfer = runs(&mut sound, &mut ring, &freed, 2)?;
        assert_eq!(transfer.turn(Reading::Quiet), Ok(Turn::Going));
        assert_eq!(transfer.turn(Reading::Quiet), Err(Refusal::OutOfTurns));
        drop(transfer);
        // the ring knows what is owed, and calls are Busy until it is drained
        assert_eq!((ring.in_flight(), freed.get()), (Ok(2), 0));
        assert_eq!(sound.pcm_stop(&ring, 0), Err(Refusal::Busy));
        ring.drain_turn(completed(0))?;
        ring.drain_turn(completed(1))?;
        assert!(matches!(sound.pcm_stop(&ring, 0), Ok(Step::Send(_))));
        assert_eq!(freed.get(), 0);
        Ok(())
    }

    #[test]
    fn dropped_while_it_runs_they_are_never_freed() -> Result<(), Refusal> {
        // nothing is in flight by the ring, and what was offered may be with the device
        let (mut sound, mut ring, freed) = (set()?, Ring::new(), Cell::new(0));
        let transfer = runs(&mut sound, &mut ring, &freed, 9)?;
        let _submitted = transfer.offered()?;
        drop(transfer);
        assert_eq!((ring.running(), ring.in_flight(), freed.get()), (Ok(true), Ok(0), 0));
        assert_eq!(sound.pcm_stop(&ring, 0), Err(Refusal::Busy));
        Ok(())
    }

    #[test]
    fn forgotten_they_are_never_freed() -> Result<(), Refusal> {
        let (mut sound, mut ring, freed) = (set()?, Ring::new(), Cell::new(0));
        core::mem::forget(runs(&mut sound, &mut ring, &freed, 9)?);
        assert_eq!((ring.running(), freed.get()), (Ok(true), 0));
        Ok(())
    }

    #[test]
    fn dropped_when_it_is_over_they_are_freed() -> Result<(), Refusal> {
        let (mut sound, mut ring, freed) = (set()?, Ring::new(), Cell::new(0));
        let mut transfer = runs(&mut sound, &mut ring, &freed, 9)?;
        for slot in 0..3 {
            assert_eq!(transfer.turn(completed(slot)), Ok(Turn::Going));
        }
        assert_eq!(transfer.turn(Reading::Quiet), Ok(Turn::Done));
        assert_eq!(freed.get(), 0);
        drop(transfer);
        assert_eq!(freed.get(), 1);
        // a transfer that failed with nothing else in flight
        let mut transfer = runs(&mut sound, &mut ring, &freed, 9)?;
        let failed = Reading::Completed { slot: 0, status: 0 };
        assert_eq!(transfer.turn(failed), Err(Refusal::IoError(Some(Status::Other(0)))));
        drop(transfer);
        assert_eq!(freed.get(), 2);
        Ok(())
    }

    #[test]
    fn the_end_waits_for_what_is_in_flight() -> Result<(), Refusal> {
        let (mut sound, mut ring, freed) = (set()?, Ring::new(), Cell::new(0));
        let transfer = runs(&mut sound, &mut ring, &freed, 2)?;
        let Err(mut transfer) = transfer.end() else {
            return Err(Refusal::Unknown);
        };
        assert_eq!(transfer.turn(Reading::Quiet), Ok(Turn::Going));
        assert_eq!(transfer.turn(completed(1)), Err(Refusal::WrongToken));
        for slot in 0..2 {
            let Err(mut owing) = transfer.end() else {
                return Err(Refusal::Unknown);
            };
            assert_eq!((owing.frames(), freed.get()), (&b"ten bytes."[..], 0));
            owing.drain_turn(completed(slot))?;
            transfer = owing;
        }
        let frames = transfer.end().map_err(|_owing| Refusal::Unknown)?;
        assert_eq!((frames.stable(), freed.get()), (&b"ten bytes."[..], 0));
        drop(frames);
        assert_eq!(freed.get(), 1);
        Ok(())
    }

    #[test]
    fn frames_come_back_from_what_does_not_run() -> Result<(), Refusal> {
        let (mut sound, mut ring, freed) = (set()?, Ring::new(), Cell::new(0));
        for (stream, budget, refusal) in [(1, 9, Refusal::InvalidParam), (0, 0, Refusal::OutOfTurns)] {
            let Started::Refused(said, frames) = sound.transfer(&mut ring, stream, Counted(&freed), budget) else {
                return Err(Refusal::Unknown);
            };
            assert_eq!((said, freed.replace(0)), (refusal, 0));
            drop(frames);
            assert_eq!(freed.replace(0), 1);
        }
        let Started::SetUp(jacks, frames) = Sound::new(0, 1, 0).transfer(&mut ring, 0, Counted(&freed), 9) else {
            return Err(Refusal::Unknown);
        };
        assert_eq!((jacks.bytes().len(), freed.get(), ring.running()), (16, 0, Ok(false)));
        drop(frames);
        assert_eq!(freed.get(), 1);
        Ok(())
    }
}
