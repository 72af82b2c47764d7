//! The driver's state and its calls.
use crate::answer::Said;
use crate::bytes::{Results, u64_at};
use crate::layout::{lives, new_state, open, set_up, tokens};
use crate::pending::token;
use crate::step::{Exchange, Page, Step, Unfed, Value, narrow, told};
use crate::{
    Capture, Capturing, ChannelRange, Features, Formats, Frames, Params, Pending, PlaceStore, Places, Rates, Reading,
    Refusal, Ring, Started, StreamList, Submitted, Traced, Tracing, Transfer, ffi,
};
use crate::{MESSAGE_SIZE, PAGE_SIZE, RESULT_SIZE, RING_SIZE, STATE_SIZE};
use core::borrow::{Borrow, BorrowMut};
use core::fmt;

/// The driver's state in a byte store, owned (`Sound`) or lent (`Sound<&mut [u8; STATE_SIZE]>`).
///
/// A call yields a request to send or its result, and each feed yields the next. Set-up runs inside the first call that needs it: its three
/// queries come before the call's own request. A refused call changes nothing but what document 01 names.
///
/// ```
/// use snd::{Ring, Sound, STATE_SIZE};
/// let mut store = [0; STATE_SIZE];
/// let sound = Sound::new_in(&mut store, 2, 1, 0);
/// assert_eq!((sound.jacks()?, sound.streams()?, sound.chmaps()?), (2, 1, 0));
///
/// // the same bytes, found again later
/// let found = Sound::over(&mut store);
/// assert_eq!(found.jacks()?, 2);
/// assert_eq!(format!("{found:?}"), "Sound { jacks: 2, streams: 1, chmaps: 0, set_up: false, open: nothing }");
///
/// // one that is there from the start
/// static SOUND: std::sync::Mutex<Sound> = std::sync::Mutex::new(Sound::new(2, 1, 0));
/// # Ok::<(), snd::Refusal>(())
/// ```
#[derive(Clone, PartialEq, Eq)]
pub struct Sound<S = [u8; STATE_SIZE]>(S);

impl Sound {
    /// A new state, from the counts that the device's configuration names.
    #[must_use]
    pub const fn new(jacks: u32, streams: u32, chmaps: u32) -> Self {
        Self(new_state(jacks, streams, chmaps, false))
    }

    /// A new state that keeps each stream to the standard's lifecycle, for good: of every stream it knows the last command that the device
    /// answered ok, at first set parameters, and what that does not permit is [`Refusal::BadState`] and not sent.
    ///
    /// | After an ok | are permitted |
    /// |---|---|
    /// | set parameters | set parameters, prepare |
    /// | prepare | set parameters, prepare, start, release, transfers |
    /// | start | stop, transfers |
    /// | stop | start, release |
    /// | release | set parameters, prepare |
    ///
    /// The four commands then have their stream in range, as set parameters has: [`Refusal::InvalidParam`]. All else is as without the guard.
    ///
    /// ```
    /// use snd::{Model, Page, PcmInfo, Refusal, Ring, Sound, Step};
    ///
    /// let mut device = Model::new(&[], &[PcmInfo::output(1, 2).to_bytes()], &[])?;
    /// let (mut sound, ring, mut page) = (Sound::new_guarded(0, 1, 0), Ring::new(), Page::new());
    /// let mut finish = |sound: &mut Sound, mut step| loop {
    ///     match step {
    ///         Ok(Step::Done(())) => break Ok(()),
    ///         Err(refusal) => break Err(refusal),
    ///         Ok(Step::Send(exchange)) => {
    ///             device.control(exchange.bytes(), &mut page)?;
    ///             step = sound.feed(exchange, &page);
    ///         }
    ///     }
    /// };
    /// // never prepared: the queries of set-up go out, the start does not
    /// let start = sound.pcm_start(&ring, 0);
    /// assert_eq!(finish(&mut sound, start), Err(Refusal::BadState));
    /// let prepare = sound.pcm_prepare(&ring, 0);
    /// finish(&mut sound, prepare)?;
    /// let start = sound.pcm_start(&ring, 0);
    /// finish(&mut sound, start)?;
    /// # Ok::<(), Refusal>(())
    /// ```
    #[must_use]
    pub const fn new_guarded(jacks: u32, streams: u32, chmaps: u32) -> Self {
        Self(new_state(jacks, streams, chmaps, true))
    }
}

impl<S: BorrowMut<[u8; STATE_SIZE]>> Sound<S> {
    /// A new state in your store; what it held is gone.
    #[must_use]
    pub fn new_in(mut store: S, jacks: u32, streams: u32, chmaps: u32) -> Self {
        // the one refusal is 10, for a short store
        let _ok = ffi::snd_new(store.borrow_mut(), jacks, streams, chmaps);
        Self(store)
    }

    /// A new state in your store that keeps each stream to the standard's lifecycle: see [`Sound::new_guarded`].
    #[must_use]
    pub fn new_guarded_in(mut store: S, jacks: u32, streams: u32, chmaps: u32) -> Self {
        // as above
        let _ok = ffi::snd_new_guarded(store.borrow_mut(), jacks, streams, chmaps);
        Self(store)
    }

    fn state(&mut self) -> &mut [u8] {
        self.0.borrow_mut()
    }
}

impl<S: Borrow<[u8; STATE_SIZE]>> Sound<S> {
    /// The state that stands in your store. Any bytes are safe: every call refuses an inconsistent state with 1.
    #[must_use]
    pub fn over(store: S) -> Self {
        Self(store)
    }

    /// The store's bytes.
    #[must_use]
    pub fn store(&self) -> &[u8; STATE_SIZE] {
        self.0.borrow()
    }

    fn count(&self, entry: fn(&[u8], &mut [u8]) -> u64) -> Result<u32, Refusal> {
        told(|result| entry(self.store(), result), narrow)?
    }

    /// The configured number of jacks. Needs no set-up and is never Busy.
    pub fn jacks(&self) -> Result<u32, Refusal> {
        self.count(ffi::snd_jacks)
    }

    /// The configured number of streams.
    pub fn streams(&self) -> Result<u32, Refusal> {
        self.count(ffi::snd_streams)
    }

    /// The configured number of channel maps.
    pub fn chmaps(&self) -> Result<u32, Refusal> {
        self.count(ffi::snd_chmaps)
    }

    /// How many submissions that do not wait are pending, marked or not. Needs no set-up and is never Busy.
    pub fn pending_count(&self) -> Result<u64, Refusal> {
        told(
            |result| ffi::snd_pending_count(self.store(), result),
            |result| u64_at(result, 0),
        )
    }

    /// What stands under a token. One of 32 or more is [`Refusal::InvalidParam`]; from 16 on none is ever given out.
    pub fn pending_token(&self, token: u32) -> Result<Pending, Refusal> {
        told(
            |result| ffi::snd_pending_token(self.store(), token as usize, result),
            Pending::read,
        )?
    }
}

/// Short: the counts, what is open, under the guard each stream's last ok command, and the tokens that are pending; or that the store is inconsistent.
impl<S: Borrow<[u8; STATE_SIZE]>> fmt::Debug for Sound<S> {
    fn fmt(&self, f: &mut fmt::Formatter<'_>) -> fmt::Result {
        let (Ok(jacks), Ok(streams), Ok(chmaps)) = (self.jacks(), self.streams(), self.chmaps()) else {
            return f.write_str("Sound(inconsistent)");
        };
        let mut said = f.debug_struct("Sound");
        said.field("jacks", &jacks).field("streams", &streams);
        said.field("chmaps", &chmaps).field("set_up", &set_up(self.store()));
        match open(self.store()) {
            None => said.field("open", &format_args!("nothing")),
            Some((answer, call)) => said.field("open", &format_args!("{answer}, for {call}")),
        };
        if let Some(lives) = lives(self.store(), streams) {
            said.field("guarded", &lives);
        }
        if let Some(tokens) = tokens(self.store()) {
            said.field("pending", &tokens);
        }
        said.finish()
    }
}

/// An entry that takes state, ring and stream.
type OfStream = fn(&mut [u8], &[u8], u32, &mut [u8], &mut [u8]) -> u64;

/// Calls. Each is refused with [`Refusal::Busy`] while an exchange is open, a transfer runs or a slot is in flight. What does not wait
/// ([`Places`]) keeps none of them back.
///
/// ```
/// use snd::{Format, Model, Page, Params, PcmInfo, Rate, Refusal, Ring, Sound, Step};
///
/// let mut device = Model::new(&[], &[PcmInfo::output(1, 2).to_bytes()], &[])?;
/// let (mut sound, ring, mut page) = (Sound::new(0, 1, 0), Ring::new(), Page::new());
/// let params =
///     Params { buffer: 8192, period: 2048, features: 0, channels: 2, format: Format::S16, rate: Rate::Hz48000 };
///
/// let mut step = sound.pcm_set_params(&ring, 0, params)?;
/// assert_eq!(sound.pcm_prepare(&ring, 0), Err(Refusal::Busy));
/// while let Step::Send(exchange) = step {
///     device.control(exchange.bytes(), &mut page)?;
///     step = sound.feed(exchange, &page)?;
/// }
/// assert_eq!(device.params(0)?.map(|set| set[8..16].to_vec()), Some(vec![0, 32, 0, 0, 0, 8, 0, 0]));
/// # Ok::<(), Refusal>(())
/// ```
impl<S: BorrowMut<[u8; STATE_SIZE]>> Sound<S> {
    /// A step by `entry`, with a message buffer and a result for it to fill.
    fn step<T: Value>(
        &mut self,
        entry: impl FnOnce(&mut [u8], &mut [u8], &mut Results) -> u64,
    ) -> Result<Step<T>, Refusal> {
        let (mut message, mut result) = ([0; MESSAGE_SIZE], [0; RESULT_SIZE]);
        let answer = entry(self.state(), &mut message, &mut result);
        Step::of(answer, message, self.store(), &result)
    }

    fn of_stream<T: Value>(
        &mut self,
        entry: OfStream,
        ring: &Ring<impl Borrow<[u8; RING_SIZE]>>,
        stream: u32,
    ) -> Result<Step<T>, Refusal> {
        self.step(|state, message, result| entry(state, ring.store(), stream, message, result))
    }

    /// Remaps a jack.
    pub fn jack_remap(
        &mut self,
        ring: &Ring<impl Borrow<[u8; RING_SIZE]>>,
        jack: u32,
        association: u32,
        sequence: u32,
    ) -> Result<Step<()>, Refusal> {
        self.step(|state, message, result| {
            ffi::snd_jack_remap(state, ring.store(), jack, association, sequence, message, result)
        })
    }

    /// Sets a stream's parameters.
    pub fn pcm_set_params(
        &mut self,
        ring: &Ring<impl Borrow<[u8; RING_SIZE]>>,
        stream: u32,
        to: Params,
    ) -> Result<Step<()>, Refusal> {
        let (format, rate) = (to.format as u8, to.rate as u8);
        self.step(|state, message, result| {
            ffi::snd_pcm_set_params(
                state,
                ring.store(),
                stream,
                to.buffer,
                to.period,
                to.features,
                to.channels,
                format,
                rate,
                message,
                result,
            )
        })
    }

    /// Prepares a stream. Not after an ok start or stop under the guard: [`Sound::new_guarded`] has the table.
    pub fn pcm_prepare(&mut self, ring: &Ring<impl Borrow<[u8; RING_SIZE]>>, stream: u32) -> Result<Step<()>, Refusal> {
        self.of_stream(ffi::snd_pcm_prepare, ring, stream)
    }

    /// Releases a stream. Busy while a slot is in flight: a device may give such periods back with ok, unplayed.
    pub fn pcm_release(&mut self, ring: &Ring<impl Borrow<[u8; RING_SIZE]>>, stream: u32) -> Result<Step<()>, Refusal> {
        self.of_stream(ffi::snd_pcm_release, ring, stream)
    }

    /// Starts a stream that was prepared: one that was not may play nothing. [`Sound::new_guarded`] makes a state that sees to it. A transfer comes after it: see [`Sound::pcm_xfer_start`].
    pub fn pcm_start(&mut self, ring: &Ring<impl Borrow<[u8; RING_SIZE]>>, stream: u32) -> Result<Step<()>, Refusal> {
        self.of_stream(ffi::snd_pcm_start, ring, stream)
    }

    /// Stops a stream. What the device has accepted and not played yet may be kept back: after a transfer's Ok, wait as long as its buffer
    /// lasts.
    pub fn pcm_stop(&mut self, ring: &Ring<impl Borrow<[u8; RING_SIZE]>>, stream: u32) -> Result<Step<()>, Refusal> {
        self.of_stream(ffi::snd_pcm_stop, ring, stream)
    }

    /// The ids of the output streams.
    pub fn output_streams(&mut self, ring: &Ring<impl Borrow<[u8; RING_SIZE]>>) -> Result<Step<StreamList>, Refusal> {
        self.step(|state, message, result| ffi::snd_output_streams(state, ring.store(), message, result))
    }

    /// The ids of the input streams.
    pub fn input_streams(&mut self, ring: &Ring<impl Borrow<[u8; RING_SIZE]>>) -> Result<Step<StreamList>, Refusal> {
        self.step(|state, message, result| ffi::snd_input_streams(state, ring.store(), message, result))
    }

    /// The rates that a stream supports.
    pub fn rates_supported(
        &mut self,
        ring: &Ring<impl Borrow<[u8; RING_SIZE]>>,
        stream: u32,
    ) -> Result<Step<Rates>, Refusal> {
        self.of_stream(ffi::snd_rates_supported, ring, stream)
    }

    /// The formats that a stream supports.
    pub fn formats_supported(
        &mut self,
        ring: &Ring<impl Borrow<[u8; RING_SIZE]>>,
        stream: u32,
    ) -> Result<Step<Formats>, Refusal> {
        self.of_stream(ffi::snd_formats_supported, ring, stream)
    }

    /// How many channels a stream supports.
    pub fn channel_range_supported(
        &mut self,
        ring: &Ring<impl Borrow<[u8; RING_SIZE]>>,
        stream: u32,
    ) -> Result<Step<ChannelRange>, Refusal> {
        self.of_stream(ffi::snd_channel_range_supported, ring, stream)
    }

    /// The features that a stream supports.
    pub fn features_supported(
        &mut self,
        ring: &Ring<impl Borrow<[u8; RING_SIZE]>>,
        stream: u32,
    ) -> Result<Step<Features>, Refusal> {
        self.of_stream(ffi::snd_features_supported, ring, stream)
    }
}

/// Feeds.
///
/// ```
/// use snd::{Refusal, Ring, Sound, Step};
/// let (mut sound, ring) = (Sound::new(0, 1, 0), Ring::new());
///
/// // the queue fails the queries of jacks and of streams: no jacks are fine, no streams end the call
/// let Step::Send(jacks) = sound.pcm_prepare(&ring, 0)? else { unreachable!() };
/// let Step::Send(streams) = sound.feed_failure(jacks)? else { unreachable!() };
/// assert_eq!(sound.feed_failure(streams), Err(Refusal::QueueFailed));
/// # Ok::<(), Refusal>(())
/// ```
impl<S: BorrowMut<[u8; STATE_SIZE]>> Sound<S> {
    /// Feeds the answer page of the request that is out. The whole page is read: see [`Sound::feed_written`] for a device that may write less.
    /// An exchange that is not this state's open one is [`Refusal::InvalidParam`].
    pub fn feed<T: Value>(&mut self, exchange: Exchange<T>, page: &Page) -> Result<Step<T>, Refusal> {
        self.fed(exchange, |state, message, result| {
            ffi::snd_feed(state, page.bytes(), message, result)
        })
    }

    /// Feeds the answer page of the request that is out, and how many bytes of it the device wrote: strict mode. No byte past them is looked
    /// at, so what a page holds from before plays no part. Each feed is judged by itself, and may be strict or not.
    ///
    /// `written` is what the queue reports as written to the page, from its first byte on. Under 4 it is [`Refusal::Short`], whatever the
    /// page says; so it is for a query that was answered ok with fewer bytes than its records have. For jacks and channel maps that means an
    /// empty table, as a query that failed, and set-up goes on. Elsewhere the call ends with it, and the state is as after
    /// [`Refusal::QueueFailed`]. An exchange that is not this state's open one is [`Refusal::InvalidParam`].
    ///
    /// A length above 4,096 is tested first and is [`Unfed::TooLong`]: nothing is fed, and the exchange comes back, still open.
    ///
    /// ```
    /// use snd::{JackInfo, Model, Page, PcmInfo, Refusal, Ring, Sound, Step, Unfed};
    ///
    /// let jack = JackInfo { features: JackInfo::REMAP, ..JackInfo::default() };
    /// let mut device = Model::new(&[jack.to_bytes()], &[PcmInfo::output(1, 2).to_bytes()], &[])?;
    /// let (mut sound, ring, mut page) = (Sound::new(1, 1, 0), Ring::new(), Page::new());
    ///
    /// // the page holds the jack, but of this answer the device is said to have written the header alone
    /// let Step::Send(jacks) = sound.jack_remap(&ring, 0, 1, 2)? else { unreachable!() };
    /// assert_eq!(device.control(jacks.bytes(), &mut page)?, 4 + 24);
    /// let mut step = sound.feed_written(jacks, &page, 4);
    ///
    /// // a length that no page has
    /// let Ok(Step::Send(streams)) = step else { unreachable!() };
    /// let written = device.control(streams.bytes(), &mut page)?;
    /// step = sound.feed_written(streams, &page, 4097);
    /// let Err(Unfed::TooLong(streams)) = step else { unreachable!() };
    ///
    /// // from here on the device's own lengths: no jack is known, and no remap is sent
    /// step = sound.feed_written(streams, &page, written);
    /// let Ok(Step::Send(maps)) = step else { unreachable!() };
    /// let written = device.control(maps.bytes(), &mut page)?;
    /// assert_eq!(sound.feed_written(maps, &page, written), Err(Unfed::Refused(Refusal::NoInfo)));
    /// # Ok::<(), Refusal>(())
    /// ```
    pub fn feed_written<T: Value>(
        &mut self,
        exchange: Exchange<T>,
        page: &Page,
        written: usize,
    ) -> Result<Step<T>, Unfed<T>> {
        if written > PAGE_SIZE {
            return Err(Unfed::TooLong(exchange));
        }
        let fed = self.fed(exchange, |state, message, result| {
            ffi::snd_feed_written(state, page.bytes(), written as u64, message, result)
        });
        fed.map_err(Unfed::Refused)
    }

    /// Says that the queue failed the request that is out. An exchange that is not this state's open one is [`Refusal::InvalidParam`].
    pub fn feed_failure<T: Value>(&mut self, exchange: Exchange<T>) -> Result<Step<T>, Refusal> {
        self.fed(exchange, queue_failure)
    }

    fn fed<T: Value>(
        &mut self,
        exchange: Exchange<T>,
        entry: impl FnOnce(&mut [u8], &mut [u8], &mut Results) -> u64,
    ) -> Result<Step<T>, Refusal> {
        if !exchange.is_open_in(self.store()) {
            return Err(Refusal::InvalidParam);
        }
        self.step(entry)
    }

    /// Ends the open exchange, if there is one, as if the queue had failed its requests: for a host that lost it, and found the state
    /// again in its store. What the call says in the end is dropped. Nothing open is Ok; an inconsistent store is
    /// [`Refusal::InvalidParam`] and left as it is, since no exchange can be told in it: make a new state.
    ///
    /// A device may still answer the request. Take that answer off the queue before the next call, whose own it would seem to be.
    ///
    /// ```
    /// use snd::{Refusal, Ring, STATE_SIZE, Sound, Step};
    /// let (mut store, ring) = ([0; STATE_SIZE], Ring::new());
    /// let Ok(Step::Send(_lost)) = Sound::new_in(&mut store, 0, 1, 0).pcm_prepare(&ring, 0) else { unreachable!() };
    ///
    /// let mut found = Sound::over(&mut store);
    /// assert_eq!(found.pcm_prepare(&ring, 0), Err(Refusal::Busy));
    /// found.abandon()?;
    /// assert!(matches!(found.pcm_prepare(&ring, 0), Ok(Step::Send(_))));
    /// # Ok::<(), Refusal>(())
    /// ```
    pub fn abandon(&mut self) -> Result<(), Refusal> {
        // any read tells an inconsistent store
        self.jacks()?;
        for _ in 0..MOST_FEEDS {
            match self.step::<()>(queue_failure) {
                Ok(Step::Send(_next)) => {}
                Err(Refusal::Unknown) => return Err(Refusal::Unknown),
                // the call's own end, or nothing was open
                Ok(Step::Done(())) | Err(_) => return Ok(()),
            }
        }
        Err(Refusal::Unknown)
    }
}

/// Feeds that close any exchange: three of set-up and the call's own (theorem `closed-in-four`, crates/exchange/specs/Ends.antt).
const MOST_FEEDS: usize = 4;

fn queue_failure(state: &mut [u8], message: &mut [u8], result: &mut Results) -> u64 {
    ffi::snd_feed_failure(state, message, result)
}

/// The start of a transfer.
///
/// ```
/// use snd::{Refusal, Ring, Sound, Started, Step};
/// let (mut sound, mut ring) = (Sound::new(0, 1, 0), Ring::new());
///
/// // a transfer before set-up begins set-up, and cannot run: no parameters can have been set
/// let Started::SetUp(jacks, frames) = sound.transfer(&mut ring, 0, b"frames", 10) else { unreachable!() };
/// let Step::Send(streams) = sound.feed_failure(jacks)? else { unreachable!() };
/// assert_eq!(sound.feed_failure(streams), Err(Refusal::QueueFailed));
/// # Ok::<(), Refusal>(())
/// ```
impl<S: BorrowMut<[u8; STATE_SIZE]>> Sound<S> {
    /// Starts a transfer that takes the frames, and keeps them until no device reads them: see [`Transfer`]. Where it does not run the
    /// frames come back.
    ///
    /// n periods need no more than n·g + 1 turns from a device that completes one within any g turns.
    ///
    /// Start the stream first. Nothing here checks it, and the guard takes a stream that is only prepared, as the standard does; but a device
    /// may complete nothing of it: the budget is then used up, ten slots are owed, and [`Sound::pcm_start`] and [`Sound::pcm_release`] are Busy. Let `frames` be whole frames of the
    /// format: a device may never give back a last period that is none.
    pub fn transfer<'r, F: Frames, R: BorrowMut<[u8; RING_SIZE]>>(
        &mut self,
        ring: &'r mut Ring<R>,
        stream: u32,
        frames: F,
        budget: u64,
    ) -> Started<'r, F, R> {
        match self.pcm_xfer_start(ring, stream, frames.stable(), budget) {
            Ok(Step::Done(())) => Started::Runs(Transfer::new(ring, frames)),
            Ok(Step::Send(exchange)) => Started::SetUp(exchange, frames),
            Err(refusal) => Started::Refused(refusal, frames),
        }
    }

    /// Starts a transfer of frames that you keep yourself: `Done` says that it runs, and [`Ring::turn`] is next. `Send` says that set-up had
    /// to begin; the call then ends with a refusal at a feed. What [`Sound::transfer`] says of stream and budget holds here.
    ///
    /// The frames are borrowed for this call alone, and the device reads them later. Until no transfer runs and nothing is in flight, drain
    /// turns included, they must be neither freed nor changed, and nothing here sees to it.
    pub fn pcm_xfer_start(
        &mut self,
        ring: &mut Ring<impl BorrowMut<[u8; RING_SIZE]>>,
        stream: u32,
        frames: &[u8],
        budget: u64,
    ) -> Result<Step<()>, Refusal> {
        self.begun(|state, message| ffi::snd_pcm_xfer_start(state, ring.store_mut(), stream, frames, budget, message))
    }

    /// Starts a transfer that takes the frames and writes a trace into the room: see [`Traced`]. Where it does not run the frames come back.
    ///
    /// Refused as [`Sound::transfer`] is, a budget of 0 among it, and after all that with [`Refusal::BadLength`] for frames of 2^32 bytes or more
    /// and for a room under [`crate::trace::room_len`].
    pub fn transfer_traced<'r, F: Frames, R: BorrowMut<[u8; RING_SIZE]>>(
        &mut self,
        ring: &'r mut Ring<R>,
        stream: u32,
        frames: F,
        budget: u64,
        room: &'r mut [u8],
    ) -> Tracing<'r, F, R> {
        match self.pcm_xfer_start_traced(ring, stream, frames.stable(), budget, room) {
            Ok(Step::Done(())) => Tracing::Runs(Traced::new(Transfer::new(ring, frames), room)),
            Ok(Step::Send(exchange)) => Tracing::SetUp(exchange, frames),
            Err(refusal) => Tracing::Refused(refusal, frames),
        }
    }

    /// Starts a transfer that writes a trace, of frames and with a room that you keep yourself: `Done` says that it runs, and
    /// [`Ring::turn_traced`] is next. Of the room only the length is looked at, and nothing is written there; every turn is to be lent one of
    /// the same length. For the rest as [`Sound::pcm_xfer_start`], and refused as [`Sound::transfer_traced`].
    pub fn pcm_xfer_start_traced(
        &mut self,
        ring: &mut Ring<impl BorrowMut<[u8; RING_SIZE]>>,
        stream: u32,
        frames: &[u8],
        budget: u64,
        room: &[u8],
    ) -> Result<Step<()>, Refusal> {
        self.begun(|state, message| {
            ffi::snd_pcm_xfer_start_traced(state, ring.store_mut(), stream, frames, budget, room, message)
        })
    }

    /// The start of a transfer or a capture by `entry`, with a message buffer for it to fill.
    fn begun(&mut self, entry: impl FnOnce(&mut [u8], &mut [u8]) -> u64) -> Result<Step<()>, Refusal> {
        let mut message = [0; MESSAGE_SIZE];
        let answer = entry(self.state(), &mut message);
        match Said::of(answer) {
            Said::Going => Ok(Step::Done(())),
            // what started never answers Ok at once
            Said::Ok => Err(Refusal::Unknown),
            _ => Step::of(answer, message, self.store(), &[0; RESULT_SIZE]),
        }
    }
}

/// The start of a capture.
impl<S: BorrowMut<[u8; STATE_SIZE]>> Sound<S> {
    /// Starts a capture of so many whole periods of an input stream, which has the recording until it is dropped: see [`Capture`].
    ///
    /// Refused, after what a transfer is refused for, in this order: 1 for a stream too high, 12 under the guard, 1 for a stream that is no
    /// input, 2 where it has no parameters, 9 for a budget of 0, and 10 for a recording that is shorter than the periods.
    ///
    /// n periods need no more than n·g + 1 turns from a device that completes one within any g turns, each with a good length. Start the
    /// stream first.
    pub fn capture<'r, R: BorrowMut<[u8; RING_SIZE]>>(
        &mut self,
        ring: &'r mut Ring<R>,
        stream: u32,
        periods: u64,
        recording: &'r mut [u8],
        budget: u64,
    ) -> Result<Capturing<'r, R>, Refusal> {
        match self.pcm_capture_start(ring, stream, periods, recording, budget)? {
            Step::Done(()) => Ok(Capturing::Runs(Capture::new(ring, recording))),
            Step::Send(exchange) => Ok(Capturing::SetUp(exchange)),
        }
    }

    /// Starts a capture into a recording that you keep yourself: `Done` says that it runs, and [`Ring::capture_turn`] is next. `Send` says that
    /// set-up had to begin; the call then ends with a refusal at a feed. Of the recording only the length is looked at, and every turn is to
    /// be lent one of the same length.
    pub fn pcm_capture_start(
        &mut self,
        ring: &mut Ring<impl BorrowMut<[u8; RING_SIZE]>>,
        stream: u32,
        periods: u64,
        recording: &[u8],
        budget: u64,
    ) -> Result<Step<()>, Refusal> {
        self.begun(|state, message| {
            ffi::snd_pcm_capture_start(state, ring.store_mut(), stream, periods, recording, budget, message)
        })
    }
}

/// Submissions that do not wait: see [`Places`]. Control calls go on meanwhile; the start of a transfer is [`Refusal::Busy`] while a token is
/// pending.
impl<S: BorrowMut<[u8; STATE_SIZE]>> Sound<S> {
    /// Copies stream id and payload into the lowest free place, whose number is the token, and goes on. The payload is one whole period.
    ///
    /// Busy while an exchange is open, a transfer runs or a slot is in flight. Refused after that, in this order: 1 for a stream too high, 12
    /// under the guard, 2 where it has no parameters, 1 for a payload that is not one period, 10 for a place that is shorter than a
    /// period and 4, and [`Refusal::Full`] where every place is taken. A refusal changes nothing.
    ///
    /// Start the stream first, as for a transfer. Places in which this state does not know what is pending, and those of another mode than the
    /// ring, are [`Refusal::InvalidParam`].
    pub fn pcm_xfer_nb<P: PlaceStore>(
        &mut self,
        ring: &Ring<impl Borrow<[u8; RING_SIZE]>>,
        stream: u32,
        payload: &[u8],
        places: &mut Places<P>,
    ) -> Result<Submitted, Refusal> {
        if !places.go_with(self.store()) || !places.are_for(ring.indirect()) {
            return Err(Refusal::InvalidParam);
        }
        let (mut message, mut result) = ([0; MESSAGE_SIZE], [0; RESULT_SIZE]);
        let answer = ffi::snd_pcm_xfer_nb(
            self.state(),
            ring.store(),
            stream,
            payload,
            places.bytes_mut(),
            &mut message,
            &mut result,
        );
        match Step::of(answer, message, self.store(), &result)? {
            Step::Send(exchange) => Ok(Submitted::SetUp(exchange)),
            Step::Done(()) => {
                let token = token(&result, places.count())?;
                places.take(token, payload.len());
                Ok(Submitted::Token(token))
            }
        }
    }

    /// A completion reading: marks the token that it names, whatever its status. A quiet one changes nothing. A token that is not pending, or
    /// was completed already, is [`Refusal::WrongToken`]: the first status stays. Needs no set-up and is never Busy.
    pub fn pcm_xfer_mark(&mut self, reading: Reading) -> Result<(), Refusal> {
        let (kind, token, status) = reading.numbers();
        Said::done(ffi::snd_pcm_xfer_mark(self.state(), kind, token, status))
    }

    /// Finishes a submission that was marked, in any order: its place is free again, also where the device's status was not ok, which is
    /// [`Refusal::IoError`] with that status. One that is not marked is [`Refusal::NotYet`], a token that is not pending
    /// [`Refusal::WrongToken`]; both change nothing. Needs no set-up and is never Busy.
    pub fn pcm_xfer_ok<P: PlaceStore>(&mut self, places: &mut Places<P>, token: u32) -> Result<(), Refusal> {
        if !places.go_with(self.store()) {
            return Err(Refusal::InvalidParam);
        }
        let said = Said::done(ffi::snd_pcm_xfer_ok(self.state(), token));
        if matches!(said, Ok(()) | Err(Refusal::IoError(_))) {
            places.free(token);
        }
        said
    }
}
