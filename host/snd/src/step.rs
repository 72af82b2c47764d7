//! What a control call yields: a request to send, or its result.
use crate::answer::Said;
use crate::bytes::{Results, u32_at, u64_at};
use crate::layout::{Waits, waits};
use crate::{MESSAGE_SIZE, PAGE_SIZE, RESULT_SIZE, Refusal, SLOTS, STATE_SIZE};
use core::fmt;
use core::marker::PhantomData;

/// A request to send to the device's control queue.
///
/// ```
/// # use snd::{Ring, Sound, Step};
/// let Step::Send(exchange) = Sound::new(3, 0, 0).output_streams(&Ring::new())? else { unreachable!() };
/// // the query of 3 jacks, with which set-up begins
/// assert_eq!(exchange.message().bytes(), [1, 0, 0, 0, 0, 0, 0, 0, 3, 0, 0, 0, 24, 0, 0, 0]);
/// # Ok::<(), snd::Refusal>(())
/// ```
#[derive(Clone, Copy, PartialEq, Eq)]
pub struct Message {
    buffer: [u8; MESSAGE_SIZE],
    /// At most the buffer's.
    length: usize,
}

impl Message {
    /// The first `length` bytes of the buffer. A request has one byte or more, and no more than the buffer.
    fn of(buffer: [u8; MESSAGE_SIZE], length: usize) -> Result<Self, Refusal> {
        match length {
            1..=MESSAGE_SIZE => Ok(Self { buffer, length }),
            _ => Err(Refusal::Unknown),
        }
    }

    /// The bytes to send.
    #[must_use]
    pub fn bytes(&self) -> &[u8] {
        // always there: the length was tested when it was read
        self.buffer.get(..self.length).unwrap_or_default()
    }
}

impl fmt::Debug for Message {
    fn fmt(&self, f: &mut fmt::Formatter<'_>) -> fmt::Result {
        f.debug_tuple("Message").field(&self.bytes()).finish()
    }
}

/// The device's answer to a control request: 4,096 bytes, zeros before their first use.
///
/// ```
/// let mut page = snd::Page::new();
/// page.bytes_mut()[..4].copy_from_slice(&0x8000u32.to_le_bytes());
/// assert_eq!(page.bytes()[..4], [0, 0x80, 0, 0]);
/// ```
#[derive(Clone, PartialEq, Eq, Debug)]
pub struct Page([u8; PAGE_SIZE]);

impl Page {
    /// A page of zeros.
    #[must_use]
    pub const fn new() -> Self {
        Self([0; PAGE_SIZE])
    }

    /// What the device wrote.
    #[must_use]
    pub const fn bytes(&self) -> &[u8; PAGE_SIZE] {
        &self.0
    }

    /// For the device to write.
    #[must_use]
    pub fn bytes_mut(&mut self) -> &mut [u8; PAGE_SIZE] {
        &mut self.0
    }
}

impl Default for Page {
    fn default() -> Self {
        Self::new()
    }
}

/// An open exchange: the request that is out, and `T`, what its call gives in the end.
///
/// [`crate::Sound::feed`], [`crate::Sound::feed_written`] and [`crate::Sound::feed_failure`] consume it, so its answer is fed once and is
/// read as the result of the call that asked. Rates are no list of streams:
///
/// ```compile_fail,E0308
/// # use snd::{Page, Ring, Sound, Step, StreamList};
/// # let (mut sound, ring, page) = (Sound::new(0, 1, 0), Ring::new(), Page::new());
/// let Step::Send(exchange) = sound.rates_supported(&ring, 0)? else { unreachable!() };
/// let next: Step<StreamList> = sound.feed(exchange, &page)?;
/// # Ok::<(), snd::Refusal>(())
/// ```
///
/// and no answer is fed twice:
///
/// ```compile_fail,E0382
/// # use snd::{Page, Ring, Sound, Step};
/// # let (mut sound, ring, page) = (Sound::new(0, 1, 0), Ring::new(), Page::new());
/// let Step::Send(exchange) = sound.rates_supported(&ring, 0)? else { unreachable!() };
/// let next = sound.feed(exchange, &page)?;
/// let again = sound.feed(exchange, &page)?;
/// # Ok::<(), snd::Refusal>(())
/// ```
///
/// It stays good when the state is moved, or found again in its store. Fed to a state that waits for something else, as to another
/// device's, it is [`Refusal::InvalidParam`], and that state is left as it was. A host that has lost it has [`crate::Sound::abandon`].
#[derive(PartialEq, Eq)]
#[must_use = "the call waits for an answer: send the request, and feed what comes of it"]
pub struct Exchange<T> {
    message: Message,
    /// What the state waited for when it asked.
    waits: Waits,
    gives: PhantomData<fn() -> T>,
}

impl<T> Exchange<T> {
    /// The bytes to send on the control queue.
    #[must_use]
    pub fn bytes(&self) -> &[u8] {
        self.message.bytes()
    }

    /// The request, for a host that keeps it elsewhere until it is sent.
    #[must_use]
    pub fn message(&self) -> &Message {
        &self.message
    }

    /// Whether this is the exchange that is open in a state.
    pub(crate) fn is_open_in(&self, state: &[u8; STATE_SIZE]) -> bool {
        self.waits == waits(state)
    }
}

impl<T> fmt::Debug for Exchange<T> {
    fn fmt(&self, f: &mut fmt::Formatter<'_>) -> fmt::Result {
        f.debug_tuple("Exchange").field(&self.bytes()).finish()
    }
}

/// A call or a feed went well: send this and feed its answer, or the call is done.
///
/// ```
/// # use snd::{Ring, Sound, Step};
/// let step = Sound::new(0, 0, 0).pcm_prepare(&Ring::new(), 0)?;
/// assert!(matches!(step, Step::Send(query_of_jacks) if query_of_jacks.bytes().len() == 16));
/// # Ok::<(), snd::Refusal>(())
/// ```
#[derive(PartialEq, Eq, Debug)]
#[must_use = "a call may have a request to send before it is done"]
pub enum Step<T> {
    /// Send its bytes on the control queue, then feed the answer with [`crate::Sound::feed`], [`crate::Sound::feed_written`] or
    /// [`crate::Sound::feed_failure`].
    Send(Exchange<T>),
    /// The call is done, with its result.
    Done(T),
}

impl<T: Value> Step<T> {
    /// The step that an entry answered, with the message, the state and the result as it left them.
    pub(crate) fn of(
        answer: u64,
        message: [u8; MESSAGE_SIZE],
        state: &[u8; STATE_SIZE],
        result: &Results,
    ) -> Result<Self, Refusal> {
        match Said::of(answer) {
            Said::Ok => T::read(result).map(Self::Done),
            Said::Send(length) => Ok(Self::Send(Exchange {
                message: Message::of(message, length)?,
                waits: waits(state),
                gives: PhantomData,
            })),
            Said::Refused(refusal) => Err(refusal),
            Said::Going | Said::Nothing => Err(Refusal::Unknown),
        }
    }
}

/// Why [`crate::Sound::feed_written`] gave no step. `?` makes the [`Refusal`] of it, and drops the exchange with it where there is one.
#[derive(PartialEq, Eq, Debug)]
#[must_use = "an exchange that was not fed is still open"]
pub enum Unfed<T> {
    /// 10: a page has no more than 4,096 bytes, so no device can have written as many as were named. Nothing was fed, and here is the exchange,
    /// still open: feed it with the right length, or say that the queue failed.
    TooLong(Exchange<T>),
    /// The feed was refused with this, as [`crate::Sound::feed`] may be.
    Refused(Refusal),
}

impl<T> Unfed<T> {
    /// What it was refused with.
    #[must_use]
    pub fn refusal(&self) -> Refusal {
        match self {
            Self::TooLong(_) => Refusal::BadLength,
            Self::Refused(refusal) => *refusal,
        }
    }
}

impl<T> From<Unfed<T>> for Refusal {
    fn from(unfed: Unfed<T>) -> Self {
        unfed.refusal()
    }
}

impl<T> fmt::Display for Unfed<T> {
    fn fmt(&self, f: &mut fmt::Formatter<'_>) -> fmt::Result {
        self.refusal().fmt(f)
    }
}

impl<T: fmt::Debug> core::error::Error for Unfed<T> {}

/// What a call gives when it is done. Implemented by the results of calls, and by nothing else.
pub trait Value: sealed::Read {}

mod sealed {
    use crate::Refusal;
    use crate::bytes::Results;

    /// How a value stands in a result. One that cannot be there is [`Refusal::Unknown`].
    pub trait Read: Sized {
        #[doc(hidden)]
        fn read(result: &Results) -> Result<Self, Refusal>;
    }
}
pub(crate) use sealed::Read;

/// A call that gives nothing but its Ok.
impl Value for () {}
impl Read for () {
    fn read(_: &Results) -> Result<Self, Refusal> {
        Ok(())
    }
}

/// The most streams that there are.
const STREAMS: usize = 127;

/// Stream ids, ascending: at most 127.
#[derive(Clone, Copy, PartialEq, Eq)]
pub struct StreamList {
    ids: [u32; STREAMS],
    /// At most 127.
    count: usize,
}

impl StreamList {
    /// The ids.
    #[must_use]
    pub fn ids(&self) -> &[u32] {
        // always there: the count was tested when it was read
        self.ids.get(..self.count).unwrap_or_default()
    }
}

impl fmt::Debug for StreamList {
    fn fmt(&self, f: &mut fmt::Formatter<'_>) -> fmt::Result {
        f.debug_tuple("StreamList").field(&self.ids()).finish()
    }
}

impl Value for StreamList {}
impl Read for StreamList {
    fn read(result: &Results) -> Result<Self, Refusal> {
        let count = u32_at(result, 0) as usize;
        if count > STREAMS {
            return Err(Refusal::Unknown);
        }
        let mut ids = [0; STREAMS];
        for (id, stored) in ids.iter_mut().zip(result.chunks_exact(4).skip(1)).take(count) {
            *id = u32_at(stored, 0);
        }
        Ok(Self { ids, count })
    }
}

/// Has an entry fill a result, and reads it where the entry says Ok.
#[inline]
pub(crate) fn told<T>(entry: impl FnOnce(&mut [u8]) -> u64, read: impl FnOnce(&Results) -> T) -> Result<T, Refusal> {
    let mut result = [0; RESULT_SIZE];
    Said::done(entry(&mut result)).map(|()| read(&result))
}

/// A number of 32 bits, of which 8 bytes cross.
pub(crate) fn narrow(result: &Results) -> Result<u32, Refusal> {
    u32::try_from(u64_at(result, 0)).map_err(|_| Refusal::Unknown)
}

/// A slot that may be there: there 8, slot 8.
pub(crate) fn slot_if_there(result: &Results) -> Result<Option<u32>, Refusal> {
    match (u64_at(result, 0), u64_at(result, 8)) {
        (0, _) => Ok(None),
        (_, slot) if slot < SLOTS as u64 => Ok(Some(slot as u32)),
        _ => Err(Refusal::Unknown),
    }
}

#[cfg(test)]
mod tests {
    use super::{Read, Step, StreamList, slot_if_there};
    use crate::bytes::put;
    use crate::{MESSAGE_SIZE, RESULT_SIZE, Refusal, STATE_SIZE};

    #[test]
    fn a_request_of_no_bytes_or_of_more_than_a_message_is_no_answer() {
        let step = |answer| Step::<()>::of(answer, [7; MESSAGE_SIZE], &[0; STATE_SIZE], &[0; RESULT_SIZE]);
        for length in 1..=24 {
            assert!(matches!(step(256 + length), Ok(Step::Send(sent)) if sent.bytes().len() as u64 == length));
        }
        for answer in [256, 256 + 25, 511, 512, 513] {
            assert_eq!(step(answer), Err(Refusal::Unknown));
        }
    }

    #[test]
    fn more_streams_than_there_are_is_no_answer() {
        let mut result = [1; RESULT_SIZE];
        for (count, fits) in [(0u32, true), (1, true), (127, true), (128, false), (u32::MAX, false)] {
            result[..4].copy_from_slice(&count.to_le_bytes());
            let list = StreamList::read(&result).map(|list| list.ids().len());
            assert_eq!(
                list,
                if fits {
                    Ok(count as usize)
                } else {
                    Err(Refusal::Unknown)
                }
            );
        }
    }

    #[test]
    fn a_slot_of_32_or_more_is_no_answer() {
        let mut result = [0; RESULT_SIZE];
        result[8] = 31;
        assert_eq!(slot_if_there(&result), Ok(None));
        result[0] = 1;
        assert_eq!(slot_if_there(&result), Ok(Some(31)));
        for (at, byte) in [(8, 32), (12, 1), (15, 255)] {
            let mut result = result;
            put(&mut result, at, &[byte]);
            assert_eq!(slot_if_there(&result), Err(Refusal::Unknown));
        }
    }
}
