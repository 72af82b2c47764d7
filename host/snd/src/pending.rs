//! Submissions that do not wait: the places where they stand for as long as a device may read them, and what is pending.
use crate::bytes::{Results, u64_at};
use crate::layout::taken;
use crate::{Exchange, PLACES, PLACES_INDIRECT, Refusal, STATE_SIZE};
use core::fmt;
use core::mem::ManuallyDrop;

/// Bytes that stand still while [`Places`] have them, and that nothing else can change: `&'static mut [u8]`, `&'static mut [u8; N]`, and with
/// the feature `alloc` `Vec<u8>` and `Box<[u8]>`. Nothing else can be: a borrow that ends may end while a device still reads.
pub trait PlaceStore: sealed::Stable {}

mod sealed {
    /// Where the bytes stand: the same place at every call, also after a move.
    pub trait Stable {
        #[doc(hidden)]
        fn bytes(&self) -> &[u8];
        #[doc(hidden)]
        fn bytes_mut(&mut self) -> &mut [u8];
    }
}
pub(crate) use sealed::Stable;

/// Types whose bytes are what they point to.
macro_rules! stores {
    ($($(#[$attribute:meta])* [$($of:tt)*] $store:ty;)*) => {
        $($(#[$attribute])* impl<$($of)*> PlaceStore for $store {}
        $(#[$attribute])* impl<$($of)*> Stable for $store {
            fn bytes(&self) -> &[u8] {
                &self[..]
            }
            fn bytes_mut(&mut self) -> &mut [u8] {
                &mut self[..]
            }
        })*
    };
}

#[cfg(feature = "alloc")]
extern crate alloc;

stores! {
    [] &'static mut [u8];
    [const N: usize] &'static mut [u8; N];
    #[cfg(feature = "alloc")] [] alloc::vec::Vec<u8>;
    #[cfg(feature = "alloc")] [] alloc::boxed::Box<[u8]>;
}

/// The bytes of the stream id, before the period.
const ID: usize = 4;

/// The 16 places of submissions that do not wait, in a store of yours: each has a 16th of it, rounded down, and must have room for a period
/// and 4 bytes. [`crate::Sound::pcm_xfer_nb`] copies a period into the lowest free place, whose number is its token.
///
/// It takes the store, and hands out bytes to read alone, so that safe code can neither free nor replace what a device may still read.
/// [`crate::Sound::pcm_xfer_ok`] frees a place; [`Places::end`] gives the store back once none is taken. Places that are dropped before that,
/// or forgotten, leak their store and never free it. That rests on readings that were seen.
///
/// Places go with one state, from its first submission on: another, which does not know what is pending in them, is refused with
/// [`Refusal::InvalidParam`]. So is a ring of another mode: with [`crate::Ring::new_indirect`] there are 32 places, [`Places::new_indirect`].
///
/// ```
/// use snd::{Pending, Places, Reading, Refusal, STATUS_OK, Status, Submitted};
/// # use snd::{Format, Model, Page, Params, PcmInfo, Rate, Ring, Sound, Step};
/// # let mut device = Model::new(&[], &[PcmInfo::output(1, 2).to_bytes()], &[])?;
/// # let (mut sound, ring, mut page) = (Sound::new(0, 1, 0), Ring::new(), Page::new());
/// # let to = Params { buffer: 8, period: 4, features: 0, channels: 2, format: Format::S16, rate: Rate::Hz48000 };
/// # let mut step = sound.pcm_set_params(&ring, 0, to)?;
/// # while let Step::Send(exchange) = step {
/// #     device.control(exchange.bytes(), &mut page)?;
/// #     step = sound.feed(exchange, &page)?;
/// # }
/// // stream 0 has a period of 4 bytes
/// let mut places = Places::new(vec![0; 16 * (4 + 4)]);
/// for (token, period) in [b"feed", b"er 1", b"4 op"].into_iter().enumerate() {
///     assert_eq!(sound.pcm_xfer_nb(&ring, 0, period, &mut places)?, Submitted::Token(token as u32));
/// }
/// // what the device reads under token 1
/// assert_eq!(places.request(1), Some(&b"\0\0\0\0er 1"[..]));
///
/// // the console goes on; completions come in any order, and so do finishes
/// assert_eq!(sound.pcm_xfer_ok(&mut places, 1), Err(Refusal::NotYet));
/// sound.pcm_xfer_mark(Reading::Completed { slot: 2, status: 0x8003 })?;
/// sound.pcm_xfer_mark(Reading::Completed { slot: 1, status: STATUS_OK })?;
/// assert_eq!((sound.pending_count()?, sound.pending_token(2)?), (3, Pending::Marked { status: 0x8003 }));
/// assert_eq!(sound.pcm_xfer_ok(&mut places, 1), Ok(()));
/// assert_eq!(sound.pcm_xfer_ok(&mut places, 2), Err(Refusal::IoError(Some(Status::IoError))));
/// assert_eq!((sound.pending_count()?, places.request(2)), (1, None));
/// # Ok::<(), Refusal>(())
/// ```
///
/// The store cannot be had back early, be it lent or given:
///
/// ```compile_fail,E0382
/// # use snd::Places;
/// let store = vec![0; 128];
/// let places = Places::new(store);
/// drop(store);
/// ```
///
/// ```compile_fail,E0597
/// # use snd::Places;
/// let mut store = [0; 128];
/// let places = Places::new(&mut store);
/// ```
#[must_use = "dropped while a place is taken, they leak their store"]
pub struct Places<P: PlaceStore> {
    /// There until it is given back. Not dropped with the places, so that to free it is an act of its own.
    store: Option<ManuallyDrop<P>>,
    /// Of each place the period that stands there behind the stream id, in bytes; 0 where it is free. A period has one at least.
    out: [u32; PLACES_INDIRECT],
    /// 32 of them, not 16.
    indirect: bool,
}

impl<P: PlaceStore> Places<P> {
    /// Places in this store, all of them free.
    pub fn new(store: P) -> Self {
        Self::with(store, false)
    }

    /// 32 places in this store, for a ring for indirect descriptors: each has a 32nd of it, rounded down.
    pub fn new_indirect(store: P) -> Self {
        Self::with(store, true)
    }

    fn with(store: P, indirect: bool) -> Self {
        Self {
            store: Some(ManuallyDrop::new(store)),
            out: [0; PLACES_INDIRECT],
            indirect,
        }
    }

    /// How many places there are: 16, or 32 for indirect descriptors.
    #[must_use]
    pub fn count(&self) -> usize {
        if self.indirect { PLACES_INDIRECT } else { PLACES }
    }

    /// How many bytes each place has.
    #[must_use]
    pub fn size(&self) -> usize {
        let bytes = self.bytes().len();
        if self.indirect {
            bytes / PLACES_INDIRECT
        } else {
            bytes / PLACES
        }
    }

    /// What the device reads of the submission that is pending under this token: 4 bytes of stream id, least first, and the period.
    ///
    /// The borrow ends with your use of it, the device's reading later: it stays as it is and where it is until the token is finished.
    #[must_use]
    pub fn request(&self, token: u32) -> Option<&[u8]> {
        let period = *self.out.get(token as usize).filter(|period| **period > 0)?;
        let at = self.size().checked_mul(token as usize)?;
        self.bytes().get(at..)?.get(..ID.checked_add(period as usize)?)
    }

    /// Gives the store back, where no place is taken; else the places, until the last is finished.
    #[allow(clippy::result_large_err, reason = "what comes back are the places themselves")]
    pub fn end(mut self) -> Result<P, Self> {
        self.freed().ok_or(self)
    }

    /// The store, where no device reads it.
    fn freed(&mut self) -> Option<P> {
        let free = self.out.iter().all(|period| *period == 0);
        let store = if free { self.store.take() } else { None };
        store.map(ManuallyDrop::into_inner)
    }

    fn bytes(&self) -> &[u8] {
        self.store.as_ref().map_or(&[], |store| store.bytes())
    }

    /// For an entry to write: it is proved to change the place that it takes, and no other byte.
    pub(crate) fn bytes_mut(&mut self) -> &mut [u8] {
        self.store.as_mut().map_or(&mut [], |store| store.bytes_mut())
    }

    /// Whether a ring of this mode has as many places: with others a place would be taken where another stands.
    pub(crate) fn are_for(&self, indirect: bool) -> bool {
        self.indirect == indirect
    }

    /// Whether this state knows what is pending here.
    pub(crate) fn go_with(&self, state: &[u8; STATE_SIZE]) -> bool {
        let mut out = self.out.iter().enumerate();
        out.all(|(token, period)| taken(state, token) == (*period > 0))
    }

    /// A period of so many bytes, which fit into 32 bits, was copied into a place.
    pub(crate) fn take(&mut self, token: u32, period: usize) {
        if let Some(place) = self.out.get_mut(token as usize) {
            *place = period as u32;
        }
    }

    /// Its submission was finished.
    pub(crate) fn free(&mut self, token: u32) {
        if let Some(place) = self.out.get_mut(token as usize) {
            *place = 0;
        }
    }
}

impl<P: PlaceStore> Drop for Places<P> {
    fn drop(&mut self) {
        drop(self.freed());
    }
}

/// Short: how long each place is, and which are taken.
impl<P: PlaceStore> fmt::Debug for Places<P> {
    fn fmt(&self, f: &mut fmt::Formatter<'_>) -> fmt::Result {
        let taken = Taken(&self.out);
        let mut said = f.debug_struct("Places");
        said.field("size", &self.size()).field("taken", &taken).finish()
    }
}

struct Taken<'p>(&'p [u32; PLACES_INDIRECT]);

impl fmt::Debug for Taken<'_> {
    fn fmt(&self, f: &mut fmt::Formatter<'_>) -> fmt::Result {
        let out = self.0.iter().enumerate().filter(|(_token, period)| **period > 0);
        f.debug_list().entries(out.map(|(token, _period)| token)).finish()
    }
}

/// What came of [`crate::Sound::pcm_xfer_nb`].
#[derive(PartialEq, Eq, Debug)]
#[must_use = "a period that was copied is to be handed to the device"]
pub enum Submitted {
    /// Hand [`Places::request`] of this token to the device. It is pending until it is finished.
    Token(u32),
    /// Set-up had to begin, and nothing was copied: no stream has parameters before set-up is done. Feed the exchange to its end, which is a
    /// refusal (1, 2, 5 or 7, 11 in strict mode, and 12 for 2 under the guard); then set the parameters and submit again.
    SetUp(Exchange<()>),
}

/// What stands under a token.
#[derive(Clone, Copy, PartialEq, Eq, Debug)]
pub enum Pending {
    /// Nothing.
    Free,
    /// A submission that no completion was seen of.
    Waits,
    /// One that was completed, and not finished yet.
    Marked {
        /// The status in the device's answer; 0x8000 is ok.
        status: u32,
    },
}

impl Pending {
    /// As a result has it: state 8, status 8. A state that cannot be there is no answer.
    pub(crate) fn read(result: &Results) -> Result<Self, Refusal> {
        let status = u32::try_from(u64_at(result, 8)).map_err(|_| Refusal::Unknown)?;
        match u64_at(result, 0) {
            0 => Ok(Self::Free),
            1 => Ok(Self::Waits),
            2 => Ok(Self::Marked { status }),
            _ => Err(Refusal::Unknown),
        }
    }
}

/// The token in a result; one that is none of so many places is no answer.
pub(crate) fn token(result: &Results, places: usize) -> Result<u32, Refusal> {
    match u64_at(result, 0) {
        token if token < places as u64 => Ok(token as u32),
        _ => Err(Refusal::Unknown),
    }
}

#[cfg(test)]
mod tests {
    use super::{Pending, PlaceStore, Places, Stable, token};
    use crate::bytes::put;
    use crate::{PLACES, PLACES_INDIRECT, RESULT_SIZE, Refusal};
    use core::cell::Cell;

    /// A store that tells when it is freed.
    struct Counted<'c>([u8; 16 * 8], &'c Cell<u32>);

    impl PlaceStore for Counted<'_> {}
    impl Stable for Counted<'_> {
        fn bytes(&self) -> &[u8] {
            &self.0
        }
        fn bytes_mut(&mut self) -> &mut [u8] {
            &mut self.0
        }
    }

    impl Drop for Counted<'_> {
        fn drop(&mut self) {
            self.1.set(self.1.get().wrapping_add(1));
        }
    }

    #[test]
    fn what_is_taken_is_never_freed() {
        let freed = Cell::new(0);
        let mut places = Places::new(Counted([7; 128], &freed));
        places.take(15, 4);
        assert_eq!(places.request(15), Some(&[7; 8][..]));
        assert_eq!(
            (places.request(14), places.request(16), places.request(u32::MAX)),
            (None, None, None)
        );
        let kept = places.end();
        assert!(kept.is_err());
        drop(kept);
        assert_eq!(freed.get(), 0);
        let mut places = Places::new(Counted([7; 128], &freed));
        places.take(0, 4);
        core::mem::forget(places);
        assert_eq!(freed.get(), 0);
    }

    #[test]
    fn where_all_is_finished_it_comes_back() {
        let freed = Cell::new(0);
        let mut places = Places::new(Counted([0; 128], &freed));
        for token in 0..PLACES as u32 {
            places.take(token, 4);
        }
        for token in (0..PLACES as u32).rev() {
            assert!(places.request(token).is_some());
            places.free(token);
        }
        let store = places.end();
        assert_eq!(freed.get(), 0);
        drop(store);
        assert_eq!(freed.get(), 1);
        drop(Places::new(Counted([0; 128], &freed)));
        assert_eq!(freed.get(), 2);
    }

    #[test]
    fn a_token_that_is_no_place_and_a_state_above_2_are_no_answer() {
        let mut result = [0; RESULT_SIZE];
        for (number, there) in [
            (0u64, [true, true]),
            (15, [true, true]),
            (16, [false, true]),
            (31, [false, true]),
            (32, [false, false]),
            (1 << 32, [false, false]),
            (u64::MAX, [false, false]),
        ] {
            put(&mut result, 0, &number.to_le_bytes());
            let told = [PLACES, PLACES_INDIRECT].map(|places| token(&result, places).is_ok());
            assert_eq!(told, there, "{number}");
        }
        let mut told = |state: u64, status: u64| {
            put(&mut result, 0, &state.to_le_bytes());
            put(&mut result, 8, &status.to_le_bytes());
            Pending::read(&result)
        };
        assert_eq!((told(0, 0), told(1, 0)), (Ok(Pending::Free), Ok(Pending::Waits)));
        assert_eq!(told(2, 0x8003), Ok(Pending::Marked { status: 0x8003 }));
        assert_eq!(
            (told(3, 0), told(2, 1 << 32)),
            (Err(Refusal::Unknown), Err(Refusal::Unknown))
        );
    }
}
