//! The model device: one request, one answer. For tests and demonstrations.
use crate::answer::Said;
use crate::bytes::{part_at, run, size_at, u32_at, u64_at};
use crate::layout::model_counts;
use crate::step::{Page, told};
use crate::{MODEL_SIZE, PAGE_SIZE, Refusal, ffi};
use core::borrow::{Borrow, BorrowMut};
use core::fmt;

/// What the model says to a transfer request.
#[derive(Clone, Copy, PartialEq, Eq, Debug)]
pub struct TransferStatus {
    /// 0x8000 is ok.
    pub status: u32,
    /// Always 0.
    pub latency: u32,
}

/// A device that answers as the fake device of virtio-drivers does, in a byte store, owned or lent.
///
/// ```
/// use snd::{Model, Page, PcmInfo, STATUS_OK};
/// let mut device = Model::new(&[], &[PcmInfo::output(1, 2).to_bytes()], &[])?;
///
/// // prepare stream 0
/// let mut page = Page::new();
/// assert_eq!(device.control(&[2, 1, 0, 0, 0, 0, 0, 0], &mut page)?, 4);
/// assert_eq!(page.bytes()[..4], STATUS_OK.to_le_bytes());
///
/// // three bytes for stream 0
/// let request = [0, 0, 0, 0, b'o', b'n', b'e'];
/// assert_eq!(device.transfer(&request)?.status, STATUS_OK);
/// assert_eq!(device.payload(&request)?, b"one");
/// assert_eq!(device.played(0)?, 3);
/// assert_eq!(format!("{device:?}"), "Model { jacks: 0, streams: 1, chmaps: 0 }");
/// # Ok::<(), snd::Refusal>(())
/// ```
#[derive(Clone, PartialEq, Eq)]
pub struct Model<M = [u8; MODEL_SIZE]>(M);

impl Model {
    /// A device with these tables: at most 170 jacks, 127 streams and 170 channel maps.
    pub fn new(jacks: &[[u8; 24]], pcms: &[[u8; 32]], maps: &[[u8; 24]]) -> Result<Self, Refusal> {
        Self::new_in([0; MODEL_SIZE], jacks, pcms, maps)
    }
}

impl<M: BorrowMut<[u8; MODEL_SIZE]>> Model<M> {
    /// A device in your store; what it held is gone.
    pub fn new_in(mut store: M, jacks: &[[u8; 24]], pcms: &[[u8; 32]], maps: &[[u8; 24]]) -> Result<Self, Refusal> {
        let (jacks, pcms, maps) = (jacks.as_flattened(), pcms.as_flattened(), maps.as_flattened());
        Said::done(ffi::snd_model_new(store.borrow_mut(), jacks, pcms, maps))?;
        Ok(Self(store))
    }

    /// Answers a control request into a page, and says how many of its bytes are the answer.
    pub fn control(&mut self, request: &[u8], page: &mut Page) -> Result<usize, Refusal> {
        let store = self.0.borrow_mut();
        let length = told(
            |result| ffi::snd_model_control(store, request, page.bytes_mut(), result),
            |result| size_at(result, 0),
        )?;
        if length > PAGE_SIZE {
            return Err(Refusal::Unknown);
        }
        Ok(length)
    }

    /// Takes a transfer request: the stream's id, 4 bytes, then the payload.
    pub fn transfer(&mut self, request: &[u8]) -> Result<TransferStatus, Refusal> {
        let mut answer = [0; 8];
        Said::done(ffi::snd_model_transfer(self.0.borrow_mut(), request, &mut answer))?;
        Ok(TransferStatus {
            status: u32_at(&answer, 0),
            latency: u32_at(&answer, 4),
        })
    }
}

/// Short: the counts, or that the store is inconsistent.
impl<M: Borrow<[u8; MODEL_SIZE]>> fmt::Debug for Model<M> {
    fn fmt(&self, f: &mut fmt::Formatter<'_>) -> fmt::Result {
        // no other read tells an inconsistent store apart from a stream too high
        if self.payload(&[]).is_err() {
            return f.write_str("Model(inconsistent)");
        }
        let [jacks, streams, chmaps] = model_counts(self.store());
        let mut said = f.debug_struct("Model");
        said.field("jacks", &jacks)
            .field("streams", &streams)
            .field("chmaps", &chmaps)
            .finish()
    }
}

/// What a demonstration or a test asks the device afterwards.
impl<M: Borrow<[u8; MODEL_SIZE]>> Model<M> {
    /// The device that stands in your store. Any bytes are safe.
    #[must_use]
    pub fn over(store: M) -> Self {
        Self(store)
    }

    /// The store's bytes.
    #[must_use]
    pub fn store(&self) -> &[u8; MODEL_SIZE] {
        self.0.borrow()
    }

    /// The payload that the device takes from a transfer request; empty for a request that it does not accept.
    pub fn payload<'r>(&self, request: &'r [u8]) -> Result<&'r [u8], Refusal> {
        let shown = told(
            |result| ffi::snd_model_payload(self.store(), request, result),
            |result| part_at(request, result, 0),
        );
        shown?.ok_or(Refusal::Unknown)
    }

    /// The 24 bytes by which a stream's parameters were set, if they were.
    pub fn params(&self, stream: u32) -> Result<Option<[u8; 24]>, Refusal> {
        told(
            |result| ffi::snd_model_params(self.store(), stream, result),
            |result| (u64_at(result, 0) != 0).then(|| run(result, 8)),
        )
    }

    /// How many payload bytes a stream was given, modulo 2^64.
    pub fn played(&self, stream: u32) -> Result<u64, Refusal> {
        told(
            |result| ffi::snd_model_played(self.store(), stream, result),
            |result| u64_at(result, 0),
        )
    }
}
