//! The crate's virtqueue, as the text calls it, over the guest's. A token is a slot, given out in turn; a submission takes three descriptors of 32, as in the
//! guest's queue, or an indirect one: then 32 are said to be free while one is, as in host/oracle. `pcm_xfer` asks `available_desc` once at the top of each iteration and nowhere else, so a turn begins there.
use crate::transport::Transport;
use crate::{Error, Hal, Result, Shared};
use alloc::collections::VecDeque;
use core::cell::Cell;
use core::marker::PhantomData;

/// Descriptors of a submission: stream, period, status.
const PARTS: usize = 3;

pub struct VirtQueue<H: Hal, const SIZE: usize> {
    queues: Shared,
    indirect: bool,
    next: u16,
    out: VecDeque<u16>,
    /// What was seen, until it is taken.
    reading: Cell<Option<(u32, u32)>>,
    hal: PhantomData<H>,
}

impl<H: Hal, const SIZE: usize> VirtQueue<H, SIZE> {
    pub fn new<T: Transport>(transport: &mut T, _index: u16, indirect: bool, _event_idx: bool) -> Result<Self> {
        Ok(Self {
            queues: transport.queues(),
            indirect,
            next: 0,
            out: VecDeque::new(),
            reading: Cell::new(None),
            hal: PhantomData,
        })
    }

    pub fn should_notify(&self) -> bool {
        false
    }

    pub fn set_dev_notify(&mut self, _enable: bool) {}

    pub fn available_desc(&self) -> usize {
        self.queues.borrow_mut().turn();
        match self.out.len() {
            out if !self.indirect => SIZE - PARTS * out,
            out if out < SIZE => SIZE,
            _all => 0,
        }
    }

    /// # Safety
    /// The buffers live until `pop_used`.
    pub unsafe fn add<'a, 'b>(&mut self, inputs: &'a [&'b [u8]], _outputs: &'a mut [&'b mut [u8]]) -> Result<u16> {
        let [stream, period] = inputs else {
            return Err(Error::InvalidParam);
        };
        let stream = u32::from_le_bytes((*stream).try_into().map_err(|_| Error::InvalidParam)?);
        let slot = self.next;
        if !self.queues.borrow_mut().submit(slot, stream, period) {
            return Err(Error::QueueFull);
        }
        self.next = (slot + 1) % SIZE as u16;
        self.out.push_back(slot);
        Ok(slot)
    }

    pub fn can_pop(&self) -> bool {
        if self.reading.get().is_none() {
            self.reading.set(self.queues.borrow_mut().poll());
        }
        self.reading.get().is_some()
    }

    /// # Safety
    /// The buffers are those of `add`.
    pub unsafe fn pop_used<'a>(
        &mut self,
        token: u16,
        _inputs: &'a [&'a [u8]],
        outputs: &'a mut [&'a mut [u8]],
    ) -> Result<u32> {
        let (slot, status) = self.reading.get().ok_or(Error::NotReady)?;
        let (Some(at), Some(answer)) = (self.out.iter().position(|out| *out == token), outputs.first_mut()) else {
            return Err(Error::WrongToken);
        };
        if slot != u32::from(token) {
            return Err(Error::WrongToken);
        }
        let status = status.to_le_bytes().into_iter().chain([0; 4]);
        answer.iter_mut().zip(status).for_each(|(to, byte)| *to = byte);
        self.reading.set(None);
        self.out.remove(at);
        Ok(8)
    }

    pub fn add_notify_wait_pop<'a>(
        &mut self,
        inputs: &'a [&'a [u8]],
        outputs: &'a mut [&'a mut [u8]],
        _transport: &mut impl Transport,
    ) -> Result<u32> {
        let page = outputs.first_mut().ok_or(Error::InvalidParam)?;
        let answered = self.queues.borrow_mut().control(&inputs.concat(), page);
        if answered {
            Ok(page.len() as u32)
        } else {
            Err(Error::AlreadyUsed)
        }
    }
}

/// The event queue: the guest has taken its events off already.
pub struct OwningQueue<H: Hal, const SIZE: usize, const BUFFER_SIZE: usize> {
    queue: VirtQueue<H, SIZE>,
}

impl<H: Hal, const SIZE: usize, const BUFFER_SIZE: usize> OwningQueue<H, SIZE, BUFFER_SIZE> {
    pub fn new(queue: VirtQueue<H, SIZE>) -> Result<Self> {
        Ok(Self { queue })
    }
    pub fn should_notify(&self) -> bool {
        self.queue.should_notify()
    }
    pub fn set_dev_notify(&mut self, enable: bool) {
        self.queue.set_dev_notify(enable)
    }
    pub fn poll<T>(
        &mut self,
        _transport: &mut impl Transport,
        _handler: impl FnOnce(&[u8]) -> Result<Option<T>>,
    ) -> Result<Option<T>> {
        Ok(None)
    }
}
