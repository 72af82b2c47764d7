//! Stand-in for the crate's virtqueue, after document 01. Assumed:
//! - 32 descriptors, one for each buffer of a submission; `available_desc` tells how many are free;
//! - with indirect descriptors one for each submission, whatever its buffers; `available_desc` then tells 32 while one is free and 0 when none
//!   is, so that a driver which looks for three finds room whenever there is any;
//! - a completion names what it completes; `pop_used` with another token gives WrongToken and frees nothing, with the right
//!   token writes the status into the buffer that was added and frees its descriptors;
//! - a control exchange writes what the device wrote over the driver's page and leaves the rest;
//! - a submission of one buffer, which does not wait, is used when the device says so, and `pop_used` takes used ones in that order
//!   only: with none used it gives NotReady, with another token than the next WrongToken;
//! - `pcm_xfer` asks `available_desc` once at the top of each iteration and nowhere else, so a turn begins there.
use crate::api::{Control, Outside, Tokens};
use crate::transport::Transport;
use crate::{Error, Hal, Result};
use std::cell::RefCell;
use std::collections::VecDeque;
use std::marker::PhantomData;
use std::panic::panic_any;
use std::rc::Rc;

const CONTROL: u16 = 0;
const EVENT: u16 = 1;
const TX: u16 = 2;
const DESCRIPTORS: u16 = 32;

/// How a run is ended from outside.
#[derive(Copy, Clone, Debug, PartialEq, Eq)]
pub enum Marker {
    Spins,
    Waits,
}

struct Flight {
    slot: u16,
    token: u16,
    descriptors: Vec<u16>,
    /// where each buffer lies, and how long it is
    buffers: Vec<(usize, usize)>,
}

/// What the queues of one driver share.
pub struct Queues {
    pub outside: Option<Box<dyn Outside>>,
    tokens: Tokens,
    /// negotiated: a submission takes one descriptor
    indirect: bool,
    free: Vec<u16>,
    flight: VecDeque<Flight>,
    /// what does not wait, and of it what the device has used, in that order
    alone: Vec<Flight>,
    used: VecDeque<(u16, u32)>,
    next_slot: u16,
    /// this turn's reading, once it was asked for
    reading: Option<Option<(u32, u32)>>,
}
pub type Shared = Rc<RefCell<Queues>>;

impl Queues {
    pub fn new(tokens: Tokens, indirect: bool) -> Shared {
        let free = (0..DESCRIPTORS).rev().collect();
        let (flight, alone, used) = Default::default();
        let (outside, next_slot, reading) = (None, 0, None);
        Rc::new(RefCell::new(Queues { outside, tokens, indirect, free, flight, alone, used, next_slot, reading }))
    }
    /// What `available_desc` tells.
    fn available(&self) -> usize {
        match self.free.len() {
            0 => 0,
            _ if self.indirect => DESCRIPTORS.into(),
            free => free,
        }
    }
    /// A transfer numbers its slots from 0. What an earlier one left in flight (outside document 01's domain) is told apart by 32 more.
    pub fn begin(&mut self, outside: Box<dyn Outside>, transfer: bool) {
        self.outside = Some(outside);
        if transfer {
            self.next_slot = 0;
            self.flight.iter_mut().for_each(|f| f.slot = DESCRIPTORS + f.slot % DESCRIPTORS);
        }
    }
    pub fn in_flight(&self) -> Vec<u16> {
        self.flight.iter().map(|f| f.slot).collect()
    }
    fn outside(&mut self) -> &mut dyn Outside {
        &mut **self.outside.as_mut().expect("a call is being made")
    }
    pub fn complete(&mut self, token: u16, status: u32) {
        assert!(self.alone.iter().any(|f| f.token == token), "a device uses what it has");
        self.used.push_back((token, status));
    }
    /// The lowest that nothing stands under.
    fn lowest_token(&self) -> u16 {
        (0..).find(|token| self.alone.iter().all(|f| f.token != *token)).expect("there are enough numbers")
    }
    fn give_back(&mut self, flight: Flight) {
        self.free.extend(flight.descriptors.into_iter().rev());
    }
    pub fn drain(&mut self, slot: u32) {
        if self.flight.front().is_some_and(|f| f.slot as u32 == slot) {
            let oldest = self.flight.pop_front().unwrap();
            self.give_back(oldest);
        }
    }
}

impl Queues {
    /// What this turn read, if it is what the token names.
    fn read(&mut self, token: u16) -> Result<(Flight, u32)> {
        let Some(Some((slot, status))) = self.reading else {
            return Err(Error::NotReady);
        };
        let named = self.flight.iter().position(|f| f.slot as u32 == slot && f.token == token);
        let Some(at) = named else { return Err(Error::WrongToken) };
        Ok((self.flight.remove(at).unwrap(), status))
    }
    /// The next that is used of what does not wait, if it is what the token names.
    fn next_used(&mut self, token: u16) -> Result<(Flight, u32)> {
        let (used, status) = *self.used.front().ok_or(Error::NotReady)?;
        if used != token {
            return Err(Error::WrongToken);
        }
        self.used.pop_front();
        let at = self.alone.iter().position(|f| f.token == token).expect("what is used was added");
        Ok((self.alone.remove(at), status))
    }
}

pub struct VirtQueue<H: Hal, const SIZE: usize> {
    index: u16,
    shared: Shared,
    hal: PhantomData<H>,
}

fn places(inputs: &[&[u8]], output: &[u8]) -> Vec<(usize, usize)> {
    inputs.iter().copied().chain([output]).map(|b| (b.as_ptr() as usize, b.len())).collect()
}

impl<H: Hal, const SIZE: usize> VirtQueue<H, SIZE> {
    pub fn new<T: Transport>(transport: &mut T, index: u16, indirect: bool, _event_idx: bool) -> Result<Self> {
        let shared = transport.shared();
        assert!(SIZE == DESCRIPTORS as usize && indirect == shared.borrow().indirect, "as it was negotiated");
        Ok(Self { index, shared, hal: PhantomData })
    }
    pub fn should_notify(&self) -> bool {
        true
    }
    pub fn set_dev_notify(&mut self, _enable: bool) {}

    pub fn available_desc(&self) -> usize {
        assert_eq!(self.index, TX);
        let mut queues = self.shared.borrow_mut();
        let free = queues.available();
        if !queues.outside().turn(free) {
            drop(queues);
            panic_any(Marker::Spins);
        }
        queues.reading = None;
        free
    }

    /// # Safety
    /// The buffers live until `pop_used`.
    pub unsafe fn add<'a, 'b>(&mut self, inputs: &'a [&'b [u8]], outputs: &'a mut [&'b mut [u8]]) -> Result<u16> {
        assert!(self.index == TX && matches!(inputs.len(), 1 | 2), "only pcm_xfer and pcm_xfer_nb submit here");
        let mut queues = self.shared.borrow_mut();
        let need = if queues.indirect { 1 } else { inputs.len() + outputs.len() };
        if queues.free.len() < need {
            return Err(Error::QueueFull);
        }
        let at = queues.free.len() - need;
        let descriptors: Vec<u16> = queues.free.drain(at..).rev().collect();
        let buffers = places(inputs, outputs[0]);
        if let [alone] = inputs {
            let token = if queues.tokens == Tokens::Slots { queues.lowest_token() } else { descriptors[0] };
            queues.outside().submit_one(token, alone);
            queues.alone.push(Flight { slot: token, token, descriptors, buffers });
            return Ok(token);
        }
        let slot = queues.next_slot;
        queues.next_slot = (slot + 1) % DESCRIPTORS;
        let token = if queues.tokens == Tokens::Slots { slot } else { descriptors[0] };
        queues.outside().submit(slot, inputs[0], inputs[1]);
        queues.flight.push_back(Flight { slot, token, descriptors, buffers });
        Ok(token)
    }

    pub fn can_pop(&self) -> bool {
        assert_eq!(self.index, TX);
        let mut queues = self.shared.borrow_mut();
        assert!(queues.reading.is_none(), "two readings in one turn");
        let slots = queues.in_flight();
        let reading = queues.outside().reading(&slots);
        queues.reading = Some(reading);
        reading.is_some()
    }

    /// # Safety
    /// The buffers are those of `add`.
    pub unsafe fn pop_used<'a>(
        &mut self,
        token: u16,
        inputs: &'a [&'a [u8]],
        outputs: &'a mut [&'a mut [u8]],
    ) -> Result<u32> {
        let mut queues = self.shared.borrow_mut();
        let (flight, status) = if inputs.len() == 1 { queues.next_used(token)? } else { queues.read(token)? };
        assert!(flight.buffers == places(inputs, outputs[0]), "pop_used with other buffers than add");
        outputs[0][..4].copy_from_slice(&status.to_le_bytes());
        outputs[0][4..].fill(0x5a);
        queues.give_back(flight);
        Ok(8)
    }

    pub fn add_notify_wait_pop<'a>(
        &mut self,
        inputs: &'a [&'a [u8]],
        outputs: &'a mut [&'a mut [u8]],
        transport: &mut impl Transport,
    ) -> Result<u32> {
        assert_eq!(self.index, CONTROL);
        transport.notify(self.index);
        let answer = self.shared.borrow_mut().outside().control(&inputs.concat(), outputs[0]);
        match answer {
            Control::Answered => Ok(outputs[0].len() as u32),
            Control::Failed => Err(Error::AlreadyUsed),
            Control::NoAnswer => panic_any(Marker::Waits),
        }
    }
}

/// The event queue: it hands one waiting event, as the device wrote it, to the handler, or says that there is none.
pub struct OwningQueue<H: Hal, const SIZE: usize, const BUFFER_SIZE: usize> {
    queue: VirtQueue<H, SIZE>,
}

impl<H: Hal, const SIZE: usize, const BUFFER_SIZE: usize> OwningQueue<H, SIZE, BUFFER_SIZE> {
    pub fn new(queue: VirtQueue<H, SIZE>) -> Result<Self> {
        assert!(queue.index == EVENT && BUFFER_SIZE == 8);
        Ok(Self { queue })
    }
    pub fn should_notify(&self) -> bool {
        self.queue.should_notify()
    }
    pub fn set_dev_notify(&mut self, enable: bool) {
        self.queue.set_dev_notify(enable)
    }
    pub fn poll<T>(
        &mut self,
        _transport: &mut impl Transport,
        handler: impl FnOnce(&[u8]) -> Result<Option<T>>,
    ) -> Result<Option<T>> {
        let event = self.queue.shared.borrow_mut().outside().event();
        event.map_or(Ok(None), |event| handler(&event))
    }
}
