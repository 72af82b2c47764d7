//! A split virtqueue of 32 descriptors, direct or indirect. Requests are copied in and answers out, a payload is lent for good, and nothing that the device writes is believed
//! before it was checked: so its edge is safe, whatever the device writes into the memory that it was given.
#![no_std]
#![deny(clippy::undocumented_unsafe_blocks)]
#![deny(clippy::unwrap_used, clippy::expect_used, clippy::panic)]
#![allow(
    clippy::indexing_slicing,
    reason = "chains and sets are below their arrays' lengths, a place in a ring is taken modulo its length, a byte's place is that of the slice beside it"
)]
use core::mem::MaybeUninit;
use core::ptr::{read_volatile, write_volatile};
use core::sync::atomic::{Ordering, fence};

/// Descriptors of a queue.
pub const LENGTH: usize = 32;
/// Descriptors of a chain: request, payload, answer.
const PARTS: usize = 3;
/// Sets of heads: a queue uses the next one after each reset. QEMU 10.0.2's sound device keeps its periods over a reset, and completes them into the new
/// ring: by their heads they are seen to be none of the new ones. With indirect descriptors every head may be in use, and each set has the same ones.
const SETS: usize = PARTS;
/// Chains that fit with direct descriptors, so that every set of heads has its own; with indirect ones there are as many as descriptors.
pub const DIRECT_CHAINS: usize = (LENGTH + 1 - SETS) / PARTS;
/// Bytes of a request at most.
const REQUEST: usize = 32;

/// In `flags` of the available ring: no interrupt is wanted, the timer's tick looks.
const NO_INTERRUPT: u16 = 1;
const NEXT: u64 = 1;
const WRITE: u64 = 2;
/// A descriptor of descriptors: those of a whole chain stand where it points.
const INDIRECT: u64 = 4;
/// Bytes of a descriptor.
const DESCRIPTOR: usize = 16;

/// What the device reads and writes, but for payloads. Each set of heads has requests and answers of its own, so that a period which the device kept over
/// a reset is answered in no place that is in use again.
#[repr(C, align(4096))]
pub struct Memory<const CHAINS: usize, const ANSWER: usize> {
    descriptors: [[u64; 2]; LENGTH],
    /// The descriptors of each chain, where they are indirect.
    table: [[[[u64; 2]; PARTS]; CHAINS]; SETS],
    available: Available,
    used: Used,
    request: [[[u8; REQUEST]; CHAINS]; SETS],
    answer: [[[u8; ANSWER]; CHAINS]; SETS],
}
#[repr(C, align(4))]
struct Available {
    flags: u16,
    index: u16,
    heads: [u16; LENGTH],
}
#[repr(C, align(4))]
struct Used {
    flags: u16,
    index: u16,
    /// Head and bytes written.
    entries: [[u32; 2]; LENGTH],
}

impl Available {
    const EMPTY: Self = Self {
        flags: NO_INTERRUPT,
        index: 0,
        heads: [0; LENGTH],
    };
}

impl Used {
    const EMPTY: Self = Self {
        flags: 0,
        index: 0,
        entries: [[0; 2]; LENGTH],
    };
}

impl<const CHAINS: usize, const ANSWER: usize> Memory<CHAINS, ANSWER> {
    /// Memory that no queue has used yet.
    #[must_use]
    pub const fn new() -> Self {
        Self {
            descriptors: [[0; 2]; LENGTH],
            table: [[[[0; 2]; PARTS]; CHAINS]; SETS],
            available: Available::EMPTY,
            used: Used::EMPTY,
            request: [[[0; REQUEST]; CHAINS]; SETS],
            answer: [[[0; ANSWER]; CHAINS]; SETS],
        }
    }

    /// The same in a place of its own, for memory that is too large for a stack. All are zeros; what the rings begin with is written by `Queue::empty`.
    pub fn make(place: &mut MaybeUninit<Self>) -> &mut Self {
        // SAFETY: all of it are whole numbers, for which zeros stand.
        unsafe {
            place.as_mut_ptr().write_bytes(0, 1);
            place.assume_init_mut()
        }
    }
}

impl<const CHAINS: usize, const ANSWER: usize> Default for Memory<CHAINS, ANSWER> {
    fn default() -> Self {
        Self::new()
    }
}

/// Where the three parts of a queue are: their addresses, for the device.
#[derive(Clone, Copy, PartialEq, Eq, Debug)]
pub struct Places {
    /// `LENGTH` descriptors.
    pub descriptors: u64,
    /// The ring of what is the device's.
    pub available: u64,
    /// The ring of what came back.
    pub used: u64,
}

/// A chain that came back.
#[derive(Clone, Copy, PartialEq, Eq, Debug)]
pub struct Done {
    /// Which.
    pub chain: usize,
    /// Bytes that the device says to have written, no more than there was room for.
    pub written: usize,
}

/// The device said what cannot be: a head that is not out, more bytes than there was room for, more chains than are out.
#[derive(Clone, Copy, PartialEq, Eq, Debug)]
pub struct Odd;

/// A queue of `CHAINS` chains, of which no more than `DIRECT_CHAINS` are in use with direct descriptors, with answers of at most `ANSWER` bytes.
pub struct Queue<const CHAINS: usize, const ANSWER: usize> {
    /// This queue's alone, and the device's: by volatile accesses only.
    memory: *mut Memory<CHAINS, ANSWER>,
    /// As it was agreed on with the device.
    indirect: bool,
    set: usize,
    available: u16,
    used: u16,
    /// The room for an answer of the chains that are out.
    out: [Option<usize>; CHAINS],
}

impl<const CHAINS: usize, const ANSWER: usize> Queue<CHAINS, ANSWER> {
    /// A queue in memory that is its own for good. `empty` comes before its first use.
    pub fn new(memory: &'static mut Memory<CHAINS, ANSWER>) -> Self {
        const { assert!(CHAINS <= LENGTH, "every chain has a head") };
        Self {
            memory,
            indirect: false,
            set: 0,
            available: 0,
            used: 0,
            out: [None; CHAINS],
        }
    }

    /// Empties the queue, for a device that was just reset, and goes on to the next set of heads. Tells the device's places. The device should have let go of
    /// the memory at its reset; one that has not writes into nothing else, since the memory is this queue's for good. Its descriptors are direct.
    pub fn empty(&mut self) -> Places {
        self.emptied(false)
    }

    /// The same with indirect descriptors, where the device has agreed to them: each chain takes one, so that all `CHAINS` may be out. The heads are then the
    /// same after each reset: what a device kept is not seen to be none of the new ones, but its answer stands in no place that is read again, so that it is
    /// taken for a chain that came back with zeros.
    pub fn empty_indirect(&mut self) -> Places {
        self.emptied(true)
    }

    fn emptied(&mut self, indirect: bool) -> Places {
        self.indirect = indirect;
        self.set = (self.set + 1) % SETS;
        (self.available, self.used) = (0, 0);
        self.out = [None; CHAINS];
        let memory = self.memory;
        // SAFETY: places of this queue's memory.
        unsafe {
            write_volatile(&raw mut (*memory).available, Available::EMPTY);
            write_volatile(&raw mut (*memory).used, Used::EMPTY);
            Places {
                descriptors: (&raw const (*memory).descriptors).addr() as u64,
                available: (&raw const (*memory).available).addr() as u64,
                used: (&raw const (*memory).used).addr() as u64,
            }
        }
    }

    /// How many chains may be out.
    fn most(&self) -> usize {
        if self.indirect {
            CHAINS
        } else {
            CHAINS.min(DIRECT_CHAINS)
        }
    }

    fn head(&self, chain: usize) -> usize {
        if self.indirect { chain } else { PARTS * chain + self.set }
    }

    /// The chain of a head, if it is of this set.
    fn chain(&self, head: usize) -> Option<usize> {
        if self.indirect {
            return Some(head);
        }
        (head % PARTS == self.set).then_some(head / PARTS)
    }

    /// Makes a request the device's, with a payload that stays as it is for good, and room for an answer; parts of no bytes are left out. Tells the chain, and
    /// the device is to be told then that there is something new; `None`: no chain is free, or a length cannot be.
    #[must_use = "the device is not told yet"]
    pub fn send(&mut self, request: &[u8], payload: &'static [u8], room: usize) -> Option<usize> {
        let chain = self.out.iter().take(self.most()).position(Option::is_none)?;
        let lengths = request.len() <= REQUEST && room <= ANSWER && u32::try_from(payload.len()).is_ok();
        if !lengths || request.len() + payload.len() + room == 0 {
            return None;
        }
        let (memory, set) = (self.memory, self.set);
        // SAFETY: places of this queue's memory. The chain is not out, so the device reads and writes none of them.
        let (asks, answers) = unsafe {
            for (at, byte) in request.iter().enumerate() {
                write_volatile(&raw mut (*memory).request[set][chain][at], *byte);
            }
            // zeros: a device that writes nothing must not be taken at the word of the one before
            for at in 0..room {
                write_volatile(&raw mut (*memory).answer[set][chain][at], 0);
            }
            (
                &raw const (*memory).request[set][chain],
                &raw const (*memory).answer[set][chain],
            )
        };
        let parts = [
            (asks.addr(), request.len(), 0),
            (payload.as_ptr().addr(), payload.len(), 0),
            (answers.addr(), room, WRITE),
        ];
        self.describe(chain, parts);
        self.out[chain] = Some(room);
        self.give(chain);
        Some(chain)
    }

    /// Writes the descriptors of a chain that is not out: address, length and flags of each part that has bytes. Indirect ones stand in the chain's own table,
    /// and the one of the queue points there.
    fn describe(&mut self, chain: usize, parts: [(usize, usize, u64); PARTS]) {
        let (memory, set) = (self.memory, self.set);
        let first = if self.indirect { 0 } else { self.head(chain) };
        let count = parts.iter().filter(|(_, length, _)| *length > 0).count();
        let parts = parts.into_iter().filter(|(_, length, _)| *length > 0);
        for (number, (address, length, flags)) in parts.enumerate() {
            let (next, flags) = if number + 1 < count {
                ((first + number + 1) as u64, flags | NEXT)
            } else {
                (0, flags)
            };
            // SAFETY: a place of this queue's memory, of a chain that is not out.
            unsafe {
                let place = if self.indirect {
                    &raw mut (*memory).table[set][chain][number]
                } else {
                    &raw mut (*memory).descriptors[first + number]
                };
                write_volatile(place, [address as u64, length as u64 | flags << 32 | next << 48]);
            }
        }
        if self.indirect {
            // SAFETY: as above.
            unsafe {
                let table = (&raw const (*memory).table[set][chain]).addr() as u64;
                let place = &raw mut (*memory).descriptors[self.head(chain)];
                write_volatile(place, [table, (DESCRIPTOR * count) as u64 | INDIRECT << 32]);
            }
        }
    }

    /// Makes a described chain the device's.
    fn give(&mut self, chain: usize) {
        let (memory, head) = (self.memory, self.head(chain) as u16);
        let place = usize::from(self.available) % LENGTH;
        self.available = self.available.wrapping_add(1);
        // SAFETY: places of this queue's memory.
        unsafe {
            write_volatile(&raw mut (*memory).available.heads[place], head);
            // what is described, before the index that shows it
            fence(Ordering::SeqCst);
            write_volatile(&raw mut (*memory).available.index, self.available);
        }
        // the index, before the word about it
        fence(Ordering::SeqCst);
    }

    /// Looks once. The answer of a chain that came back is copied to `answer`, as far as that goes.
    pub fn poll(&mut self, answer: &mut [u8]) -> Result<Option<Done>, Odd> {
        let memory = self.memory;
        // SAFETY: a place of this queue's memory, read whole.
        let index = unsafe { read_volatile(&raw const (*memory).used.index) };
        let new = usize::from(index.wrapping_sub(self.used));
        if new == 0 {
            return Ok(None);
        }
        // the index, before the entry that it shows
        fence(Ordering::SeqCst);
        let place = usize::from(self.used) % LENGTH;
        // SAFETY: as above.
        let [head, written] = unsafe { read_volatile(&raw const (*memory).used.entries[place]) };
        self.used = self.used.wrapping_add(1);
        let (head, written) = (head as usize, written as usize);
        // what is odd leaves every chain as it was
        let chain = self.chain(head).filter(|_| new <= LENGTH).ok_or(Odd)?;
        let out = self.out.get_mut(chain);
        let out = out.filter(|out| out.is_some_and(|room| written <= room));
        let room = out.and_then(Option::take).ok_or(Odd)?;
        for (at, byte) in answer.iter_mut().enumerate().take(room) {
            // SAFETY: as above, of a chain that is the program's again.
            *byte = unsafe { read_volatile(&raw const (*memory).answer[self.set][chain][at]) };
        }
        Ok(Some(Done { chain, written }))
    }
}
