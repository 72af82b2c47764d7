//! One trait for the three drivers, and everything that can be seen of a step.
use crate::case::Step;
use oracle::{End, Inside};
use std::borrow::Cow;

pub trait Driver {
    /// Makes a step; none where this driver has no counterpart of it.
    fn step(&mut self, step: &Step) -> Option<Seen>;
    /// What stands behind the calls, where it can be seen.
    fn inside(&self) -> Option<Inside>;
}

#[derive(Clone, Debug, PartialEq, Eq)]
pub struct Seen {
    pub end: End,
    /// the high half of the answer: the status that caused a 2 or a 3, or that none did; the Rust has none to show
    pub high: u32,
    pub values: Vec<u64>,
    /// the requests, each as long as it was sent
    pub requests: Vec<Vec<u8>>,
    /// the status in the page after each answer, none for the queue's failure
    pub heard: Vec<Option<u32>>,
    /// whether each strict feed's length covers what is read of its answer
    pub covered: bool,
    /// answers that nobody asked for
    pub unread: usize,
    pub turns: u64,
    pub log: Vec<Turn>,
    pub sent: Vec<Sent>,
    /// slot, offset and length of what is in flight afterwards, oldest first
    pub in_flight: Vec<(u64, u64, u64)>,
    /// tokens of what does not wait that are pending afterwards, ascending
    pub pending: Vec<u64>,
    /// of each its state and its status, and what stands in the places: the Rust has neither
    pub held: Vec<(u64, u64)>,
    pub places: u64,
    /// what stands in the recording after a capture: the Rust has none
    pub recorded: u64,
    /// how many good completions the ring tells, after a start and after each turn or drain turn: the Rust tells none
    pub accepted: Vec<u64>,
    pub model: Option<ModelSeen>,
    /// bytes written that are not the call's own, numbers that disagree: always none
    pub stray: Vec<String>,
}

impl Seen {
    pub fn new(end: End, values: Vec<u64>) -> Self {
        let (requests, heard, log, sent, in_flight, stray) = Default::default();
        let (pending, held, places, recorded, accepted) = Default::default();
        Seen {
            end,
            high: 0,
            values,
            requests,
            heard,
            covered: true,
            unread: 0,
            turns: 0,
            log,
            sent,
            in_flight,
            pending,
            held,
            places,
            recorded,
            accepted,
            model: None,
            stray,
        }
    }

    /// Without the status: "equality with the Rust then reads after mapping all to IoError, or Unsupported for remap". And without what it
    /// does not have of what does not wait: marks, and places. And without what it does not tell: how much was accepted.
    pub fn forgetting(&self) -> Cow<'_, Self> {
        if self.high == 0 && self.held.is_empty() && self.places == 0 && self.accepted.is_empty() {
            return Cow::Borrowed(self);
        }
        Cow::Owned(Seen { high: 0, held: vec![], places: 0, accepted: vec![], ..self.clone() })
    }
}

#[derive(Copy, Clone, Debug, PartialEq, Eq)]
pub struct Turn {
    /// descriptors free at its beginning
    pub free: usize,
    pub sent: Option<u16>,
    /// whether the reading was looked at
    pub looked: bool,
    pub read: Option<(u32, u32)>,
}

#[derive(Copy, Clone, Debug, PartialEq, Eq)]
pub struct Sent {
    pub slot: u16,
    pub offset: u64,
    pub length: u64,
    /// of the bytes that the queue was handed: stream id, payload
    pub digest: u64,
}

#[derive(Clone, Debug, PartialEq, Eq)]
pub struct ModelSeen {
    /// the answer's bytes; Err is what the device panicked with
    pub answer: Result<Vec<u8>, String>,
    /// the payload that a transfer showed
    pub payload: Vec<u8>,
    pub params: Vec<Option<Vec<u8>>>,
    pub played: Vec<u64>,
}

/// FNV-1a, going on from `seed`.
pub fn digest(seed: u64, bytes: &[u8]) -> u64 {
    bytes.iter().fold(seed, |hash, byte| (hash ^ *byte as u64).wrapping_mul(0x100_0000_01b3))
}
pub const DIGEST: u64 = 0xcbf2_9ce4_8422_2325;
