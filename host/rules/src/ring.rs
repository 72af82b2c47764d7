//! Turns of a transfer, of either way. Request 2026-14: "state the turn rules .. once over descriptors per submission and least room needed".

use crate::status::Verdict;
use crate::{BAD_LENGTH, BUSY, INVALID_PARAM, OUT_OF_TURNS, WRONG_TOKEN};

pub const SLOTS: usize = 32;

/// How a ring's submissions stand on the queue.
#[derive(Copy, Clone, Debug, PartialEq, Eq, Hash)]
pub enum Mode {
    Direct,
    /// "a submission takes one descriptor and goes out whenever a slot is free"
    Indirect,
}

impl Mode {
    pub const ALL: [Mode; 2] = [Mode::Direct, Mode::Indirect];

    /// The mode of so many descriptors a submission.
    pub fn of(per: u64) -> Option<Self> {
        Mode::ALL.into_iter().find(|mode| mode.per() == per)
    }

    /// Descriptors of one submission.
    pub fn per(self) -> u64 {
        match self {
            Mode::Direct => 3,
            Mode::Indirect => 1,
        }
    }

    /// The least room for one.
    pub fn least(self) -> u64 {
        self.per()
    }
}

/// Which way a transfer goes.
#[derive(Copy, Clone, Debug, PartialEq, Eq)]
pub enum Way {
    Playback,
    Capture,
}

#[derive(Clone, Debug, PartialEq, Eq)]
pub struct Ring {
    /// descriptors of a submission: made with the ring, for good
    pub per: u64,
    pub running: bool,
    pub way: Way,
    pub stream: u32,
    /// what is cut into periods: the frames, or all that a capture asks for
    pub frames_len: u64,
    /// how long the frames, or the recording, were at the start
    pub lent: u64,
    /// the accepted bytes of a recording
    pub kept: u64,
    /// how long the room for a trace was at the start: 0 where the transfer writes none
    pub room: u64,
    /// the bytes of the trace so far
    pub traced: u64,
    pub period: u64,
    pub budget: u64,
    pub turns: u64,
    /// the good completions of this transfer, or of the last that ran
    pub good: u64,
    /// the offset of the next period
    pub next: u64,
    pub head: u64,
    pub tail: u64,
    pub in_flight: u64,
    /// what each slot carries or carried: offset, length
    pub slots: [(u64, u64); SLOTS],
}

/// What a turn saw.
#[derive(Copy, Clone, Debug, PartialEq, Eq)]
pub enum Reading {
    Quiet,
    Completed { slot: u32, status: u32 },
}

impl Reading {
    /// Kind 0 is quiet, every other kind is completed.
    pub fn from_words(kind: u32, slot: u32, status: u32) -> Self {
        match kind {
            0 => Reading::Quiet,
            _ => Reading::Completed { slot, status },
        }
    }
}

#[derive(Copy, Clone, Debug, PartialEq, Eq)]
pub enum Turn {
    Going,
    Ended(Verdict),
}

impl Turn {
    /// With this number, and no status that caused it.
    pub fn ended(number: u8) -> Self {
        Turn::Ended(number.into())
    }
}

/// What the next turn submits.
#[derive(Copy, Clone, Debug, PartialEq, Eq)]
pub struct Offer {
    pub slot: u64,
    pub offset: u64,
    pub length: u64,
}

impl Default for Ring {
    fn default() -> Self {
        Ring {
            per: Mode::Direct.per(),
            running: false,
            way: Way::Playback,
            stream: 0,
            frames_len: 0,
            lent: 0,
            kept: 0,
            room: 0,
            traced: 0,
            period: 0,
            budget: 0,
            turns: 0,
            good: 0,
            next: 0,
            head: 0,
            tail: 0,
            in_flight: 0,
            slots: [(0, 0); SLOTS],
        }
    }
}

impl Ring {
    pub fn new(mode: Mode) -> Self {
        Ring { per: mode.per(), ..Ring::default() }
    }

    /// Direct, or indirect; any other number of descriptors is no ring's.
    fn mode(&self) -> Option<Mode> {
        Mode::of(self.per)
    }

    pub fn consistent(&self) -> bool {
        let slots = SLOTS as u64;
        // in flight is a number of its own: head equals tail when empty and when full
        let fits = self.mode().is_some_and(|mode| self.in_flight <= slots / mode.per());
        let small = self.head < slots && self.tail < slots && fits;
        small
            && self.head == (self.tail + self.in_flight) % slots
            && self.next <= self.frames_len
            && self.kept <= self.lent
            && self.good <= self.turns
            && (!self.running || (self.period > 0 && self.turns < self.budget))
    }

    /// A call must wait: a transfer runs or a slot is in flight.
    pub fn busy(&self) -> bool {
        self.running || self.in_flight > 0
    }

    pub fn free(&self) -> u64 {
        SLOTS as u64 - self.per * self.in_flight
    }

    /// Whether a submission has room. Of a consistent ring.
    fn has_room(&self) -> bool {
        self.mode().is_some_and(|mode| self.free() >= mode.least())
    }

    pub fn oldest(&self) -> Option<u64> {
        (self.in_flight > 0).then_some(self.tail)
    }

    /// A transfer whose stream and period passed their checks begins.
    pub fn start(&mut self, stream: u32, frames_len: u64, period: u64, budget: u64) -> Turn {
        if let Some(number) = self.bars_start(budget) {
            return Turn::ended(number);
        }
        self.begin(Ring { stream, frames_len, lent: frames_len, period, budget, ..Ring::default() })
    }

    /// Why a transfer of any way cannot begin.
    pub(crate) fn bars_start(&self, budget: u64) -> Option<u8> {
        match budget {
            _ if self.busy() => Some(BUSY),
            0 => Some(OUT_OF_TURNS),
            _ => None,
        }
    }

    /// Slots keep what they carried, and the ring its mode.
    pub(crate) fn begin(&mut self, start: Ring) -> Turn {
        *self = Ring { running: true, slots: self.slots, per: self.per, ..start };
        Turn::Going
    }

    /// Why a turn of this way, lent frames or a recording of this length, would be refused.
    pub(crate) fn bars(&self, way: Way, lent: u64) -> Option<u8> {
        if self.running && lent != self.lent {
            Some(BAD_LENGTH)
        } else if !self.consistent() || !self.running || self.way != way {
            Some(INVALID_PARAM)
        } else {
            None
        }
    }

    pub(crate) fn next_offer(&self) -> Option<Offer> {
        (self.has_room() && self.next < self.frames_len).then(|| Offer {
            slot: self.head,
            offset: self.next,
            length: self.period.min(self.frames_len - self.next),
        })
    }

    pub fn offered(&self, frames_len: u64) -> Result<Option<Offer>, u8> {
        match self.bars(Way::Playback, frames_len) {
            Some(number) => Err(number),
            None => Ok(self.next_offer()),
        }
    }

    fn end(&mut self, said: impl Into<Verdict>) -> Turn {
        self.running = false;
        Turn::Ended(said.into())
    }

    fn free_oldest(&mut self) {
        self.tail = (self.tail + 1) % SLOTS as u64;
        self.in_flight -= 1;
    }

    pub fn turn(&mut self, frames_len: u64, reading: Reading) -> Turn {
        self.turn_traced(frames_len, &mut [], reading)
    }

    /// The rules of one turn of either way: "turn order, ring and budget are playback's, by one shared statement". The judgement of a
    /// completion is the way's own; it comes when the slot is the oldest, which is freed whatever it says. One that it takes is counted.
    pub(crate) fn ruled(
        &mut self,
        completed: Option<u32>,
        judge: impl FnOnce(&mut Self) -> Result<(), Verdict>,
    ) -> Turn {
        self.turns += 1;
        // 1. submit a period, or end where none remains and nothing is in flight
        if let Some(offer) = self.next_offer() {
            self.slots[self.head as usize] = (offer.offset, offer.length);
            self.head = (self.head + 1) % SLOTS as u64;
            self.in_flight += 1;
            self.next += offer.length;
        } else if self.has_room() && self.in_flight == 0 {
            return self.end(crate::OK);
        }
        // 2. the reading
        if let Some(slot) = completed {
            if self.oldest() != Some(slot as u64) {
                return self.end(WRONG_TOKEN);
            }
            self.free_oldest();
            if let Err(refused) = judge(self) {
                return self.end(refused);
            }
            self.good += 1;
        }
        if self.turns == self.budget {
            return self.end(OUT_OF_TURNS);
        }
        Turn::Going
    }

    /// "Drain turns free owed slots, oldest first, ignoring status."
    pub fn drain_turn(&mut self, reading: Reading) -> u8 {
        if !self.consistent() || self.running {
            return INVALID_PARAM;
        }
        if let Reading::Completed { slot, .. } = reading {
            if self.oldest() != Some(slot as u64) {
                return WRONG_TOKEN;
            }
            self.free_oldest();
        }
        crate::OK
    }
}
