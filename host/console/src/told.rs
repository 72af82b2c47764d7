//! What happened in one announcement, as the console saw it, and its page.
use crate::files::Recording;
use crate::script::Asked;
use page::{Built, Completed, Drain, Fault, Gap, Page, Part, Refused, Same, Stream, Times, Turns, What, When, Why};
use snd::{Offer, Reading, SLOTS, STATUS_OK};

/// Faults that a page lists; more are counted.
pub(crate) const LISTED: usize = 16;
/// The periods behind those that were accepted are at most as many in flight as there are slots and one that failed, each a gap of its own, and the rest,
/// one gap more.
const GAPS: usize = SLOTS + 2;

/// Things that were told, as many as there is room for.
pub struct List<T, const N: usize> {
    things: [T; N],
    count: usize,
    pub more: u64,
}

impl<T: Copy, const N: usize> List<T, N> {
    pub(crate) const fn new(unused: T) -> Self {
        Self {
            things: [unused; N],
            count: 0,
            more: 0,
        }
    }

    pub(crate) fn push(&mut self, thing: T) {
        match self.things.get_mut(self.count) {
            Some(place) => {
                *place = thing;
                self.count += 1;
            }
            None => self.more += 1,
        }
    }

    pub fn listed(&self) -> &[T] {
        self.things.get(..self.count).unwrap_or_default()
    }
}

/// The period that a slot carried last.
#[derive(Clone, Copy)]
struct Carried {
    /// Counted from 0.
    period: usize,
    length: usize,
    completed: Option<Completed>,
}

pub struct Told {
    /// The ring is for indirect descriptors.
    pub indirect: bool,
    pub stream: Option<Stream>,
    pub refused: Option<Refused>,
    pub turns: Turns,
    pub times: Times,
    pub drain: Drain,
    pub owed: u64,
    pub submitted: u64,
    pub accepted: Part,
    /// Periods that were accepted by the driver's own count.
    pub spoken: Option<u64>,
    /// The most turns from one completion to the next, or from the start to the first.
    pub apart: u64,
    quiet: u64,
    completions: u64,
    pub faults: List<Fault, LISTED>,
    pub gaps: List<Gap, GAPS>,
    carried: [Option<Carried>; SLOTS],
}

const NOTHING: Part = Part {
    periods: 0,
    bytes: 0,
    sha256: None,
    same: Same::Nothing,
};

impl Default for Told {
    fn default() -> Self {
        Self::new()
    }
}

/// What stands in places of a list that are not in use.
pub(crate) const FAULT: Fault = Fault {
    when: When::Transfer(0),
    what: What::Status { period: 0, status: 0 },
};
const GAP: Gap = Gap {
    first: 0,
    last: 0,
    offset: 0,
    length: 0,
    why: Why::NotSubmitted,
};

impl Told {
    pub const fn new() -> Self {
        Self {
            indirect: false,
            stream: None,
            refused: None,
            turns: Turns {
                run: 0,
                allowed: 0,
                enough: 0,
                slow: 0,
            },
            times: Times {
                longest: core::time::Duration::ZERO,
                whole: core::time::Duration::ZERO,
            },
            drain: Drain {
                run: 0,
                allowed: 0,
                accepted: NOTHING,
            },
            owed: 0,
            submitted: 0,
            accepted: NOTHING,
            spoken: None,
            apart: 0,
            quiet: 0,
            completions: 0,
            faults: List::new(FAULT),
            gaps: List::new(GAP),
            carried: [None; SLOTS],
        }
    }

    /// A period was put on the queue.
    pub fn submitted(&mut self, offer: &Offer) {
        if let Some(place) = self.carried.get_mut(offer.slot as usize) {
            *place = Some(Carried {
                period: self.submitted as usize,
                length: offer.period.len(),
                completed: None,
            });
        }
        self.submitted += 1;
    }

    /// A turn or drain turn is about to be run with this reading; `due` is the oldest slot in flight.
    pub fn read(&mut self, when: When, reading: Reading, due: Option<u32>) {
        self.quiet += 1;
        let Reading::Completed { slot, status } = reading else {
            return;
        };
        if let When::Transfer(_) = when {
            self.apart = self.apart.max(self.quiet);
        }
        self.quiet = 0;
        self.completions += 1;
        let place = self.carried.get_mut(slot as usize).and_then(Option::as_mut);
        let Some(carried) = place.filter(|_| due == Some(slot)) else {
            let (completion, due) = (self.completions, due.unwrap_or(u32::MAX));
            let what = What::WrongSlot {
                completion,
                named: slot,
                due,
            };
            return self.faults.push(Fault { when, what });
        };
        carried.completed = Some(Completed { when, status });
        if status == STATUS_OK {
            let part = match when {
                When::Transfer(_) => &mut self.accepted,
                When::Drain(_) => &mut self.drain.accepted,
            };
            part.periods += 1;
            part.bytes += carried.length;
            part.same = Same::Told;
        } else {
            let period = carried.period + 1;
            let what = What::Status { period, status };
            self.faults.push(Fault { when, what });
        }
    }

    /// Why a period, counted from 0, was not accepted.
    fn missing(&self, period: usize) -> Option<Why> {
        if period < self.accepted.periods {
            return None;
        }
        if period as u64 >= self.submitted {
            return Some(Why::NotSubmitted);
        }
        let carried = self.carried.iter().flatten().find(|carried| carried.period == period);
        match carried.and_then(|carried| carried.completed) {
            Some(completed) if completed.status == STATUS_OK => None,
            Some(completed) => Some(Why::Status(completed.status)),
            None => Some(Why::NotCompleted),
        }
    }

    /// Looks for what was not accepted, when all is over.
    pub fn ended(&mut self, bytes: usize, period: usize) {
        // with a period of no bytes nothing was submitted: all of it is one gap
        let size = if period == 0 { bytes.max(1) } else { period };
        let mut list = List::new(GAP);
        let missing = (0..bytes.div_ceil(size)).map(|period| self.missing(period));
        page::gaps(bytes, size, missing).for_each(|gap| list.push(gap));
        self.gaps = list;
    }

    pub fn page<'p>(&'p self, asked: &Asked, recording: &'p Recording) -> Page<'p> {
        Page {
            name: recording.name,
            bytes: recording.frames.len(),
            file: recording.wave.and_then(Result::ok).map(|wave| wave.file),
            sha256: recording.sha256,
            parts: &[],
            params: asked.params,
            strict: true,
            guard: false,
            indirect: self.indirect,
            virtio: None,
            jacks: None,
            going_on: None,
            stream: self.stream,
            turns: self.turns,
            submitted: self.submitted,
            accepted: self.accepted,
            spoken: self.spoken,
            faults: self.faults.listed(),
            owed: self.owed,
            drain: self.drain,
            gaps: self.gaps.listed(),
            refused: self.refused,
            times: self.times,
            built: Built::here(None),
        }
    }
}
