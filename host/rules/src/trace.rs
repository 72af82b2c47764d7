//! Request 2026-11: traces of transfers. "Fix a trace as tagged fields, one-byte tag and two-byte length"; each turn writes its own; a
//! foreign trace is judged by running turns beside its bytes.

use crate::ring::{Mode, Reading, Ring, SLOTS, Turn, Way};
use crate::sound::{Say, Sound};
use crate::status::Status;
use crate::wire::{STATUS_OK, u16_at, u32_at};
use crate::{BAD_LENGTH, BAD_TRACE, INVALID_PARAM, NOT_A_RUN};
use std::collections::HashSet;

/// Before a field's contents: tag 1, length 2.
const HEAD: usize = 3;

#[derive(Copy, Clone, Debug, PartialEq, Eq, Hash)]
pub enum Field {
    /// the frame length and the period in bytes
    Start {
        stream: u32,
        length: u32,
        period: u32,
    },
    Submitted {
        slot: u8,
        offset: u32,
        length: u32,
    },
    Completed {
        slot: u8,
        status: u32,
    },
    /// the answer's number
    End {
        answer: u8,
    },
}

impl Field {
    pub fn tag(self) -> u8 {
        match self {
            Field::Start { .. } => 0,
            Field::Submitted { .. } => 1,
            Field::Completed { .. } => 2,
            Field::End { .. } => 3,
        }
    }

    /// The length of the contents by a tag; another tag is unknown.
    fn length(tag: u8) -> Option<usize> {
        [12, 9, 5, 1].get(tag as usize).copied()
    }

    fn contents(self) -> Vec<u8> {
        let small = |first: u8, rest: &[u32]| [vec![first], crate::wire::words(rest)].concat();
        match self {
            Field::Start { stream, length, period } => crate::wire::words(&[stream, length, period]),
            Field::Submitted { slot, offset, length } => small(slot, &[offset, length]),
            Field::Completed { slot, status } => small(slot, &[status]),
            Field::End { answer } => vec![answer],
        }
    }

    pub fn bytes(self) -> Vec<u8> {
        let contents = self.contents();
        let mut bytes = vec![self.tag()];
        bytes.extend((contents.len() as u16).to_le_bytes());
        bytes.extend(contents);
        bytes
    }

    /// The field at the front of some bytes, and its whole length; none for "an unknown tag, a wrong length or a cut field".
    fn read(bytes: &[u8]) -> Option<(Self, usize)> {
        let head = bytes.get(..HEAD)?;
        let length = Field::length(head[0]).filter(|length| *length == u16_at(head, 1) as usize)?;
        let inside = bytes.get(HEAD..HEAD + length)?;
        let field = match head[0] {
            0 => Field::Start { stream: u32_at(inside, 0), length: u32_at(inside, 4), period: u32_at(inside, 8) },
            1 => Field::Submitted { slot: inside[0], offset: u32_at(inside, 1), length: u32_at(inside, 5) },
            2 => Field::Completed { slot: inside[0], status: u32_at(inside, 1) },
            _ => Field::End { answer: inside[0] },
        };
        Some((field, HEAD + length))
    }
}

/// The bytes of fields, one after the other.
pub fn bytes(fields: &[Field]) -> Vec<u8> {
    fields.iter().flat_map(|field| field.bytes()).collect()
}

/// What is said against a trace: "each tells an offset".
#[derive(Copy, Clone, Debug, PartialEq, Eq)]
pub struct Fault {
    pub number: u8,
    pub at: usize,
}

/// The fields of a trace, or 18 and the offset of the first that is none; an empty trace has none at 0.
pub fn scan(trace: &[u8]) -> Result<Vec<Field>, Fault> {
    let (mut fields, mut at) = (vec![], 0);
    while at < trace.len() || at == 0 {
        let (field, length) = Field::read(&trace[at..]).ok_or(Fault { number: BAD_TRACE, at })?;
        fields.push(field);
        at += length;
    }
    Ok(fields)
}

/// "Each transfer turn writes its submission, then its completion; the end comes last." What a turn wrote, by what it did to the ring; the
/// first one writes the start before. "Quiet readings and wrong tokens leave no field."
fn written(before: &Ring, after: &Ring, reading: Reading, said: Turn) -> Vec<Field> {
    let mut fields = vec![];
    if before.turns == 0 {
        let (length, period) = (before.frames_len as u32, before.period as u32);
        fields.push(Field::Start { stream: before.stream, length, period });
    }
    if after.head != before.head {
        let (offset, length) = after.slots[before.head as usize];
        fields.push(Field::Submitted { slot: before.head as u8, offset: offset as u32, length: length as u32 });
    }
    if let (Reading::Completed { status, .. }, true) = (reading, after.tail != before.tail) {
        fields.push(Field::Completed { slot: before.tail as u8, status });
    }
    if let Turn::Ended(said) = said {
        fields.push(Field::End { answer: said.number });
    }
    fields
}

/// Room for every field of n whole turns, the start and the end: 19 + 20n, computed wide.
pub fn room_for(frames_len: u64, period: u64) -> u64 {
    19 + 20 * frames_len.div_ceil(period)
}

impl Ring {
    /// As a start, and last "10 .. for frames of 2^32 bytes or more or room under 19 + 20n". It writes nothing.
    pub fn start_traced(&mut self, stream: u32, frames_len: u64, period: u64, budget: u64, room: u64) -> Turn {
        if let Some(number) = self.bars_start(budget) {
            return Turn::ended(number);
        }
        if frames_len > u32::MAX.into() || room < room_for(frames_len, period) {
            return Turn::ended(BAD_LENGTH);
        }
        self.begin(Ring { stream, frames_len, lent: frames_len, period, budget, room, ..Ring::default() })
    }

    /// A turn that writes its fields behind what stands in the room. With no room it is a turn of a transfer that writes none.
    pub fn turn_traced(&mut self, frames_len: u64, room: &mut [u8], reading: Reading) -> Turn {
        if self.running && room.len() as u64 != self.room {
            return Turn::ended(BAD_LENGTH);
        }
        if let Some(number) = self.bars(Way::Playback, frames_len) {
            return Turn::ended(number);
        }
        let before = self.clone();
        let said = self.run(reading);
        if self.room > 0 {
            // all of it, in a ring that calls left; in any other as far as the room goes
            let (wrote, rest) = (bytes(&written(&before, self, reading, said)), &mut room[self.traced as usize..]);
            let length = wrote.len().min(rest.len());
            rest[..length].copy_from_slice(&wrote[..length]);
            self.traced += length as u64;
        }
        said
    }

    /// A playback's turn that nothing bars.
    fn run(&mut self, reading: Reading) -> Turn {
        match reading {
            Reading::Quiet => self.ruled(None, |_| Ok(())),
            Reading::Completed { slot, status } => self.ruled(Some(slot), |_| Status::read(status).judged()),
        }
    }
}

impl Sound {
    pub fn xfer_start_traced(
        &mut self,
        ring: &mut Ring,
        stream: u32,
        frames_len: u64,
        budget: u64,
        room: u64,
        message: &mut [u8],
    ) -> Say {
        let busy = self.busy_for_transfers(ring);
        match self.transfer_checks(ring, Way::Playback, stream, busy, message) {
            Ok(params) => ring.start_traced(stream, frames_len, params.period.into(), budget, room).into(),
            Err(say) => say,
        }
    }
}

/// A run that has agreed with a trace so far: its ring, and how many bytes it wrote.
struct Path {
    ring: Ring,
    at: usize,
}

/// "The judge accepts exactly when some script and budget make document 01's turns write that very trace." The answers' order: 18 over the
/// whole trace, then 19 and "the first byte through which no run's trace agrees, or the length where the trace only ends early", which is
/// how far the best of all runs agrees. The runs are those of a ring of this mode: "the judge and the pending table take the mode from the
/// caller".
pub fn judge_of(mode: Mode, trace: &[u8]) -> Result<(), Fault> {
    scan(trace)?;
    let (mut paths, mut tried, mut agreed) = (vec![first(mode, trace)], HashSet::new(), 0);
    while let Some(Path { ring, at }) = paths.pop() {
        // what was done before plays no part but in these, and in the turns so far, against which any budget can be set
        if !tried.insert((at, ring.head, ring.tail, ring.in_flight, ring.next)) {
            continue;
        }
        for reading in readings(&ring, &trace[at..]) {
            // with turns to spare, and as the turn that spends the last one
            for budget in [u64::MAX, ring.turns + 1] {
                let before = Ring { budget, ..ring.clone() };
                let mut after = before.clone();
                let said = after.run(reading);
                let wrote = bytes(&written(&before, &after, reading, said));
                let same = trace[at..].iter().zip(&wrote).take_while(|(a, b)| a == b).count();
                agreed = agreed.max(at + same);
                if same < wrote.len() {
                    continue;
                }
                let at = at + wrote.len();
                match said {
                    Turn::Going => paths.push(Path { ring: after, at }),
                    Turn::Ended(_) if at == trace.len() => return Ok(()),
                    Turn::Ended(_) => {}
                }
            }
        }
    }
    Err(Fault { number: NOT_A_RUN, at: agreed })
}

/// A byte of a trace, and 0 past its end.
fn padded(trace: &[u8], at: usize) -> u32 {
    u32::from_le_bytes(std::array::from_fn(|i| trace.get(at + i).copied().unwrap_or(0)))
}

/// A run whose start is the trace's own. Where that has period 0, "no run's", one that agrees as far as any does.
fn first(mode: Mode, trace: &[u8]) -> Path {
    let [stream, length, period] = [0, 4, 8].map(|at| padded(trace, HEAD + at));
    let period = if period == 0 { 1 << 24 } else { period };
    let mut ring = Ring::new(mode);
    ring.start(stream, length.into(), period.into(), u64::MAX);
    Path { ring, at: 0 }
}

/// All that a turn can be told, as far as it makes a difference: nothing; the slot that would be the oldest, with a good status or with the
/// one that the trace has where this turn would write it; another slot.
fn readings(ring: &Ring, rest: &[u8]) -> Vec<Reading> {
    let oldest = ring.tail as u32;
    let start = if ring.turns == 0 { HEAD + 12 } else { 0 };
    let submission = if ring.next_offer().is_some() { HEAD + 9 } else { 0 };
    let told = padded(rest, start + submission + HEAD + 1);
    let completed = |slot, status| Reading::Completed { slot, status };
    let other = (oldest + 1) % SLOTS as u32;
    vec![Reading::Quiet, completed(oldest, STATUS_OK), completed(oldest, told), completed(other, STATUS_OK)]
}

/// Of direct descriptors.
pub fn judge(trace: &[u8]) -> Result<(), Fault> {
    judge_of(Mode::Direct, trace)
}

/// By the mode, which is the descriptors of a submission: a number that is none is 1.
pub fn judge_in(mode: u32, trace: &[u8]) -> Result<(), Fault> {
    let mode = Mode::of(mode.into()).ok_or(Fault { number: INVALID_PARAM, at: 0 })?;
    judge_of(mode, trace)
}
