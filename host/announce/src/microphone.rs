//! A microphone behind a receive queue: it hears the tone. Slow, failing, confused, short or boasting where the options ask for it. It is no part of the
//! model device, which has no capture.
use crate::form::Form;
use crate::options::Options;
use crate::told::{Fault, What, When};
use crate::tone;
use snd::{CAPTURE_STATUS, Captured, Room, SLOTS, STATUS_OK};
use std::collections::VecDeque;

pub struct Microphone {
    form: Form,
    /// Bytes of a period.
    period: usize,
    /// Slots that are out, and the number of the period of each.
    queue: VecDeque<(u32, u64)>,
    /// Where it writes: a buffer to each slot, of a period and its status.
    buffers: Vec<Vec<u8>>,
    /// Rooms that were submitted.
    pub submitted: u64,
    /// The payload of each period that came back well in the capture, in order.
    pub heard: Vec<Vec<u8>>,
    pub faults: Vec<Fault>,
    /// Bytes of the tone that were heard and not written yet, and the frames that were heard.
    ahead: Vec<u8>,
    frames: u64,
    slow: u64,
    fail_at: Option<u64>,
    fail_status: u32,
    wrong_slot_at: Option<u64>,
    short_every: Option<u64>,
    written_at: Option<u64>,
    written: u32,
    polls: u64,
    completions: u64,
}

impl Microphone {
    pub fn new(options: &Options) -> Self {
        let period = options.period as usize;
        Self {
            form: options.form(),
            period,
            queue: VecDeque::new(),
            buffers: vec![vec![0; period + CAPTURE_STATUS]; SLOTS],
            submitted: 0,
            heard: Vec::new(),
            faults: Vec::new(),
            ahead: Vec::new(),
            frames: 0,
            slow: options.slow,
            fail_at: options.fail_at,
            fail_status: options.fail_status,
            wrong_slot_at: options.wrong_slot_at,
            short_every: options.short_every,
            written_at: options.written_at,
            written: options.written,
            polls: 0,
            completions: 0,
        }
    }

    /// Takes room for a period into the queue; its buffer is zeros again.
    pub fn submit(&mut self, room: Room) {
        self.submitted += 1;
        self.queue.push_back((room.slot, self.submitted));
        if let Some(buffer) = self.buffers.get_mut(room.slot as usize) {
            buffer.fill(0);
        }
    }

    /// Looks at the queue once. Of any `slow` polls that find something there, one completes the oldest.
    pub fn poll(&mut self, when: When) -> Captured<'_> {
        let Some(&(due, number)) = self.queue.front() else {
            return Captured::Quiet;
        };
        self.polls += 1;
        if self.polls < self.slow {
            return Captured::Quiet;
        }
        self.polls = 0;
        self.completions += 1;
        if self.wrong_slot_at == Some(self.completions) {
            let (completion, named) = (self.completions, (due + 1) % SLOTS as u32);
            let what = What::WrongSlot { completion, named, due };
            self.faults.push(Fault { when, what });
            return Captured::Completed {
                slot: named,
                written: CAPTURE_STATUS as u32,
                bytes: &[0; CAPTURE_STATUS],
            };
        }
        self.queue.pop_front();
        self.complete(when, due, number)
    }

    /// Writes a period and its status into the slot's buffer, and says how much that is.
    fn complete(&mut self, when: When, slot: u32, number: u64) -> Captured<'_> {
        let (length, written) = self.lengths(number);
        let payload = self.hear(length);
        let status = if self.fail_at == Some(number) {
            self.fail_status
        } else {
            STATUS_OK
        };
        let most = self.period + CAPTURE_STATUS;
        let good = (CAPTURE_STATUS..=most).contains(&(written as usize));
        let period = number as usize;
        let what = match (good, status) {
            (true, STATUS_OK) => None,
            (true, status) => Some(What::Status { period, status }),
            (false, _) => Some(What::Written {
                period,
                written,
                most: most as u64,
            }),
        };
        self.faults.extend(what.map(|what| Fault { when, what }));
        let bytes = self.buffers.get_mut(slot as usize).map(|buffer| {
            let status = [status.to_le_bytes(), [0; 4]];
            let written = payload.iter().chain(status.as_flattened());
            buffer.iter_mut().zip(written).for_each(|(place, byte)| *place = *byte);
            &buffer[..]
        });
        if let (None, When::Transfer(_)) = (what, when) {
            self.heard.push(payload);
        }
        Captured::Completed {
            slot,
            written,
            bytes: bytes.unwrap_or_default(),
        }
    }

    /// How many bytes of a period it has, and what it says to have written with the status.
    fn lengths(&self, number: u64) -> (usize, u32) {
        let half = self.period / 2 / self.form.frame() * self.form.frame();
        let short = self.short_every.is_some_and(|every| number.is_multiple_of(every));
        let length = if short { half } else { self.period };
        if self.written_at != Some(number) {
            return (length, (length + CAPTURE_STATUS) as u32);
        }
        let named = (self.written as usize).checked_sub(CAPTURE_STATUS);
        (
            named.filter(|named| *named <= self.period).unwrap_or(length),
            self.written,
        )
    }

    /// The next so many bytes of the tone.
    fn hear(&mut self, length: usize) -> Vec<u8> {
        while self.ahead.len() < length {
            tone::extend(&mut self.ahead, self.frames, self.form);
            self.frames += 1;
        }
        let rest = self.ahead.split_off(length);
        std::mem::replace(&mut self.ahead, rest)
    }
}
