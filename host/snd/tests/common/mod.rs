//! What the tests share: a console's desk, everything that can be lent to an entry, and random numbers that repeat.
#![allow(dead_code)]
use snd::{Exchange, Format, JackInfo, Model, Page, Params, PcmInfo, Rate, Refusal, Ring, Sound, Step, Value};

pub mod entries;
pub mod lent;

/// A driver and a device, joined by a queue that never fails.
pub struct Desk {
    pub device: Model,
    pub sound: Sound,
    pub ring: Ring,
    pub page: Page,
}

pub const PARAMS: Params = Params {
    buffer: 8,
    period: 4,
    features: 0,
    channels: 2,
    format: Format::S16,
    rate: Rate::Hz48000,
};

impl Desk {
    /// Two jacks, of which the first can be remapped; an output and an input stream; no channel map.
    pub fn new() -> Self {
        let remappable = JackInfo {
            features: JackInfo::REMAP,
            ..JackInfo::default()
        };
        let jacks = [remappable.to_bytes(), JackInfo::default().to_bytes()];
        let pcms = [PcmInfo::output(1, 2).to_bytes(), PcmInfo::input(1, 1).to_bytes()];
        Self {
            device: Model::new(&jacks, &pcms, &[]).unwrap(),
            sound: Sound::new(2, 2, 0),
            ring: Ring::new(),
            page: Page::new(),
        }
    }

    /// A desk whose stream 0 has parameters.
    pub fn with_params() -> Self {
        let mut desk = Self::new();
        let step = desk.sound.pcm_set_params(&desk.ring, 0, PARAMS);
        desk.finish(step).unwrap();
        desk
    }

    /// A desk that runs a transfer.
    pub fn with_transfer(frames: &[u8], budget: u64) -> Self {
        let mut desk = Self::with_params();
        let step = desk.sound.pcm_xfer_start(&mut desk.ring, 0, frames, budget);
        assert_eq!(step, Ok(Step::Done(())));
        desk
    }

    /// A desk whose stream 1, an input, has parameters.
    pub fn with_input() -> Self {
        let mut desk = Self::new();
        let step = desk.sound.pcm_set_params(&desk.ring, 1, PARAMS);
        desk.finish(step).unwrap();
        desk
    }

    /// A desk that runs a capture.
    pub fn with_capture(periods: u64, recording: &[u8], budget: u64) -> Self {
        let mut desk = Self::with_input();
        let step = desk
            .sound
            .pcm_capture_start(&mut desk.ring, 1, periods, recording, budget);
        assert_eq!(step, Ok(Step::Done(())));
        desk
    }

    /// Sends what is to be sent and feeds the answers, until the call's result.
    pub fn finish<T: Value>(&mut self, first: Result<Step<T>, Refusal>) -> Result<T, Refusal> {
        let mut step = first?;
        loop {
            match step {
                Step::Done(value) => return Ok(value),
                Step::Send(exchange) => {
                    self.device.control(exchange.bytes(), &mut self.page).unwrap();
                    step = self.sound.feed(exchange, &self.page)?;
                }
            }
        }
    }

    /// Feeds pages that hold nothing but this status, until the call's result.
    pub fn finish_with_status<T: Value>(&mut self, first: Result<Step<T>, Refusal>, status: u32) -> Result<T, Refusal> {
        let mut step = first?;
        self.page.bytes_mut()[..4].copy_from_slice(&status.to_le_bytes());
        loop {
            match step {
                Step::Done(value) => return Ok(value),
                Step::Send(exchange) => step = self.sound.feed(exchange, &self.page)?,
            }
        }
    }
}

/// What a device writes of a period: the payload, then the status and a latency.
pub fn captured(payload: &[u8], status: u32) -> Vec<u8> {
    [payload, &status.to_le_bytes(), &[0xee; 4]].concat()
}

/// The trace of docs/TRACE.md: ten bytes in periods of 4, each completed in the turn that submitted it.
pub fn trace() -> Vec<u8> {
    let submitted = |slot: u8, length: u8| [1, 9, 0, slot, 4 * slot, 0, 0, 0, length, 0, 0, 0];
    let completed = |slot: u8| [2, 5, 0, slot, 0, 0x80, 0, 0];
    let mut trace = vec![0, 12, 0, 0, 0, 0, 0, 10, 0, 0, 0, 4, 0, 0, 0];
    for (slot, length) in [4, 4, 2].into_iter().enumerate() {
        trace.extend(submitted(slot as u8, length));
        trace.extend(completed(slot as u8));
    }
    trace.extend([3, 1, 0, 0]);
    trace
}

/// The second trace of docs/TRACE.md: of the same start, and its second period came back with 0x8003.
pub fn failed_trace() -> Vec<u8> {
    let mut trace = trace();
    trace.truncate(51);
    trace.extend([3, 0x80, 0, 0, 3, 1, 0, 2]);
    trace
}

/// The exchange of a call that has a request to send.
pub fn sent<T>(step: Result<Step<T>, Refusal>) -> Exchange<T> {
    match step {
        Ok(Step::Send(exchange)) => exchange,
        Ok(Step::Done(_)) => panic!("the call is done"),
        Err(refusal) => panic!("refused: {refusal}"),
    }
}

/// Numbers that look random and are the same in every run (xorshift).
pub struct Random(pub u64);

impl Random {
    pub fn number(&mut self) -> u64 {
        self.0 ^= self.0 << 13;
        self.0 ^= self.0 >> 7;
        self.0 ^= self.0 << 17;
        self.0
    }

    pub fn below(&mut self, bound: usize) -> usize {
        (self.number() % bound as u64) as usize
    }

    pub fn fill(&mut self, bytes: &mut [u8]) {
        for byte in bytes {
            *byte = (self.number() >> 32) as u8;
        }
    }

    /// Overwrites a few bytes, as a fault in the host would.
    pub fn spoil(&mut self, bytes: &mut [u8]) {
        for _ in 0..self.below(4) {
            let at = self.below(bytes.len());
            bytes[at] = (self.number() >> 32) as u8;
        }
    }
}
