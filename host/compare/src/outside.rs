//! The device's side of a step, played from the step's script, and the record of what the driver did. One for all drivers.
use crate::case::{Answer, Reading, Step};
use crate::driver::{DIGEST, Seen, Sent, Turn, digest};
use oracle::Control;
use rules::PAGE;
use rules::wire::{QUERIES, STATUS_OK, u32_at};
use std::collections::VecDeque;
use std::rc::Rc;

/// A model device that answers control requests and transfers.
pub trait Device {
    fn control(&mut self, request: &[u8]) -> Vec<u8>;
    fn transfer(&mut self, request: &[u8]) -> Vec<u8>;
}

/// No run goes on longer than this, whatever its budget: a driver that never ends must not hold up the comparison.
const ENDLESS: u64 = 100_000;

pub struct Scripted {
    answers: VecDeque<Answer>,
    readings: Vec<Reading>,
    budget: u64,
    pub frames: Rc<[u8]>,
    stream: [u8; 4],
    pub event: Option<Vec<u8>>,
    requests: Vec<Vec<u8>>,
    heard: Vec<Option<u32>>,
    /// what the queue says was written of the last answer
    pub wrote: u64,
    covered: bool,
    log: Vec<Turn>,
    sent: Vec<Sent>,
}

impl Scripted {
    pub fn new(step: &Step) -> Self {
        let mut script = Scripted {
            answers: VecDeque::new(),
            readings: vec![],
            budget: 0,
            frames: Rc::from([]),
            stream: [0; 4],
            event: None,
            requests: vec![],
            heard: vec![],
            wrote: 0,
            covered: true,
            log: vec![],
            sent: vec![],
        };
        match step {
            Step::Control { answers, .. } => script.answers = answers.iter().cloned().collect(),
            Step::Transfer { stream, frames, budget, readings, answers } => {
                script.answers = answers.iter().cloned().collect();
                (script.readings, script.budget) = (readings.clone(), *budget);
                (script.frames, script.stream) = (Rc::from(frames.bytes()), stream.to_le_bytes());
            }
            Step::Capture { answers, .. } => {
                script.answers = answers.iter().cloned().collect();
                script.budget = u64::MAX;
            }
            Step::Submit { stream, payload, answers, .. } => {
                script.answers = answers.iter().cloned().collect();
                (script.frames, script.stream) = (Rc::from(payload.bytes()), stream.to_le_bytes());
            }
            Step::Event(event) => script.event = event.clone(),
            _ => {}
        }
        script
    }

    pub fn control(&mut self, request: &[u8], page: &mut [u8], device: Option<&mut dyn Device>) -> Control {
        self.requests.push(request.to_vec());
        self.answer(request, page, device)
    }

    /// The next answer, to a request that was noted already.
    pub fn answer(&mut self, request: &[u8], page: &mut [u8], device: Option<&mut dyn Device>) -> Control {
        let Some(answer) = self.answers.pop_front() else {
            return Control::NoAnswer;
        };
        let bytes = match answer {
            Answer::Failed => {
                self.heard.push(None);
                return Control::Failed;
            }
            Answer::Wrote { status, body, wrote } => {
                let mut bytes = [&status.to_le_bytes()[..], &body.bytes()].concat();
                bytes.truncate(wrote.min(PAGE as u64) as usize);
                self.wrote = wrote;
                bytes
            }
            Answer::Model => {
                let bytes = device.expect("the case has a model").control(request);
                self.wrote = bytes.len() as u64;
                bytes
            }
        };
        page[..bytes.len()].copy_from_slice(&bytes);
        self.heard.push(Some(u32_at(page, 0)));
        Control::Answered
    }

    /// Notes whether the length of a strict feed covers what is read of the page: the header, and the records of a table that is there.
    pub fn feeds(&mut self, request: &[u8], page: &[u8]) {
        self.covered &= (read_of(request, page)..=PAGE as u64).contains(&self.wrote);
    }

    pub fn turn(&mut self, free: usize) -> bool {
        if self.log.len() as u64 == self.budget.min(ENDLESS) {
            return false;
        }
        self.log.push(Turn { free, sent: None, looked: false, read: None });
        true
    }

    pub fn submit(&mut self, slot: u16, stream: &[u8], payload: &[u8]) {
        let offset = (payload.as_ptr() as usize).wrapping_sub(self.frames.as_ptr() as usize);
        let inside = offset.saturating_add(payload.len()) <= self.frames.len();
        assert!(inside, "a payload that is no part of the caller's frames");
        let digest = digest(digest(DIGEST, stream), payload);
        self.sent.push(Sent { slot, offset: offset as u64, length: payload.len() as u64, digest });
        self.log.last_mut().expect("a turn began").sent = Some(slot);
    }

    /// Slot, offset and length of each submission so far. A capture's have no offset here: they are whole periods.
    pub fn sent(&self) -> Vec<(u16, u64, u64)> {
        self.sent.iter().map(|sent| (sent.slot, sent.offset, sent.length)).collect()
    }

    /// The stream id, and so many bytes to write.
    pub fn submit_writable(&mut self, slot: u16, stream: &[u8], length: u64) {
        self.sent.push(Sent { slot, offset: 0, length, digest: digest(DIGEST, stream) });
        self.log.last_mut().expect("a turn began").sent = Some(slot);
    }

    /// What a capture's turn read, and whether the turn ran.
    pub fn read(&mut self, read: Option<(u32, u32)>, ran: bool) {
        let turn = self.log.last_mut().expect("a turn began");
        (turn.looked, turn.read) = (ran, read);
    }

    /// Stream id and period in one buffer, under a token.
    pub fn submit_one(&mut self, token: u16, buffer: &[u8]) {
        let length = buffer.len().saturating_sub(4) as u64;
        self.sent.push(Sent { slot: token, offset: 0, length, digest: digest(DIGEST, buffer) });
    }

    /// This turn's reading; past the end of the script it is quiet.
    pub fn reading(&mut self, flight: &[u16], device: Option<&mut dyn Device>) -> Option<(u32, u32)> {
        let at = self.log.len() - 1;
        let reading = self.readings.get(at).copied().unwrap_or(Reading::Quiet);
        let read = match reading {
            Reading::Device => self.completed(flight, device),
            reading => resolve(reading, flight),
        };
        (self.log[at].looked, self.log[at].read) = (true, read);
        read
    }

    /// The oldest in flight, as the model device takes it.
    fn completed(&mut self, flight: &[u16], device: Option<&mut dyn Device>) -> Option<(u32, u32)> {
        let oldest = *flight.first()?;
        let sent = self.sent.iter().rev().find(|sent| sent.slot == oldest)?;
        let payload = &self.frames[sent.offset as usize..][..sent.length as usize];
        let answer = device.expect("the case has a model").transfer(&[&self.stream[..], payload].concat());
        Some((oldest as u32, u32_at(&answer, 0)))
    }

    /// Adds what was recorded.
    pub fn tell(&mut self, seen: &mut Seen) {
        seen.requests = std::mem::take(&mut self.requests);
        seen.heard = std::mem::take(&mut self.heard);
        seen.covered = self.covered;
        seen.unread = self.answers.len();
        seen.log = std::mem::take(&mut self.log);
        seen.sent = std::mem::take(&mut self.sent);
    }
}

/// How many bytes of an answer are read: the header, and after an ok the records of a query, if a page holds them.
fn read_of(request: &[u8], page: &[u8]) -> u64 {
    const HEADER: u64 = 4;
    if !QUERIES.contains(&u32_at(request, 0)) || u32_at(page, 0) != STATUS_OK {
        return HEADER;
    }
    let whole = HEADER + u64::from(u32_at(request, 8)) * u64::from(u32_at(request, 12));
    if whole > PAGE as u64 { HEADER } else { whole }
}

/// A reading, given the slots in flight; the device's own is told elsewhere.
pub fn resolve(reading: Reading, flight: &[u16]) -> Option<(u32, u32)> {
    let place = |k: usize| flight.get(k).map_or(99 + k as u32, |slot| *slot as u32);
    match reading {
        Reading::Quiet => None,
        Reading::Oldest { status } => Some((place(0), status)),
        Reading::Device => Some((place(0), 0x8000)),
        Reading::Later { k, status } => Some((place(k as usize), status)),
        Reading::Slot { slot, status } => Some((slot, status)),
    }
}
