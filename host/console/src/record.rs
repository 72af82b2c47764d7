//! Records what an input stream hears: open, the capture turn by turn, the drain, the end.
use crate::script::Asked;
use crate::speak::{Console, MOST_DRAIN, of, turns};
use crate::timer;
use crate::told::{FAULT, LISTED, List};
use page::{Built, CapturePage, Fault, Heard, Recorded, Refused, Stream, Times, Turns, What, When};
use snd::{CAPTURE_STATUS, Captured, Reading, Refusal, SLOTS, STATUS_OK, Turn};

/// What stands in a recording before.
const BEFORE: u8 = 0xa5;

/// What came of a recording.
pub struct Recording {
    room: &'static [u8],
    kept: usize,
    periods: u64,
    stream: Option<Stream>,
    turns: Turns,
    submitted: u64,
    heard: Heard,
    faults: List<Fault, LISTED>,
    /// The ring is for indirect descriptors.
    indirect: bool,
    completions: u64,
    owed: u64,
    drain: (u64, u64),
    refused: Option<Refused>,
    times: Times,
}

impl Recording {
    fn new(turns: Turns, periods: u64) -> Self {
        Self {
            room: &[],
            kept: 0,
            periods,
            stream: None,
            turns,
            submitted: 0,
            heard: Heard {
                recorded: Recorded::Copied,
                ..Heard::default()
            },
            faults: List::new(FAULT),
            indirect: false,
            completions: 0,
            owed: 0,
            drain: (0, 0),
            refused: None,
            times: Times::default(),
        }
    }

    /// A turn of the capture is about to be run with this; `due` is the oldest slot in flight.
    fn read(&mut self, turn: u64, seen: Captured<'_>, due: Option<u32>, period: usize) {
        let Captured::Completed { slot, written, .. } = seen else {
            return;
        };
        self.completions += 1;
        let (completion, number) = (self.completions, self.heard.periods as usize + 1);
        let most = period + CAPTURE_STATUS;
        let status = match Reading::from(seen) {
            Reading::Completed { status, .. } => status,
            Reading::Quiet => 0,
        };
        let what = if due != Some(slot) {
            let due = due.unwrap_or(u32::MAX);
            What::WrongSlot {
                completion,
                named: slot,
                due,
            }
        } else if !(CAPTURE_STATUS..=most).contains(&(written as usize)) {
            What::Written {
                period: number,
                written,
                most: most as u64,
            }
        } else if status != STATUS_OK {
            What::Status { period: number, status }
        } else {
            let payload = written as usize - CAPTURE_STATUS;
            self.heard.periods += 1;
            self.heard.short += u64::from(payload < period);
            self.heard.bytes += payload;
            return;
        };
        let when = When::Transfer(turn);
        self.faults.push(Fault { when, what });
    }

    /// A drain turn is about to be run, which looks at the slot alone.
    fn drained(&mut self, turn: u64, reading: Reading, due: u32) {
        self.drain.0 = turn;
        let Reading::Completed { slot: named, .. } = reading else {
            return;
        };
        self.completions += 1;
        if named != due {
            let (when, completion) = (When::Drain(turn), self.completions);
            let what = What::WrongSlot { completion, named, due };
            self.faults.push(Fault { when, what });
        }
    }

    /// A turn was run with this: what came back well since `before` bytes were heard stands in the recording, behind what was there.
    fn check(&mut self, room: &[u8], before: usize, seen: Captured<'_>) {
        if let Captured::Completed { bytes, .. } = seen {
            let payload = bytes.get(..self.heard.bytes - before);
            if room.get(before..self.heard.bytes) != payload {
                self.heard.recorded = Recorded::Not;
            }
        }
    }

    pub fn page(&self, asked: &Asked) -> CapturePage<'_> {
        let kept = self.room.get(..self.kept).unwrap_or_default();
        CapturePage {
            name: "the input stream",
            periods: self.periods,
            params: asked.params,
            strict: true,
            guard: false,
            indirect: self.indirect,
            stream: self.stream,
            turns: self.turns,
            submitted: self.submitted,
            heard: self.heard,
            kept: self.kept,
            sha256: sha256::sum(kept),
            faults: self.faults.listed(),
            owed: self.owed,
            drain: self.drain,
            refused: self.refused,
            times: self.times,
            built: Built::here(None),
        }
    }
}

impl Console {
    /// Records so many periods, and tells what happened.
    pub fn record(&mut self, asked: &Asked, periods: u64, room: &'static mut [u8]) -> Recording {
        let bytes = periods.saturating_mul(asked.params.period.into());
        let mut told = Recording::new(turns(asked, bytes), periods);
        told.indirect = self.ring.indirect();
        room.fill(BEFORE);
        told.refused = self.heard(asked, periods, room, &mut told).err();
        told.kept = self.ring.kept().unwrap_or_default();
        let behind = room.get(told.kept..).unwrap_or_default();
        if behind.iter().any(|byte| *byte != BEFORE) {
            told.heard.recorded = Recorded::Not;
        }
        told.room = room;
        told
    }

    fn heard(&mut self, asked: &Asked, periods: u64, room: &mut [u8], told: &mut Recording) -> Result<(), Refused> {
        let step = self.sound.input_streams(&self.ring);
        let inputs = self.finish("input streams", step)?;
        let first = inputs.ids().first().copied();
        let stream = asked.stream.or(first).ok_or(("input streams", Refusal::NoInfo))?;
        let output = !inputs.ids().contains(&stream);
        self.start(asked, stream, output, &mut told.stream)?;
        let began = timer::count();
        let ended = self.capture(asked, stream, periods, room, told);
        told.times.whole = self.timer.time(timer::count() - began);
        // the stream is drained and stopped however the capture ended, whose answer comes first
        let closed = self.drain_input(told).and_then(|()| self.close(stream));
        ended.and(closed)
    }

    /// The loop: submit room where it is offered, sleep until the tick, poll, turn.
    fn capture(
        &mut self,
        asked: &Asked,
        stream: u32,
        periods: u64,
        room: &mut [u8],
        told: &mut Recording,
    ) -> Result<(), Refused> {
        const CALL: &str = "capture";
        let allowed = told.turns.allowed;
        let started = self
            .sound
            .pcm_capture_start(&mut self.ring, stream, periods, room, allowed);
        // set-up is done, so it runs at once
        let _runs = of(CALL, started)?;
        (self.early, self.input) = ([None; SLOTS], true);
        let mut began = timer::count();
        for turn in 1.. {
            let offered = of(CALL, self.ring.capture_offered(room))?;
            if let Some(offer) = offered {
                if !self.device.submit_room(stream, offer) {
                    return Err(("submit", Refusal::QueueFailed));
                }
                told.submitted += 1;
            }
            self.timer.wait();
            let due = of(CALL, self.ring.oldest())?.or(offered.map(|offer| offer.slot));
            let seen = self.device.poll_input();
            let before = told.heard.bytes;
            told.read(turn, seen, due, asked.params.period as usize);
            let said = self.ring.capture_turn(room, seen);
            told.check(room, before, seen);
            told.turns.run = turn;
            let now = timer::count();
            told.times.longest = told.times.longest.max(self.timer.time(now - began));
            began = now;
            match said {
                Ok(Turn::Going) => {}
                Ok(Turn::Done) => return Ok(()),
                Err(refusal) => {
                    let reading = seen.into();
                    self.keep_if(refusal, reading);
                    return Err((CALL, refusal));
                }
            }
        }
        Err((CALL, Refusal::OutOfTurns))
    }

    /// Frees what is owed; nothing of it is recorded.
    fn drain_input(&mut self, told: &mut Recording) -> Result<(), Refused> {
        const CALL: &str = "drain";
        told.owed = of(CALL, self.ring.in_flight())?;
        let allowed = told.turns.slow.saturating_mul(told.owed + 1).min(MOST_DRAIN);
        told.drain = (0, allowed);
        for turn in 1..=allowed {
            let Some(due) = of(CALL, self.ring.oldest())? else {
                return Ok(());
            };
            self.timer.wait();
            let reading = self.next_of(due);
            told.drained(turn, reading, due);
            self.drain_turn(reading)?;
        }
        match of(CALL, self.ring.in_flight())? {
            0 => Ok(()),
            _still_owed => Err((CALL, Refusal::OutOfTurns)),
        }
    }
}
