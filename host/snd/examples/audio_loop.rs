//! The audio loop of docs/HOST.md, tried on the model device: `cargo run -p snd --example audio_loop`.

use snd::{Page, Reading, Refusal, Ring, Sound, Started, Step, Turn};

/// What the host's queues do. None of the three may wait for long.
trait Queues {
    fn control(&mut self, request: &[u8], page: &mut Page) -> bool; // send, and wait for the answer; false: the queue failed
    fn submit(&mut self, slot: u32, stream: u32, period: &[u8]); // put a period on the transmit queue, under this slot
    fn poll(&mut self) -> Reading; // look at the transmit queue once; a completion of nothing that is out has slot u32::MAX
}

/// Completions out of order, by slot. One that is refused with 6 frees nothing and is not seen again: it is kept here, and passed again
/// when its slot is the oldest. Else that slot is owed for good.
type Early = [Option<Reading>; 32];

fn keep(early: &mut Early, reading: Reading) {
    if let Reading::Completed { slot, .. } = reading {
        if let Some(place) = early.get_mut(slot as usize) {
            *place = Some(reading);
        }
    }
}

/// Sends what a call asks to send, until it has ended.
fn finish(sound: &mut Sound, queues: &mut impl Queues, mut step: Step<()>) -> Result<(), Refusal> {
    let mut page = Page::new();
    while let Step::Send(exchange) = step {
        let answered = queues.control(exchange.bytes(), &mut page);
        step = if answered {
            sound.feed(exchange, &page)?
        } else {
            sound.feed_failure(exchange)?
        };
    }
    Ok(())
}

/// Speaks one announcement, in at most `budget` turns, on a stream that has its parameters. A refusal drops the transfer: its frames then stay
/// where they are, and the ring knows what is owed.
fn speak(
    sound: &mut Sound,
    ring: &mut Ring,
    queues: &mut impl Queues,
    early: &mut Early,
    stream: u32,
    frames: &'static [u8],
    budget: u64,
) -> Result<(), Refusal> {
    let prepare = sound.pcm_prepare(ring, stream)?;
    finish(sound, queues, prepare)?;
    let start = sound.pcm_start(ring, stream)?;
    finish(sound, queues, start)?;
    let mut transfer = match sound.transfer(ring, stream, frames, budget) {
        Started::Runs(transfer) => transfer,
        Started::Refused(refusal, _frames) => return Err(refusal), // not Busy: nothing was in flight
        Started::SetUp(..) => return Err(Refusal::Unknown),        // the start of the stream had set-up done
    };
    *early = [None; 32];
    loop {
        if let Some(offer) = transfer.offered()? {
            queues.submit(offer.slot, stream, offer.period);
        }
        let reading = queues.poll();
        let said = transfer.turn(reading);
        if said.inspect_err(|_| keep(early, reading))? == Turn::Done {
            return Ok(()); // the device has accepted every byte of the frames, in order; what it has not played yet is its own
        }
    }
}

/// After a refusal: frees what is owed, in at most so many turns. Until nothing is owed every call is Busy.
fn drain(ring: &mut Ring, queues: &mut impl Queues, early: &mut Early, turns: u64) -> Result<bool, Refusal> {
    for _ in 0..turns {
        let Some(oldest) = ring.oldest()? else {
            return Ok(true);
        };
        let kept = early.get_mut(oldest as usize).and_then(Option::take);
        let reading = kept.unwrap_or_else(|| queues.poll());
        match ring.drain_turn(reading) {
            Ok(()) => {}
            Err(Refusal::WrongToken) => keep(early, reading),
            Err(other) => return Err(other),
        }
    }
    Ok(ring.in_flight()? == 0)
}

/// Once nothing is owed: stops and releases the stream, so that the next announcement may prepare it. After an Ok first wait for what the device
/// still holds.
fn close(sound: &mut Sound, ring: &Ring, queues: &mut impl Queues, stream: u32) -> Result<(), Refusal> {
    let stop = sound.pcm_stop(ring, stream)?;
    finish(sound, queues, stop)?;
    let release = sound.pcm_release(ring, stream)?;
    finish(sound, queues, release)
}

// Below here: queues that end in the model device.
use snd::{Format, Model, Params, PcmInfo, Rate};

/// A device that completes every period before it is looked at.
struct Prompt {
    device: Model,
    completed: std::collections::VecDeque<Reading>,
    heard: Vec<u8>,
    /// Completes two periods in the other order, once.
    swaps: bool,
}

impl Queues for Prompt {
    fn control(&mut self, request: &[u8], page: &mut Page) -> bool {
        self.device.control(request, page).is_ok()
    }

    fn submit(&mut self, slot: u32, stream: u32, period: &[u8]) {
        let request = [&stream.to_le_bytes(), period].concat();
        let status = self.device.transfer(&request).map_or(0, |answer| answer.status);
        self.heard.extend(self.device.payload(&request).unwrap_or_default());
        self.completed.push_back(Reading::Completed { slot, status });
    }

    fn poll(&mut self) -> Reading {
        if self.swaps {
            if self.completed.len() < 2 {
                return Reading::Quiet;
            }
            self.completed.swap(0, 1);
            self.swaps = false;
        }
        self.completed.pop_front().unwrap_or(Reading::Quiet)
    }
}

/// Under the guard: a sentence that is spoken whole, one whose budget is too small, and one whose first two periods come back in the other
/// order.
pub fn main() -> Result<(), Refusal> {
    let device = Model::new(&[], &[PcmInfo::output(1, 2).to_bytes()], &[])?;
    let mut queues = Prompt {
        device,
        completed: [].into(),
        heard: vec![],
        swaps: false,
    };
    let (mut sound, mut ring) = (Sound::new_guarded(0, 1, 0), Ring::new());
    let mut early = [None; 32];
    let to = Params {
        buffer: 8,
        period: 4,
        features: 0,
        channels: 2,
        format: Format::S16,
        rate: Rate::Hz48000,
    };
    let set = sound.pcm_set_params(&ring, 0, to)?;
    finish(&mut sound, &mut queues, set)?;
    let words = b"feeder one four";
    speak(&mut sound, &mut ring, &mut queues, &mut early, 0, words, 5)?;
    assert_eq!(queues.heard, words);
    // started: it is stopped and released before it is prepared again
    let again = speak(&mut sound, &mut ring, &mut queues, &mut early, 0, words, 5);
    assert_eq!(again, Err(Refusal::BadState));
    close(&mut sound, &ring, &mut queues, 0)?;
    queues.heard.clear();
    let cut_short = speak(&mut sound, &mut ring, &mut queues, &mut early, 0, words, 2);
    assert_eq!(cut_short, Err(Refusal::OutOfTurns));
    assert_eq!(queues.heard, b"feeder o");
    assert_eq!(drain(&mut ring, &mut queues, &mut early, 10), Ok(true));
    close(&mut sound, &ring, &mut queues, 0)?;
    queues.swaps = true;
    let confused = speak(&mut sound, &mut ring, &mut queues, &mut early, 0, words, 5);
    assert_eq!((confused, ring.in_flight()?), (Err(Refusal::WrongToken), 2));
    assert_eq!(drain(&mut ring, &mut queues, &mut early, 2), Ok(true));
    close(&mut sound, &ring, &mut queues, 0)
}
