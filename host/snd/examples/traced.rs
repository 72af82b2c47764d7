//! A transfer that writes a trace, as docs/HOST.md has it: `cargo run -p snd --example traced`.

use snd::{Reading, Refusal, Ring, Sound, Tracing, Turn};

/// What the host's transmit queue does, as in the audio loop.
trait Queue {
    fn submit(&mut self, slot: u32, stream: u32, period: &[u8]);
    fn poll(&mut self) -> Reading;
}

/// Speaks one announcement on a stream that was started, in at most `budget` turns, and tells how it ended and how many of the room's first
/// bytes are its trace. The room has `trace::room_len` bytes or more.
fn speak(
    sound: &mut Sound,
    ring: &mut Ring,
    queue: &mut impl Queue,
    stream: u32,
    frames: &'static [u8],
    budget: u64,
    room: &mut [u8],
) -> Result<(Result<(), Refusal>, usize), Refusal> {
    let mut traced = match sound.transfer_traced(ring, stream, frames, budget, room) {
        Tracing::Runs(traced) => traced,
        Tracing::Refused(refusal, _frames) => return Err(refusal), // 10 where the room is too short; nothing was written
        Tracing::SetUp(..) => return Err(Refusal::Unknown),        // the start of the stream had set-up done
    };
    let ended = loop {
        if let Some(offer) = traced.offered()? {
            queue.submit(offer.slot, stream, offer.period);
        }
        match traced.turn(queue.poll()) {
            Ok(Turn::Going) => {}
            Ok(Turn::Done) => break Ok(()),
            Err(refusal) => break Err(refusal), // the trace is whole all the same
        }
    };
    Ok((ended, traced.trace()?.len()))
}

// Below here: a device that takes each period at once, but for one that it fails.
use snd::trace::{self, DIRECT, Field, Fields};
use snd::{Format, Model, Page, Params, PcmInfo, Rate, STATUS_OK, Status, Step};

struct Desk {
    out: Option<u32>,
    completions: u32,
    fails_at: u32,
}

impl Queue for Desk {
    fn submit(&mut self, slot: u32, _stream: u32, _period: &[u8]) {
        self.out = Some(slot);
    }

    fn poll(&mut self) -> Reading {
        let Some(slot) = self.out.take() else {
            return Reading::Quiet;
        };
        self.completions += 1;
        let failed = self.completions == self.fails_at;
        let status = if failed { Status::IoError.word() } else { STATUS_OK };
        Reading::Completed { slot, status }
    }
}

/// An announcement that is given whole, one that fails, and a room that is too short: both traces are accepted.
pub fn main() -> Result<(), Refusal> {
    let mut device = Model::new(&[], &[PcmInfo::output(1, 2).to_bytes()], &[])?;
    let (mut sound, mut ring, mut page) = (Sound::new(0, 1, 0), Ring::new(), Page::new());
    let to = Params {
        buffer: 8,
        period: 4,
        features: 0,
        channels: 2,
        format: Format::S16,
        rate: Rate::Hz48000,
    };
    let mut step = sound.pcm_set_params(&ring, 0, to)?;
    while let Step::Send(exchange) = step {
        device.control(exchange.bytes(), &mut page)?;
        step = sound.feed(exchange, &page)?;
    }
    let mut room = [0; trace::room_len(10, 4)];
    for (fails_at, ended, answer) in [(0, Ok(()), 0), (2, Err(Refusal::IoError(Some(Status::IoError))), 2)] {
        let mut desk = Desk {
            out: None,
            completions: 0,
            fails_at,
        };
        let (said, length) = speak(&mut sound, &mut ring, &mut desk, 0, b"ten bytes.", 9, &mut room)?;
        assert_eq!(said, ended);
        assert_eq!(trace::judge(DIRECT, &room[..length]), Ok(()));
        let (_at, last) = Fields::of(&room[..length]).last().ok_or(Refusal::Unknown)?;
        assert_eq!(last, Field::End { answer });
    }
    let mut desk = Desk {
        out: None,
        completions: 0,
        fails_at: 0,
    };
    let short = speak(&mut sound, &mut ring, &mut desk, 0, b"ten bytes.", 9, &mut room[1..]);
    assert_eq!(short, Err(Refusal::BadLength));
    Ok(())
}
