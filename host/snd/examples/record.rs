//! The recording of docs/HOST.md, tried on a made-up microphone: `cargo run -p snd --example record`.

use snd::{Captured, Capturing, Refusal, Ring, Room, Sound, Turn};

/// What the host's receive queue does. Neither may wait for long.
trait Microphone {
    fn submit(&mut self, stream: u32, room: Room); // put the slot's own buffer, of the period and 8 bytes, on the receive queue
    fn poll(&mut self) -> Captured<'_>; // look at that queue once: the length as it reports it, and the buffer
}

/// Records so many periods of an input stream that was started, in at most `budget` turns, and gives what was heard, also where a turn was
/// refused: then drain turns free what is owed.
fn record<'r>(
    sound: &mut Sound,
    ring: &mut Ring,
    microphone: &mut impl Microphone,
    stream: u32,
    periods: u64,
    recording: &'r mut [u8],
    budget: u64,
) -> Result<(&'r [u8], Result<(), Refusal>), Refusal> {
    let mut capture = match sound.capture(ring, stream, periods, recording, budget)? {
        Capturing::Runs(capture) => capture,
        Capturing::SetUp(_) => return Err(Refusal::Unknown), // the start of the stream had set-up done
    };
    let ended = loop {
        if let Some(room) = capture.offered()? {
            microphone.submit(stream, room);
        }
        match capture.turn(microphone.poll()) {
            Ok(Turn::Going) => {}
            Ok(Turn::Done) => break Ok(()),
            Err(refusal) => break Err(refusal),
        }
    };
    let kept = capture.kept()?;
    Ok((recording.get(..kept).unwrap_or_default(), ended))
}

// Below here: a microphone that hears a sentence.
use snd::{CAPTURE_STATUS, Format, Model, Page, Params, PcmInfo, Rate, Reading, STATUS_OK, Step};

/// Fills each period but every third, of which it has one byte alone.
struct Yard {
    says: &'static [u8],
    /// Slots that are out, and a buffer for each.
    out: std::collections::VecDeque<u32>,
    buffers: [[u8; 4 + CAPTURE_STATUS]; snd::SLOTS],
    completions: u32,
    /// At this completion it says that it wrote more than it was given room for.
    lies_at: Option<u32>,
}

impl Microphone for Yard {
    fn submit(&mut self, _stream: u32, room: Room) {
        assert_eq!(room.length, 4);
        self.out.push_back(room.slot);
    }

    fn poll(&mut self) -> Captured<'_> {
        let Some(slot) = self.out.pop_front() else {
            return Captured::Quiet;
        };
        self.completions += 1;
        let most = if self.completions % 3 == 0 { 1 } else { 4 };
        let (heard, rest) = self.says.split_at(most.min(self.says.len()));
        self.says = rest;
        let buffer = &mut self.buffers[slot as usize];
        buffer[..heard.len()].copy_from_slice(heard);
        buffer[heard.len()..][..4].copy_from_slice(&STATUS_OK.to_le_bytes());
        let lies = self.lies_at == Some(self.completions);
        Captured::Completed {
            slot,
            written: if lies {
                13
            } else {
                (heard.len() + CAPTURE_STATUS) as u32
            },
            bytes: &buffer[..],
        }
    }
}

/// Sends what a call asks to send, until it has ended.
fn finish(sound: &mut Sound, device: &mut Model, mut step: Step<()>) -> Result<(), Refusal> {
    let mut page = Page::new();
    while let Step::Send(exchange) = step {
        device.control(exchange.bytes(), &mut page)?;
        step = sound.feed(exchange, &page)?;
    }
    Ok(())
}

/// A sentence that is recorded whole, with short periods in it; then a microphone that says what cannot be, and what was heard before stays.
pub fn main() -> Result<(), Refusal> {
    let mut device = Model::new(&[], &[PcmInfo::input(1, 2).to_bytes()], &[])?;
    let (mut sound, mut ring) = (Sound::new_guarded(0, 1, 0), Ring::new());
    let to = Params {
        buffer: 8,
        period: 4,
        features: 0,
        channels: 2,
        format: Format::S16,
        rate: Rate::Hz48000,
    };
    let set = sound.pcm_set_params(&ring, 0, to)?;
    finish(&mut sound, &mut device, set)?;
    let prepare = sound.pcm_prepare(&ring, 0)?;
    finish(&mut sound, &mut device, prepare)?;
    let start = sound.pcm_start(&ring, 0)?;
    finish(&mut sound, &mut device, start)?;
    let mut yard = Yard {
        says: b"gate two, open it",
        out: [].into(),
        buffers: [[0; 4 + CAPTURE_STATUS]; snd::SLOTS],
        completions: 0,
        lies_at: None,
    };
    let mut recording = [b'-'; 24];
    let heard = record(&mut sound, &mut ring, &mut yard, 0, 6, &mut recording, 7)?;
    assert_eq!(heard, (&b"gate two, open it"[..], Ok(())));
    assert_eq!(&recording, b"gate two, open it-------");
    yard.says = b"gate three";
    yard.lies_at = Some(yard.completions + 2);
    let mut recording = [b'-'; 24];
    let heard = record(&mut sound, &mut ring, &mut yard, 0, 6, &mut recording, 7)?;
    assert_eq!(heard, (&b"gate"[..], Err(Refusal::BadCapture)));
    assert_eq!(&recording, b"gate--------------------");
    assert_eq!(ring.drain_turn(Reading::Quiet), Ok(()));
    assert_eq!(ring.in_flight(), Ok(0));
    Ok(())
}
