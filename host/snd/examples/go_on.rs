//! The loop of docs/HOST.md that does not wait, tried on the model device: `cargo run -p snd --example go_on`.

use snd::{PlaceStore, Places, Reading, Refusal, Ring, Sound, Submitted};

/// What the console does besides, and its transmit queue. None of the three may wait for long.
trait Console {
    fn poll_breakers(&mut self);
    fn submit(&mut self, token: u32, request: &[u8]); // put stream id and period, in one part, on the transmit queue, under this token
    fn poll(&mut self) -> Reading; // look at that queue once; a completion of nothing that is out has slot u32::MAX
}

/// Speaks whole periods on a stream that was started, and goes on meanwhile.
fn speak<'p, P: PlaceStore>(
    sound: &mut Sound,
    ring: &Ring,
    places: &mut Places<P>,
    console: &mut impl Console,
    stream: u32,
    mut periods: impl Iterator<Item = &'p [u8]>,
) -> Result<(), Refusal> {
    let mut next = periods.next();
    while next.is_some() || sound.pending_count()? > 0 {
        if let Some(period) = next {
            match sound.pcm_xfer_nb(ring, stream, period, places) {
                Ok(Submitted::Token(token)) => {
                    console.submit(token, places.request(token).unwrap_or_default());
                    next = periods.next();
                }
                Err(Refusal::Full) => {} // all 16 are out: go on, and try again
                Ok(Submitted::SetUp(_)) => return Err(Refusal::Unknown), // the start of the stream had set-up done
                Err(refusal) => return Err(refusal),
            }
        }
        console.poll_breakers(); // and whatever else there is to do
        let reading = console.poll();
        sound.pcm_xfer_mark(reading)?;
        if let Reading::Completed { slot: token, .. } = reading {
            sound.pcm_xfer_ok(places, token)?; // 2: the device failed this period; its place is free all the same
        }
    }
    Ok(())
}

// Below here: a console whose queue ends in the model device.
use snd::{Format, Model, PLACES, Page, Params, PcmInfo, Rate, STATUS_OK, Status, Step};

/// A device that completes one period in any three looks, the newest first: no order is asked.
struct Slow {
    device: Model,
    out: Vec<(u32, Vec<u8>)>,
    heard: Vec<Vec<u8>>,
    looks: u64,
    polled: u64,
    fails: bool,
}

impl Console for Slow {
    fn poll_breakers(&mut self) {
        self.polled += 1;
    }

    fn submit(&mut self, token: u32, request: &[u8]) {
        self.out.push((token, request.to_vec()));
    }

    fn poll(&mut self) -> Reading {
        self.looks += 1;
        if self.looks % 3 != 0 {
            return Reading::Quiet;
        }
        let Some((slot, request)) = self.out.pop() else {
            return Reading::Quiet;
        };
        if self.fails {
            return Reading::Completed { slot, status: 0x8003 };
        }
        let status = self.device.transfer(&request).map_or(0, |answer| answer.status);
        self.heard
            .push(self.device.payload(&request).unwrap_or_default().to_vec());
        Reading::Completed { slot, status }
    }
}

/// Sends what a call asks to send, until it has ended.
fn finish(sound: &mut Sound, device: &mut Model, mut step: Step<()>) -> Result<(), Refusal> {
    let mut page = Page::new();
    while let Step::Send(exchange) = step {
        device.control(exchange.bytes(), &mut page)?;
        step = sound.feed(exchange, &page)?;
    }
    Ok(())
}

/// A sentence of 30 periods, which is more than there are places; then one whose first completion says that the device failed it.
pub fn main() -> Result<(), Refusal> {
    let device = Model::new(&[], &[PcmInfo::output(1, 2).to_bytes()], &[])?;
    let (mut sound, ring) = (Sound::new_guarded(0, 1, 0), Ring::new());
    let mut console = Slow {
        device,
        out: vec![],
        heard: vec![],
        looks: 0,
        polled: 0,
        fails: false,
    };
    let to = Params {
        buffer: 8,
        period: 4,
        features: 0,
        channels: 2,
        format: Format::S16,
        rate: Rate::Hz48000,
    };
    let set = sound.pcm_set_params(&ring, 0, to)?;
    finish(&mut sound, &mut console.device, set)?;
    let prepare = sound.pcm_prepare(&ring, 0)?;
    finish(&mut sound, &mut console.device, prepare)?;
    let start = sound.pcm_start(&ring, 0)?;
    finish(&mut sound, &mut console.device, start)?;
    let mut places = Places::new(vec![0; PLACES * (4 + 4)]);
    let words: Vec<u8> = (0..120).collect();
    speak(&mut sound, &ring, &mut places, &mut console, 0, words.chunks(4))?;
    assert_eq!(console.polled, 90);
    console.heard.sort();
    assert_eq!(console.heard.concat(), words);
    // a period that failed: its answer ends the loop, and the others are taken back
    console.fails = true;
    let failed = speak(&mut sound, &ring, &mut places, &mut console, 0, words.chunks(4));
    assert_eq!(failed, Err(Refusal::IoError(Some(Status::IoError))));
    assert_eq!((sound.pending_count()?, console.out.len()), (2, 2));
    for (slot, _request) in console.out.drain(..) {
        let status = STATUS_OK;
        sound.pcm_xfer_mark(Reading::Completed { slot, status })?;
        sound.pcm_xfer_ok(&mut places, slot)?;
    }
    // the store comes back once nothing is pending
    assert!(places.end().is_ok());
    Ok(())
}
