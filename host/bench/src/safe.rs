//! The port through the safe crate, as a Rust console writes it.
use crate::ways::{BUDGET, EVENT, FULL, PLACES_SIZE, Way, captured, full_pages, page, streams};
use snd::{
    Captured, Capturing, Format, PAGE_SIZE, Page, Params, Places, Rate, Reading, Refusal, Ring, STATUS_OK, Sound, Step,
    StreamList, Submitted, Turn,
};
use std::hint::black_box;

pub struct Safe {
    sound: Sound,
    ring: Ring,
    ok: Page,
    pages: [Page; 3],
    places: Places<Vec<u8>>,
    recording: Vec<u8>,
}

fn of(bytes: [u8; PAGE_SIZE]) -> Page {
    let mut page = Page::new();
    *page.bytes_mut() = bytes;
    page
}

/// Feeds the prepared answers, one for each request, and gives the list that comes of them.
fn listed(sound: &mut Sound, ring: &Ring, answers: &[Page]) -> StreamList {
    let mut step = sound.output_streams(ring).expect("it is idle");
    for answer in answers {
        step = match step {
            Step::Send(exchange) => sound.feed(exchange, answer).expect("the answers are good"),
            done => done,
        };
    }
    match step {
        Step::Done(list) => list,
        Step::Send(_) => unreachable!("there is an answer for each request"),
    }
}

impl Safe {
    pub fn new() -> Self {
        let (mut sound, ring) = (Sound::new(0, 2, 0), Ring::new());
        let answers = [page(&[]), page(&streams()), page(&[])].map(of);
        assert_eq!(listed(&mut sound, &ring, &answers).ids(), [0]);
        Self {
            sound,
            ring,
            ok: of(page(&[])),
            pages: full_pages().map(of),
            places: Places::new(vec![0; PLACES_SIZE]),
            recording: vec![],
        }
    }

    /// Feeds ok to the one request of a call.
    fn answered(&mut self, step: Result<Step<()>, Refusal>) {
        let Ok(Step::Send(exchange)) = step else {
            unreachable!("set-up is done")
        };
        assert_eq!(self.sound.feed(exchange, black_box(&self.ok)), Ok(Step::Done(())));
    }

    fn start(&mut self, frames: &[u8]) {
        let started = self.sound.pcm_xfer_start(&mut self.ring, 0, frames, BUDGET);
        assert_eq!(started, Ok(Step::Done(())));
    }
}

impl Way for Safe {
    fn set_period(&mut self, period: u32) {
        let (format, rate) = (Format::S16, Rate::Hz48000);
        let to = Params {
            buffer: period * 2,
            period,
            features: 0,
            channels: 2,
            format,
            rate,
        };
        for stream in [0, 1] {
            let step = self.sound.pcm_set_params(&self.ring, stream, to);
            self.answered(step);
        }
    }

    fn control(&mut self) {
        let step = self.sound.pcm_prepare(&self.ring, 0);
        self.answered(step);
    }

    fn set_up(&mut self) {
        let [jacks, streams, maps] = FULL;
        let mut sound = Sound::new(jacks, streams, maps);
        black_box(listed(&mut sound, &self.ring, &self.pages));
    }

    fn announce(&mut self, frames: &[u8]) -> u64 {
        self.start(frames);
        for turns in 1.. {
            let offer = self.ring.offered(frames).expect("it runs");
            let reading = offer.map_or(Reading::Quiet, |offer| Reading::Completed {
                slot: offer.slot,
                status: STATUS_OK,
            });
            if self.ring.turn(frames, reading).expect("the device is good") == Turn::Done {
                return turns;
            }
        }
        0
    }

    fn announce_blindly(&mut self, frames: &[u8]) -> u64 {
        self.start(frames);
        for turns in 1.. {
            let reading = Reading::Completed {
                slot: (turns - 1) as u32 % 32,
                status: STATUS_OK,
            };
            if self.ring.turn(frames, reading).expect("the device is good") == Turn::Done {
                return turns;
            }
        }
        0
    }

    fn capture(&mut self, periods: usize, period: usize) -> u64 {
        let bytes = captured(period);
        let Self {
            sound, ring, recording, ..
        } = self;
        recording.resize(periods * period, 0);
        let Ok(Capturing::Runs(mut capture)) = sound.capture(ring, 1, periods as u64, recording, BUDGET) else {
            unreachable!("set-up is done")
        };
        for turns in 1.. {
            let room = capture.offered().expect("it runs");
            let seen = room.map_or(Captured::Quiet, |room| Captured::Completed {
                slot: room.slot,
                written: bytes.len() as u32,
                bytes: black_box(&bytes),
            });
            if capture.turn(seen).expect("the device is good") == Turn::Done {
                return turns;
            }
        }
        0
    }

    fn submit(&mut self, period: &[u8]) {
        let Ok(Submitted::Token(slot)) = self.sound.pcm_xfer_nb(&self.ring, 0, period, &mut self.places) else {
            unreachable!("a place is free")
        };
        let reading = Reading::Completed {
            slot,
            status: STATUS_OK,
        };
        assert_eq!(self.sound.pcm_xfer_mark(reading), Ok(()));
        assert_eq!(self.sound.pcm_xfer_ok(&mut self.places, slot), Ok(()));
    }

    fn event(&mut self) {
        assert!(black_box(snd::latest_notification(black_box(&EVENT))).is_ok());
    }
}
