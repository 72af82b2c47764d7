//! Everything that can be lent to an entry.
use super::{Desk, PARAMS};
use snd::{MESSAGE_SIZE, PAGE_SIZE, RESULT_SIZE, Sound, ffi};

/// The frames of the transfer that runs in [`Lent::good`].
pub const FRAMES: &[u8] = b"feeder one four, breaker open";

/// A slice for every parameter of every entry, and numbers for the rest.
#[derive(Clone, PartialEq, Eq, Debug)]
pub struct Lent {
    pub state: Vec<u8>,
    pub ring: Vec<u8>,
    pub message: Vec<u8>,
    pub result: Vec<u8>,
    pub page: Vec<u8>,
    pub model: Vec<u8>,
    pub frames: Vec<u8>,
    /// As long as the frames, so that a turn of either kind finds the length of its start; room for seven periods and a byte.
    pub recording: Vec<u8>,
    pub periods: u64,
    /// Room for the trace of the frames, and a byte more.
    pub room: Vec<u8>,
    /// A trace that is to be judged, and in which mode.
    pub trace: Vec<u8>,
    pub mode: u32,
    /// One that it is compared with, and a list with room for their five differences and a byte more.
    pub second: Vec<u8>,
    pub list: Vec<u8>,
    /// A captured period, whole, with its status.
    pub bytes: Vec<u8>,
    /// One period, and places that have room for it and a byte more; the last bytes belong to none.
    pub payload: Vec<u8>,
    pub places: Vec<u8>,
    pub request: Vec<u8>,
    pub answer: Vec<u8>,
    pub event: Vec<u8>,
    pub config: Vec<u8>,
    /// A WAVE file of [`Lent::samples`], as `narrow` has them.
    pub file: Vec<u8>,
    pub samples: Vec<u8>,
    pub jacks: Vec<u8>,
    pub pcms: Vec<u8>,
    pub maps: Vec<u8>,
    pub numbers: [u32; 4],
    pub narrow: [u8; 3],
    pub budget: u64,
    pub written: u64,
    pub version: u32,
    pub features: u64,
}

/// Which slice of [`Lent`].
#[derive(Clone, Copy, PartialEq, Eq, Debug)]
pub enum Part {
    State,
    Ring,
    Message,
    Result,
    Page,
    Model,
    Frames,
    Recording,
    Answer,
    File,
    Config,
    Jacks,
    Pcms,
    Maps,
}

impl Lent {
    /// Set up, with a stream that has parameters and a transfer that runs; the buffers hold marks.
    pub fn good() -> Self {
        let desk = Desk::with_transfer(FRAMES, 1000);
        Self {
            state: desk.sound.store().to_vec(),
            ring: desk.ring.store().to_vec(),
            model: desk.device.store().to_vec(),
            ..Self::buffers()
        }
    }

    /// Set up, with nothing open.
    pub fn idle() -> Self {
        let desk = Desk::with_params();
        Self {
            ring: desk.ring.store().to_vec(),
            ..Self::good()
        }
    }

    /// The same under the guard, and the stream was prepared.
    pub fn guarded() -> Self {
        let mut desk = Desk {
            sound: Sound::new_guarded(2, 2, 0),
            ..Desk::new()
        };
        let step = desk.sound.pcm_set_params(&desk.ring, 0, PARAMS);
        desk.finish(step).unwrap();
        let step = desk.sound.pcm_prepare(&desk.ring, 0);
        desk.finish(step).unwrap();
        Self {
            state: desk.sound.store().to_vec(),
            ..Self::idle()
        }
    }

    /// Set up, with tokens 0 to 2 pending, of which 1 is marked with a status that is not ok.
    pub fn pending() -> Self {
        let mut lent = Self::idle();
        for token in 0..3u8 {
            assert_eq!((super::entries::entry("snd_pcm_xfer_nb").call)(&mut lent), 0);
            assert_eq!(lent.result[0], token);
        }
        assert_eq!(ffi::snd_pcm_xfer_mark(&mut lent.state, 1, 1, 0x8003), 0);
        lent.numbers[0] = 1;
        lent
    }

    /// Set up, with a capture of seven periods that runs, and a period whole to hand to its next turn.
    pub fn capturing() -> Self {
        let mut lent = Self::good();
        let desk = Desk::with_capture(lent.periods, &lent.recording, 1000);
        lent.state = desk.sound.store().to_vec();
        lent.ring = desk.ring.store().to_vec();
        lent.numbers = [0, 12, 0, 1];
        lent
    }

    /// Set up, with a transfer that writes a trace and has run a turn: slot 0 is in flight.
    pub fn tracing() -> Self {
        let mut lent = Self::idle();
        assert_eq!(
            (super::entries::entry("snd_pcm_xfer_start_traced").call)(&mut lent),
            512
        );
        assert_eq!((super::entries::entry("snd_turn_traced").call)(&mut lent), 512);
        lent
    }

    /// The first request of set-up is out.
    pub fn asking() -> Self {
        let mut lent = Self::idle();
        assert_eq!(ffi::snd_new(&mut lent.state, 2, 2, 0), 0);
        let sent = ffi::snd_pcm_prepare(&mut lent.state, &lent.ring, 0, &mut lent.message, &mut lent.result);
        assert_eq!(sent, 256 + 16);
        lent
    }

    fn buffers() -> Self {
        Self {
            state: vec![],
            ring: vec![],
            model: vec![],
            message: vec![0xa1; MESSAGE_SIZE],
            result: vec![0xa2; RESULT_SIZE],
            page: vec![0; PAGE_SIZE],
            frames: FRAMES.to_vec(),
            recording: vec![0xa5; FRAMES.len()],
            periods: 7,
            room: vec![0xa6; snd::trace::room_len(FRAMES.len(), PARAMS.period) + 1],
            trace: super::trace(),
            mode: snd::trace::DIRECT,
            second: super::failed_trace(),
            list: vec![0xa7; 5 * snd::trace::ENTRY_SIZE + 1],
            bytes: super::captured(b"mike", 0x8000),
            payload: b"four".to_vec(),
            places: vec![0xa4; snd::PLACES * (4 + 4 + 1) + 7],
            request: vec![2, 1, 0, 0, 0, 0, 0, 0],
            answer: vec![0xa3; 8],
            event: vec![0, 16, 0, 0, 1, 0, 0, 0],
            config: vec![2, 0, 0, 0, 2, 0, 0, 0, 1, 0, 0, 0, 4, 0, 0, 0],
            file: file(b"two frames, and one more"),
            samples: b"the same, in other words".to_vec(),
            jacks: vec![0; 2 * 24],
            pcms: vec![0; 2 * 32],
            maps: vec![0; 24],
            numbers: [0, 8, 4, 0],
            narrow: [2, 5, 7],
            budget: 1000,
            written: PAGE_SIZE as u64,
            version: 0x0103,
            features: 1,
        }
    }

    pub fn part(&mut self, part: Part) -> &mut Vec<u8> {
        match part {
            Part::State => &mut self.state,
            Part::Ring => &mut self.ring,
            Part::Message => &mut self.message,
            Part::Result => &mut self.result,
            Part::Page => &mut self.page,
            Part::Model => &mut self.model,
            Part::Frames => &mut self.frames,
            Part::Recording => &mut self.recording,
            Part::Answer => &mut self.answer,
            Part::File => &mut self.file,
            Part::Config => &mut self.config,
            Part::Jacks => &mut self.jacks,
            Part::Pcms => &mut self.pcms,
            Part::Maps => &mut self.maps,
        }
    }
}

/// A file of two channels, S16, 48000 Hz.
fn file(frames: &[u8]) -> Vec<u8> {
    let mut file = vec![0; snd::wav::file_len(frames.len())];
    assert_eq!(ffi::snd_wav_write(2, 5, 7, frames, &mut file), 0);
    file
}
