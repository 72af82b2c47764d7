//! The port through its C entries, with stores and buffers that are used again, as a console keeps them.
use crate::ways::{BUDGET, EVENT, FULL, PLACES_SIZE, Way, captured, full_pages, page, streams};
use snd::ffi::*;
use snd::{MESSAGE_SIZE, PAGE_SIZE, RESULT_SIZE, RING_SIZE, STATE_SIZE, STATUS_OK};
use std::hint::black_box;

const OK: u64 = 0;
const SEND: u64 = 256;
const GOING: u64 = 512;

pub struct Entries {
    state: [u8; STATE_SIZE],
    full: [u8; STATE_SIZE],
    ring: [u8; RING_SIZE],
    message: [u8; MESSAGE_SIZE],
    result: [u8; RESULT_SIZE],
    ok: [u8; PAGE_SIZE],
    pages: [[u8; PAGE_SIZE]; 3],
    places: Vec<u8>,
    recording: Vec<u8>,
}

impl Entries {
    pub fn new() -> Self {
        let mut new = Self {
            state: [0; STATE_SIZE],
            full: [0; STATE_SIZE],
            ring: [0; RING_SIZE],
            message: [0; MESSAGE_SIZE],
            result: [0; RESULT_SIZE],
            ok: page(&[]),
            pages: full_pages(),
            places: vec![0; PLACES_SIZE],
            recording: vec![],
        };
        assert_eq!(snd_new(&mut new.state, 0, 2, 0), OK);
        assert_eq!(snd_ring_new(&mut new.ring), OK);
        assert_eq!(
            snd_output_streams(&mut new.state, &new.ring, &mut new.message, &mut new.result),
            SEND + 16
        );
        let two = page(&streams());
        for (answer, said) in [(&new.ok, SEND + 16), (&two, SEND + 16), (&new.ok, OK)] {
            assert_eq!(
                snd_feed(&mut new.state, answer, &mut new.message, &mut new.result),
                said
            );
        }
        new
    }

    fn start(&mut self, frames: &[u8]) {
        let started = snd_pcm_xfer_start(&mut self.state, &mut self.ring, 0, frames, BUDGET, &mut self.message);
        assert_eq!(started, GOING);
    }

    /// The number of 8 bytes at a place of the result.
    fn told(&self, at: usize) -> u64 {
        self.result[at..]
            .first_chunk()
            .map_or(0, |bytes| u64::from_le_bytes(*bytes))
    }
}

impl Way for Entries {
    fn set_period(&mut self, period: u32) {
        for stream in [0, 1] {
            let (message, result) = (&mut self.message, &mut self.result);
            let sent = snd_pcm_set_params(
                &mut self.state,
                &self.ring,
                stream,
                period * 2,
                period,
                0,
                2,
                5,
                7,
                message,
                result,
            );
            assert_eq!(sent, SEND + 24);
            assert_eq!(snd_feed(&mut self.state, &self.ok, message, result), OK);
        }
    }

    fn control(&mut self) {
        let (message, result) = (&mut self.message, &mut self.result);
        assert_eq!(
            snd_pcm_prepare(&mut self.state, &self.ring, 0, message, result),
            SEND + 8
        );
        assert_eq!(snd_feed(&mut self.state, black_box(&self.ok), message, result), OK);
    }

    fn set_up(&mut self) {
        let (state, message, result) = (&mut self.full, &mut self.message, &mut self.result);
        let [jacks, streams, maps] = FULL;
        assert_eq!(snd_new(state, jacks, streams, maps), OK);
        assert_eq!(snd_output_streams(state, &self.ring, message, result), SEND + 16);
        for (answer, said) in self.pages.iter().zip([SEND + 16, SEND + 16, OK]) {
            assert_eq!(snd_feed(state, answer, message, result), said);
        }
        black_box(&self.result);
    }

    fn announce(&mut self, frames: &[u8]) -> u64 {
        self.start(frames);
        for turns in 1.. {
            assert_eq!(snd_offered(&self.ring, frames, &mut self.result), OK);
            let (there, slot) = (self.told(0), self.told(8));
            let said = snd_turn(&mut self.ring, frames, there as u32, slot as u32, STATUS_OK);
            if said != GOING {
                assert_eq!(said, OK);
                return turns;
            }
        }
        0
    }

    fn announce_blindly(&mut self, frames: &[u8]) -> u64 {
        self.start(frames);
        for turns in 1.. {
            let said = snd_turn(&mut self.ring, frames, 1, (turns - 1) as u32 % 32, STATUS_OK);
            if said != GOING {
                assert_eq!(said, OK);
                return turns;
            }
        }
        0
    }

    fn capture(&mut self, periods: usize, period: usize) -> u64 {
        let bytes = captured(period);
        self.recording.resize(periods * period, 0);
        let started = snd_pcm_capture_start(
            &mut self.state,
            &mut self.ring,
            1,
            periods as u64,
            &self.recording,
            BUDGET,
            &mut self.message,
        );
        assert_eq!(started, GOING);
        for turns in 1.. {
            assert_eq!(snd_capture_offered(&self.ring, &self.recording, &mut self.result), OK);
            let (there, slot) = (self.told(0), self.told(8));
            let said = snd_capture_turn(
                &mut self.ring,
                &mut self.recording,
                there as u32,
                slot as u32,
                bytes.len() as u32,
                black_box(&bytes),
            );
            if said != GOING {
                assert_eq!(said, OK);
                return turns;
            }
        }
        0
    }

    fn submit(&mut self, period: &[u8]) {
        let (message, result) = (&mut self.message, &mut self.result);
        let out = snd_pcm_xfer_nb(
            &mut self.state,
            &self.ring,
            0,
            period,
            &mut self.places,
            message,
            result,
        );
        assert_eq!(out, OK);
        let token = self.told(0) as u32;
        assert_eq!(snd_pcm_xfer_mark(&mut self.state, 1, token, STATUS_OK), OK);
        assert_eq!(snd_pcm_xfer_ok(&mut self.state, token), OK);
    }

    fn event(&mut self) {
        assert_eq!(snd_latest_notification(black_box(&EVENT), &mut self.result), OK);
        black_box(&self.result);
    }
}
