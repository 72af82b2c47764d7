//! The rules, behind the same entries.
use crate::entries::{Entries, Lent};
use oracle::Inside;
use rules::capture::Heard;
use rules::entries::{self as e, Asked, Store, number};
use rules::model::Model;
use rules::ring::{Mode, Reading, Ring};
use rules::sound::{Call, Fed, Sound};
use rules::versions;

#[derive(Clone, PartialEq, Eq)]
pub struct Plain {
    pub sound: Sound,
    pub ring: Ring,
    pub model: Model,
    lent: Lent,
}

/// The answer; each value that is told takes 4 bytes of the result.
fn told((answer, values): (u64, Vec<u32>), result: &mut [u8]) -> u64 {
    for (place, value) in result.chunks_mut(4).zip(values) {
        place.copy_from_slice(&value.to_le_bytes());
    }
    answer
}

impl Plain {
    fn state(&mut self) -> (Store<&mut Sound>, Store<&mut Ring>) {
        let state = Store { len: self.lent.state, value: Some(&mut self.sound) };
        (state, Store { len: self.lent.ring, value: Some(&mut self.ring) })
    }
    fn sound(&self) -> Store<&Sound> {
        Store { len: self.lent.state, value: Some(&self.sound) }
    }
    fn ring(&self) -> Store<&Ring> {
        Store { len: self.lent.ring, value: Some(&self.ring) }
    }
    fn ring_mut(&mut self) -> Store<&mut Ring> {
        Store { len: self.lent.ring, value: Some(&mut self.ring) }
    }
    fn model(&self) -> Store<&Model> {
        Store { len: self.lent.model, value: Some(&self.model) }
    }
    fn model_mut(&mut self) -> Store<&mut Model> {
        Store { len: self.lent.model, value: Some(&mut self.model) }
    }
}

impl Entries for Plain {
    fn fresh() -> Self {
        let model = Model::new([&[], &[], &[]]).expect("empty tables fit");
        Plain { sound: Sound::new([0; 3]), ring: Ring::default(), model, lent: Lent::WHOLE }
    }
    fn sizes() -> [u64; 6] {
        [e::STATE_SIZE, e::RING_SIZE, rules::MESSAGE, e::RESULT_SIZE, rules::PAGE, e::MODEL_SIZE].map(|n| n as u64)
    }
    fn lend(&mut self, lent: Lent) {
        self.lent = lent;
    }

    fn make(&mut self, counts: [u32; 3], guard: bool) -> u64 {
        if self.lent.state < e::STATE_SIZE {
            return rules::BAD_LENGTH as u64;
        }
        self.sound = if guard { Sound::new_guarded(counts) } else { Sound::new(counts) };
        0
    }
    fn ring_new(&mut self, indirect: bool) -> u64 {
        if self.lent.ring < e::RING_SIZE {
            return rules::BAD_LENGTH as u64;
        }
        self.ring = Ring::new(if indirect { Mode::Indirect } else { Mode::Direct });
        0
    }
    fn count(&self, which: usize, result: &mut [u8]) -> u64 {
        number(e::count(self.sound(), which, result))
    }
    fn call(&mut self, call: Call, message: &mut [u8], result: &mut [u8]) -> u64 {
        let (state, ring) = self.state();
        let ring = Store { len: ring.len, value: ring.value.map(|ring| &*ring) };
        number(e::call(state, ring, call, message, result))
    }
    fn feed(&mut self, page: &[u8], message: &mut [u8], result: &mut [u8]) -> u64 {
        number(e::feed(self.state().0, Fed::Page(page), message, result))
    }
    fn feed_written(&mut self, page: &[u8], written: u64, message: &mut [u8], result: &mut [u8]) -> u64 {
        number(e::feed_written(self.state().0, page, written, message, result))
    }
    fn feed_failure(&mut self, message: &mut [u8], result: &mut [u8]) -> u64 {
        number(e::feed(self.state().0, Fed::Failure, message, result))
    }
    fn xfer_start(&mut self, stream: u32, frames: &[u8], budget: u64, message: &mut [u8]) -> u64 {
        let (state, ring) = self.state();
        number(e::xfer_start(state, ring, stream, frames.len(), budget, message))
    }
    fn offered(&self, frames: &[u8], result: &mut [u8]) -> u64 {
        number(e::offered(self.ring(), frames.len(), result))
    }
    fn turn(&mut self, frames: &[u8], kind: u32, slot: u32, status: u32) -> u64 {
        number(e::turn(self.ring_mut(), frames.len(), Reading::from_words(kind, slot, status)))
    }
    fn xfer_start_traced(&mut self, stream: u32, frames: &[u8], budget: u64, room: &[u8], message: &mut [u8]) -> u64 {
        let (state, ring) = self.state();
        number(e::xfer_start_traced(state, ring, stream, frames.len(), budget, room.len(), message))
    }
    fn turn_traced(&mut self, frames: &[u8], room: &mut [u8], kind: u32, slot: u32, status: u32) -> u64 {
        number(e::turn_traced(self.ring_mut(), frames.len(), room, Reading::from_words(kind, slot, status)))
    }
    fn capture_start(&mut self, stream: u32, periods: u64, recording: &[u8], budget: u64, message: &mut [u8]) -> u64 {
        let (state, ring) = self.state();
        number(e::capture_start(state, ring, stream, periods, recording.len(), budget, message))
    }
    fn capture_offered(&self, recording: &[u8], result: &mut [u8]) -> u64 {
        number(e::capture_offered(self.ring(), recording.len(), result))
    }
    fn capture_turn(&mut self, recording: &mut [u8], kind: u32, slot: u32, written: u32, bytes: &[u8]) -> u64 {
        number(e::capture_turn(self.ring_mut(), recording, Heard::from_words(kind, slot, written, bytes)))
    }
    fn drain_turn(&mut self, kind: u32, slot: u32, status: u32) -> u64 {
        number(e::drain_turn(self.ring_mut(), Reading::from_words(kind, slot, status)))
    }
    fn ring_read(&self, asked: Asked, result: &mut [u8]) -> u64 {
        number(e::ring_read(self.ring(), asked, result))
    }
    fn xfer_nb(
        &mut self,
        stream: u32,
        payload: &[u8],
        places: &mut [u8],
        message: &mut [u8],
        result: &mut [u8],
    ) -> u64 {
        let (state, ring) = self.state();
        let ring = Store { len: ring.len, value: ring.value.map(|ring| &*ring) };
        number(e::pcm_xfer_nb(state, ring, stream, payload, places, message, result))
    }
    fn xfer_mark(&mut self, kind: u32, token: u32, status: u32) -> u64 {
        number(e::pcm_xfer_mark(self.state().0, Reading::from_words(kind, token, status)))
    }
    fn xfer_ok(&mut self, token: u32) -> u64 {
        number(e::pcm_xfer_ok(self.state().0, token))
    }
    fn pending_count(&self, result: &mut [u8]) -> u64 {
        number(e::pending_count(self.sound(), result))
    }
    fn pending_token(&self, token: u32, result: &mut [u8]) -> u64 {
        number(e::pending_token(self.sound(), token as usize, result))
    }
    fn notification(&self, event: &[u8], result: &mut [u8]) -> u64 {
        number(e::notification(event, result))
    }
    fn config(&self, config: &[u8], version: u32, features: u64, result: &mut [u8]) -> u64 {
        told(versions::config(config, version, features, result.len()), result)
    }
    fn notification_in(&self, event: &[u8], version: u32, features: u64, result: &mut [u8]) -> u64 {
        told(versions::notification(event, version, features, result.len()), result)
    }
    fn trace_scan(trace: &[u8]) -> (u64, u64) {
        e::trace_scan(trace)
    }
    fn judge(mode: u32, trace: &[u8]) -> (u64, u64) {
        e::judge(mode, trace)
    }
    fn differences(first: &[u8], second: &[u8]) -> u64 {
        e::differences(first, second)
    }
    fn compare(first: &[u8], second: &[u8], list: &mut [u8]) -> u64 {
        number(e::compare(first, second, list))
    }
    fn entry_size() -> u64 {
        rules::differences::ENTRY as u64
    }

    fn model_new(&mut self, tables: [&[u8]; 3]) -> u64 {
        if self.lent.model < e::MODEL_SIZE {
            return rules::BAD_LENGTH as u64;
        }
        match Model::new(tables) {
            Err(number) => number as u64,
            Ok(model) => {
                self.model = model;
                0
            }
        }
    }
    fn model_control(&mut self, request: &[u8], page: &mut [u8], result: &mut [u8]) -> u64 {
        number(e::model_control(self.model_mut(), request, page, result))
    }
    fn model_transfer(&mut self, request: &[u8], answer: &mut [u8]) -> u64 {
        number(e::model_transfer(self.model_mut(), request, answer))
    }
    fn model_payload(&self, request: &[u8], result: &mut [u8]) -> u64 {
        number(e::model_payload(self.model(), request, result))
    }
    fn model_params(&self, stream: u32, result: &mut [u8]) -> u64 {
        number(e::model_params(self.model(), stream, result))
    }
    fn model_played(&self, stream: u32, result: &mut [u8]) -> u64 {
        number(e::model_played(self.model(), stream, result))
    }

    fn inside(&self) -> Option<Inside> {
        let seven = |stream: u32| match self.sound.params.get(&stream) {
            None => [0; 7],
            Some(p) => {
                let small = [p.channels, p.format, p.rate].map(u32::from);
                [1, p.buffer, p.period, p.features, small[0], small[1], small[2]]
            }
        };
        let params = (0..self.sound.counts[1]).map(seven).collect();
        let tables = if self.sound.set_up { self.sound.tables.clone() } else { Default::default() };
        Some(Inside { set_up: self.sound.set_up, params, tables })
    }
}
