//! The port, through its C entries.
use crate::entries::{Entries, Lent};
use crate::ffi::*;
use oracle::Inside;
use rules::entries::Asked;
use rules::sound::Call;
use rules::wire;

/// Bytes before each store, so that it begins at an odd address, and past its size, lent or not: no entry may touch them.
pub const LEAD: usize = 1;
pub const PAST: usize = 16;
const FILL: u8 = 0xa5;

/// The three lent stores.
#[derive(Clone, PartialEq, Eq)]
pub struct Port {
    pub state: Vec<u8>,
    pub ring: Vec<u8>,
    pub model: Vec<u8>,
    lent: Lent,
}

/// A slice as it crosses: a pointer and a length.
macro_rules! lend {
    ($s:expr) => {
        ($s.as_ptr(), $s.len())
    };
    (mut $s:expr) => {
        ($s.as_mut_ptr(), $s.len())
    };
}

impl Port {
    /// One call of a stream or of none: the entries of one shape.
    fn shape(call: Call) -> Shape {
        match call {
            Call::Command { code: wire::PREPARE, stream } => Shape::Stream(snd_pcm_prepare, stream),
            Call::Command { code: wire::RELEASE, stream } => Shape::Stream(snd_pcm_release, stream),
            Call::Command { code: wire::START, stream } => Shape::Stream(snd_pcm_start, stream),
            Call::Command { stream, .. } => Shape::Stream(snd_pcm_stop, stream),
            Call::Rates(stream) => Shape::Stream(snd_rates_supported, stream),
            Call::Formats(stream) => Shape::Stream(snd_formats_supported, stream),
            Call::ChannelRange(stream) => Shape::Stream(snd_channel_range_supported, stream),
            Call::Features(stream) => Shape::Stream(snd_features_supported, stream),
            Call::OutputStreams => Shape::Plain(snd_output_streams),
            Call::InputStreams => Shape::Plain(snd_input_streams),
            Call::Remap { .. } | Call::SetParams { .. } => Shape::Other,
            Call::Transfer(_) | Call::Capture(_) => panic!("a transfer is started, not called"),
        }
    }
}

type OfStream = unsafe extern "C" fn(*mut u8, usize, *const u8, usize, u32, *mut u8, usize, *mut u8, usize) -> u64;
type Plain = unsafe extern "C" fn(*mut u8, usize, *const u8, usize, *mut u8, usize, *mut u8, usize) -> u64;

enum Shape {
    Stream(OfStream, u32),
    Plain(Plain),
    Other,
}

// SAFETY of every call below: each pointer and length is that of a slice that lives through the call, those that are written are
// borrowed mutably and overlap no other, and no entry demands more (snd.h).
impl Entries for Port {
    fn fresh() -> Self {
        let [state, ring, _, _, _, model] = Self::sizes().map(|size| vec![FILL; LEAD + size as usize + PAST]);
        Port { state, ring, model, lent: Lent::WHOLE }
    }
    fn sizes() -> [u64; 6] {
        unsafe {
            [
                snd_state_size(),
                snd_ring_size(),
                snd_message_size(),
                snd_result_size(),
                snd_page_size(),
                snd_model_size(),
            ]
        }
    }
    fn lend(&mut self, lent: Lent) {
        self.lent = lent;
    }

    fn make(&mut self, [jacks, streams, maps]: [u32; 3], guard: bool) -> u64 {
        let entry = if guard { snd_new_guarded } else { snd_new };
        let (s, sn) = lend!(mut self.state[LEAD..][..self.lent.state]);
        unsafe { entry(s, sn, jacks, streams, maps) }
    }
    fn ring_new(&mut self, indirect: bool) -> u64 {
        let entry = if indirect { snd_ring_new_indirect } else { snd_ring_new };
        let (r, rn) = lend!(mut self.ring[LEAD..][..self.lent.ring]);
        unsafe { entry(r, rn) }
    }
    fn count(&self, which: usize, result: &mut [u8]) -> u64 {
        let entry = [snd_jacks, snd_streams, snd_chmaps][which];
        let ((s, sn), (o, on)) = (lend!(self.state[LEAD..][..self.lent.state]), lend!(mut result));
        unsafe { entry(s, sn, o, on) }
    }
    fn call(&mut self, call: Call, message: &mut [u8], result: &mut [u8]) -> u64 {
        let ((s, sn), (r, rn)) =
            (lend!(mut self.state[LEAD..][..self.lent.state]), lend!(self.ring[LEAD..][..self.lent.ring]));
        let ((m, mn), (o, on)) = (lend!(mut message), lend!(mut result));
        match (Self::shape(call), call) {
            (Shape::Stream(entry, stream), _) => unsafe { entry(s, sn, r, rn, stream, m, mn, o, on) },
            (Shape::Plain(entry), _) => unsafe { entry(s, sn, r, rn, m, mn, o, on) },
            (_, Call::Remap { jack: j, association: a, sequence: q }) => unsafe {
                snd_jack_remap(s, sn, r, rn, j, a, q, m, mn, o, on)
            },
            (_, Call::SetParams { stream, params: p }) => unsafe {
                let (b, f) = (p.buffer, p.features);
                snd_pcm_set_params(s, sn, r, rn, stream, b, p.period, f, p.channels, p.format, p.rate, m, mn, o, on)
            },
            _ => unreachable!("every call has a shape"),
        }
    }
    fn feed(&mut self, page: &[u8], message: &mut [u8], result: &mut [u8]) -> u64 {
        let ((s, sn), (p, pn)) = (lend!(mut self.state[LEAD..][..self.lent.state]), lend!(page));
        let ((m, mn), (o, on)) = (lend!(mut message), lend!(mut result));
        unsafe { snd_feed(s, sn, p, pn, m, mn, o, on) }
    }
    fn feed_written(&mut self, page: &[u8], written: u64, message: &mut [u8], result: &mut [u8]) -> u64 {
        let ((s, sn), (p, pn)) = (lend!(mut self.state[LEAD..][..self.lent.state]), lend!(page));
        let ((m, mn), (o, on)) = (lend!(mut message), lend!(mut result));
        unsafe { snd_feed_written(s, sn, p, pn, written, m, mn, o, on) }
    }
    fn feed_failure(&mut self, message: &mut [u8], result: &mut [u8]) -> u64 {
        let (s, sn) = lend!(mut self.state[LEAD..][..self.lent.state]);
        let ((m, mn), (o, on)) = (lend!(mut message), lend!(mut result));
        unsafe { snd_feed_failure(s, sn, m, mn, o, on) }
    }
    fn xfer_start(&mut self, stream: u32, frames: &[u8], budget: u64, message: &mut [u8]) -> u64 {
        let (s, sn) = lend!(mut self.state[LEAD..][..self.lent.state]);
        let (r, rn) = lend!(mut self.ring[LEAD..][..self.lent.ring]);
        let ((f, fl), (m, mn)) = (lend!(frames), lend!(mut message));
        unsafe { snd_pcm_xfer_start(s, sn, r, rn, stream, f, fl, budget, m, mn) }
    }
    fn offered(&self, frames: &[u8], result: &mut [u8]) -> u64 {
        let ((r, rn), (f, fl)) = (lend!(self.ring[LEAD..][..self.lent.ring]), lend!(frames));
        let (o, on) = lend!(mut result);
        unsafe { snd_offered(r, rn, f, fl, o, on) }
    }
    fn turn(&mut self, frames: &[u8], kind: u32, slot: u32, status: u32) -> u64 {
        let ((r, rn), (f, fl)) = (lend!(mut self.ring[LEAD..][..self.lent.ring]), lend!(frames));
        unsafe { snd_turn(r, rn, f, fl, kind, slot, status) }
    }
    fn xfer_start_traced(&mut self, stream: u32, frames: &[u8], budget: u64, room: &[u8], message: &mut [u8]) -> u64 {
        let (s, sn) = lend!(mut self.state[LEAD..][..self.lent.state]);
        let (r, rn) = lend!(mut self.ring[LEAD..][..self.lent.ring]);
        let ((f, fl), (t, tn), (m, mn)) = (lend!(frames), lend!(room), lend!(mut message));
        unsafe { snd_pcm_xfer_start_traced(s, sn, r, rn, stream, f, fl, budget, t, tn, m, mn) }
    }
    fn turn_traced(&mut self, frames: &[u8], room: &mut [u8], kind: u32, slot: u32, status: u32) -> u64 {
        let ((r, rn), (f, fl)) = (lend!(mut self.ring[LEAD..][..self.lent.ring]), lend!(frames));
        let (t, tn) = lend!(mut room);
        unsafe { snd_turn_traced(r, rn, f, fl, t, tn, kind, slot, status) }
    }
    fn capture_start(&mut self, stream: u32, periods: u64, recording: &[u8], budget: u64, message: &mut [u8]) -> u64 {
        let (s, sn) = lend!(mut self.state[LEAD..][..self.lent.state]);
        let (r, rn) = lend!(mut self.ring[LEAD..][..self.lent.ring]);
        let ((c, cn), (m, mn)) = (lend!(recording), lend!(mut message));
        unsafe { snd_pcm_capture_start(s, sn, r, rn, stream, periods, c, cn, budget, m, mn) }
    }
    fn capture_offered(&self, recording: &[u8], result: &mut [u8]) -> u64 {
        let ((r, rn), (c, cn)) = (lend!(self.ring[LEAD..][..self.lent.ring]), lend!(recording));
        let (o, on) = lend!(mut result);
        unsafe { snd_capture_offered(r, rn, c, cn, o, on) }
    }
    fn capture_turn(&mut self, recording: &mut [u8], kind: u32, slot: u32, written: u32, bytes: &[u8]) -> u64 {
        let ((r, rn), (c, cn)) = (lend!(mut self.ring[LEAD..][..self.lent.ring]), lend!(mut recording));
        let (b, bn) = lend!(bytes);
        unsafe { snd_capture_turn(r, rn, c, cn, kind, slot, written, b, bn) }
    }
    fn drain_turn(&mut self, kind: u32, slot: u32, status: u32) -> u64 {
        let (r, rn) = lend!(mut self.ring[LEAD..][..self.lent.ring]);
        unsafe { snd_drain_turn(r, rn, kind, slot, status) }
    }
    fn ring_read(&self, asked: Asked, result: &mut [u8]) -> u64 {
        let ((r, rn), (o, on)) = (lend!(self.ring[LEAD..][..self.lent.ring]), lend!(mut result));
        let entry = match asked {
            Asked::Running => snd_ring_running,
            Asked::InFlight => snd_ring_in_flight,
            Asked::FreeDescriptors => snd_ring_free_descriptors,
            Asked::TurnsRun => snd_ring_turns_run,
            Asked::Stream => snd_ring_stream,
            Asked::Oldest => snd_ring_oldest,
            Asked::Kept => snd_ring_kept,
            Asked::Accepted => snd_ring_accepted,
            Asked::TraceLength => snd_trace_length,
            Asked::Carried(slot) => return unsafe { snd_ring_carried(r, rn, slot, o, on) },
        };
        unsafe { entry(r, rn, o, on) }
    }
    fn xfer_nb(
        &mut self,
        stream: u32,
        payload: &[u8],
        places: &mut [u8],
        message: &mut [u8],
        result: &mut [u8],
    ) -> u64 {
        let (s, sn) = lend!(mut self.state[LEAD..][..self.lent.state]);
        let ((r, rn), (p, pn)) = (lend!(self.ring[LEAD..][..self.lent.ring]), lend!(payload));
        let ((k, kn), (m, mn), (o, on)) = (lend!(mut places), lend!(mut message), lend!(mut result));
        unsafe { snd_pcm_xfer_nb(s, sn, r, rn, stream, p, pn, k, kn, m, mn, o, on) }
    }
    fn xfer_mark(&mut self, kind: u32, token: u32, status: u32) -> u64 {
        let (s, sn) = lend!(mut self.state[LEAD..][..self.lent.state]);
        unsafe { snd_pcm_xfer_mark(s, sn, kind, token, status) }
    }
    fn xfer_ok(&mut self, token: u32) -> u64 {
        let (s, sn) = lend!(mut self.state[LEAD..][..self.lent.state]);
        unsafe { snd_pcm_xfer_ok(s, sn, token) }
    }
    fn pending_count(&self, result: &mut [u8]) -> u64 {
        let ((s, sn), (o, on)) = (lend!(self.state[LEAD..][..self.lent.state]), lend!(mut result));
        unsafe { snd_pending_count(s, sn, o, on) }
    }
    fn pending_token(&self, token: u32, result: &mut [u8]) -> u64 {
        let ((s, sn), (o, on)) = (lend!(self.state[LEAD..][..self.lent.state]), lend!(mut result));
        unsafe { snd_pending_token(s, sn, token as usize, o, on) }
    }
    fn notification(&self, event: &[u8], result: &mut [u8]) -> u64 {
        let ((v, vn), (o, on)) = (lend!(event), lend!(mut result));
        unsafe { snd_latest_notification(v, vn, o, on) }
    }
    fn config(&self, config: &[u8], version: u32, features: u64, result: &mut [u8]) -> u64 {
        let ((c, cn), (o, on)) = (lend!(config), lend!(mut result));
        unsafe { snd_config(c, cn, version, features, o, on) }
    }
    fn notification_in(&self, event: &[u8], version: u32, features: u64, result: &mut [u8]) -> u64 {
        let ((v, vn), (o, on)) = (lend!(event), lend!(mut result));
        unsafe { snd_latest_notification_in(v, vn, version, features, o, on) }
    }
    fn trace_scan(trace: &[u8]) -> (u64, u64) {
        let (t, tn) = lend!(trace);
        unsafe { (snd_trace_scan(t, tn), snd_trace_scan_at(t, tn)) }
    }
    fn judge(mode: u32, trace: &[u8]) -> (u64, u64) {
        let (t, tn) = lend!(trace);
        unsafe { (snd_judge(mode, t, tn), snd_judge_at(mode, t, tn)) }
    }
    fn differences(first: &[u8], second: &[u8]) -> u64 {
        let ((a, an), (b, bn)) = (lend!(first), lend!(second));
        unsafe { snd_differences(a, an, b, bn) }
    }
    fn compare(first: &[u8], second: &[u8], list: &mut [u8]) -> u64 {
        let ((a, an), (b, bn), (l, ln)) = (lend!(first), lend!(second), lend!(mut list));
        unsafe { snd_compare(a, an, b, bn, l, ln) }
    }
    fn entry_size() -> u64 {
        unsafe { snd_entry_size() }
    }

    fn model_new(&mut self, tables: [&[u8]; 3]) -> u64 {
        let (d, dn) = lend!(mut self.model[LEAD..][..self.lent.model]);
        let [(j, jn), (p, pn), (c, cn)] = tables.map(|table| lend!(table));
        unsafe { snd_model_new(d, dn, j, jn, p, pn, c, cn) }
    }
    fn model_control(&mut self, request: &[u8], page: &mut [u8], result: &mut [u8]) -> u64 {
        let ((d, dn), (q, qn)) = (lend!(mut self.model[LEAD..][..self.lent.model]), lend!(request));
        let ((p, pn), (o, on)) = (lend!(mut page), lend!(mut result));
        unsafe { snd_model_control(d, dn, q, qn, p, pn, o, on) }
    }
    fn model_transfer(&mut self, request: &[u8], answer: &mut [u8]) -> u64 {
        let ((d, dn), (q, qn)) = (lend!(mut self.model[LEAD..][..self.lent.model]), lend!(request));
        let (a, an) = lend!(mut answer);
        unsafe { snd_model_transfer(d, dn, q, qn, a, an) }
    }
    fn model_payload(&self, request: &[u8], result: &mut [u8]) -> u64 {
        let ((d, dn), (q, qn)) = (lend!(self.model[LEAD..][..self.lent.model]), lend!(request));
        let (o, on) = lend!(mut result);
        unsafe { snd_model_payload(d, dn, q, qn, o, on) }
    }
    fn model_params(&self, stream: u32, result: &mut [u8]) -> u64 {
        let ((d, dn), (o, on)) = (lend!(self.model[LEAD..][..self.lent.model]), lend!(mut result));
        unsafe { snd_model_params(d, dn, stream, o, on) }
    }
    fn model_played(&self, stream: u32, result: &mut [u8]) -> u64 {
        let ((d, dn), (o, on)) = (lend!(self.model[LEAD..][..self.lent.model]), lend!(mut result));
        unsafe { snd_model_played(d, dn, stream, o, on) }
    }

    fn inside(&self) -> Option<Inside> {
        None
    }
}
