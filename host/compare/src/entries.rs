//! The C entries as one trait, so that a host can be driven over the port and over the rules alike.
use oracle::Inside;
use rules::entries::Asked;
use rules::sound::Call;

/// How much of each store is lent: more or less than its size, to see what is refused.
#[derive(Copy, Clone, Debug, PartialEq, Eq)]
pub struct Lent {
    pub state: usize,
    pub ring: usize,
    pub model: usize,
}

impl Lent {
    pub const WHOLE: Lent =
        Lent { state: rules::entries::STATE_SIZE, ring: rules::entries::RING_SIZE, model: rules::entries::MODEL_SIZE };
}

/// A set of stores and the entries over them. The numbers are what the entries answer, all 64 bits.
pub trait Entries {
    /// Stores that nothing was made in yet.
    fn fresh() -> Self;
    /// The sizes handed out: state, ring, message, result, page, model.
    fn sizes() -> [u64; 6];
    fn lend(&mut self, lent: Lent);

    fn make(&mut self, counts: [u32; 3], guard: bool) -> u64;
    fn ring_new(&mut self, indirect: bool) -> u64;
    /// jacks 0, streams 1, maps 2
    fn count(&self, which: usize, result: &mut [u8]) -> u64;
    fn call(&mut self, call: Call, message: &mut [u8], result: &mut [u8]) -> u64;
    fn feed(&mut self, page: &[u8], message: &mut [u8], result: &mut [u8]) -> u64;
    fn feed_written(&mut self, page: &[u8], written: u64, message: &mut [u8], result: &mut [u8]) -> u64;
    fn feed_failure(&mut self, message: &mut [u8], result: &mut [u8]) -> u64;
    fn xfer_start(&mut self, stream: u32, frames: &[u8], budget: u64, message: &mut [u8]) -> u64;
    fn offered(&self, frames: &[u8], result: &mut [u8]) -> u64;
    fn turn(&mut self, frames: &[u8], kind: u32, slot: u32, status: u32) -> u64;
    fn xfer_start_traced(&mut self, stream: u32, frames: &[u8], budget: u64, room: &[u8], message: &mut [u8]) -> u64;
    fn turn_traced(&mut self, frames: &[u8], room: &mut [u8], kind: u32, slot: u32, status: u32) -> u64;
    fn capture_start(&mut self, stream: u32, periods: u64, recording: &[u8], budget: u64, message: &mut [u8]) -> u64;
    fn capture_offered(&self, recording: &[u8], result: &mut [u8]) -> u64;
    fn capture_turn(&mut self, recording: &mut [u8], kind: u32, slot: u32, written: u32, bytes: &[u8]) -> u64;
    fn drain_turn(&mut self, kind: u32, slot: u32, status: u32) -> u64;
    fn ring_read(&self, asked: Asked, result: &mut [u8]) -> u64;
    fn xfer_nb(&mut self, stream: u32, payload: &[u8], places: &mut [u8], message: &mut [u8], result: &mut [u8])
    -> u64;
    fn xfer_mark(&mut self, kind: u32, token: u32, status: u32) -> u64;
    fn xfer_ok(&mut self, token: u32) -> u64;
    fn pending_count(&self, result: &mut [u8]) -> u64;
    fn pending_token(&self, token: u32, result: &mut [u8]) -> u64;
    fn notification(&self, event: &[u8], result: &mut [u8]) -> u64;
    fn config(&self, config: &[u8], version: u32, features: u64, result: &mut [u8]) -> u64;
    fn notification_in(&self, event: &[u8], version: u32, features: u64, result: &mut [u8]) -> u64;
    /// What is said of a trace, and its offset: of no store.
    fn trace_scan(trace: &[u8]) -> (u64, u64);
    fn judge(mode: u32, trace: &[u8]) -> (u64, u64);
    /// Of two traces: how many differences, and the list of them.
    fn differences(first: &[u8], second: &[u8]) -> u64;
    fn compare(first: &[u8], second: &[u8], list: &mut [u8]) -> u64;
    /// The bytes of an entry of that list.
    fn entry_size() -> u64;

    fn model_new(&mut self, tables: [&[u8]; 3]) -> u64;
    fn model_control(&mut self, request: &[u8], page: &mut [u8], result: &mut [u8]) -> u64;
    fn model_transfer(&mut self, request: &[u8], answer: &mut [u8]) -> u64;
    fn model_payload(&self, request: &[u8], result: &mut [u8]) -> u64;
    fn model_params(&self, stream: u32, result: &mut [u8]) -> u64;
    fn model_played(&self, stream: u32, result: &mut [u8]) -> u64;

    /// What stands behind the calls, where it can be seen: the port's state cannot.
    fn inside(&self) -> Option<Inside>;
}
