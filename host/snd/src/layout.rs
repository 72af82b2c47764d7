//! The places in stores that this crate itself reads or writes. docs/STATE.md has them all; tests/stores.rs holds these to the archive.
use crate::bytes::{run, u32_at, u64_at};
use crate::trace::INDIRECT;
use crate::{MODEL_SIZE, RING_SIZE, STATE_SIZE};
use core::fmt;

/// Where a state's store says what its open exchange waits for: the stage, the call and all its numbers.
const WAITS: usize = 24;
/// Where it says whether there is a guard, 8 bytes; and where streams' states stand, a byte each.
const GUARD: usize = 48;
const LIVES: usize = 14_320;
/// How many streams' states there are.
const STREAMS: usize = 127;
/// Where its tokens stand, its last bytes: state 4, status 4 each.
const TOKENS: usize = 14_447;
const TOKEN: usize = 8;
const TOKEN_COUNT: usize = 32;

/// What a state's store says of its open exchange: no two of them that differ in stage, call or numbers have the same bytes here.
pub(crate) type Waits = [u8; 24];

pub(crate) fn waits(state: &[u8; STATE_SIZE]) -> Waits {
    run(state, WAITS)
}

/// A new state: the configured counts, the guard, and zeros.
pub(crate) const fn new_state(jacks: u32, streams: u32, chmaps: u32, guard: bool) -> [u8; STATE_SIZE] {
    let mut store = [0; STATE_SIZE];
    if let Some((_, [least, ..])) = store.split_at_mut_checked(GUARD) {
        *least = guard as u8;
    }
    let [j0, j1, j2, j3] = jacks.to_le_bytes();
    let [s0, s1, s2, s3] = streams.to_le_bytes();
    let [m0, m1, m2, m3] = chmaps.to_le_bytes();
    if let Some(counts) = store.first_chunk_mut() {
        *counts = [j0, j1, j2, j3, s0, s1, s2, s3, m0, m1, m2, m3];
    }
    store
}

/// A new ring: the descriptors of a submission, and zeros.
pub(crate) const fn new_ring(mode: u32) -> [u8; RING_SIZE] {
    let mut store = [0; RING_SIZE];
    if let Some(descriptors) = store.first_mut() {
        *descriptors = mode as u8;
    }
    store
}

/// Whether a ring is for indirect descriptors.
pub(crate) fn is_indirect(ring: &[u8; RING_SIZE]) -> bool {
    let [descriptors, ..] = ring;
    u32::from(*descriptors) == INDIRECT
}

/// How many jacks, streams and channel maps a model device has.
pub(crate) fn model_counts(model: &[u8; MODEL_SIZE]) -> [u32; 3] {
    [0, 4, 8].map(|at| u32_at(model, at))
}

/// Whether set-up is done.
pub(crate) fn set_up(state: &[u8; STATE_SIZE]) -> bool {
    let [done, ..] = waits(state);
    done != 0
}

/// The states of so many streams, to be shown; `None` with no guard.
pub(crate) fn lives(state: &[u8; STATE_SIZE], streams: u32) -> Option<Lives<'_>> {
    let lives = state
        .get(LIVES..)
        .and_then(|rest| rest.get(..STREAMS))
        .unwrap_or_default();
    let counted = lives.get(..streams as usize).unwrap_or(lives);
    (u64_at(state, GUARD) != 0).then_some(Lives(counted))
}

/// A list of streams' states, each as the command that led there.
pub(crate) struct Lives<'s>(&'s [u8]);

impl fmt::Debug for Lives<'_> {
    fn fmt(&self, f: &mut fmt::Formatter<'_>) -> fmt::Result {
        f.debug_list().entries(self.0.iter().map(|life| Life(*life))).finish()
    }
}

struct Life(u8);

impl fmt::Debug for Life {
    fn fmt(&self, f: &mut fmt::Formatter<'_>) -> fmt::Result {
        f.write_str(match self.0 {
            0 => "set parameters",
            1 => "prepare",
            2 => "release",
            3 => "start",
            4 => "stop",
            _ => "no state",
        })
    }
}

/// A token's state and status; one that is not there is free.
fn token(state: &[u8; STATE_SIZE], token: usize) -> (u32, u32) {
    let [s0, s1, s2, s3, w0, w1, w2, w3] = run(state, token.saturating_mul(TOKEN).saturating_add(TOKENS));
    (
        u32::from_le_bytes([s0, s1, s2, s3]),
        u32::from_le_bytes([w0, w1, w2, w3]),
    )
}

/// Whether something is pending under a token.
pub(crate) fn taken(state: &[u8; STATE_SIZE], of: usize) -> bool {
    token(state, of).0 != 0
}

/// What is pending, to be shown; `None` where nothing is.
pub(crate) fn tokens(state: &[u8; STATE_SIZE]) -> Option<Tokens<'_>> {
    (0..TOKEN_COUNT).any(|of| taken(state, of)).then_some(Tokens(state))
}

/// The tokens of a state that are pending, each with what is known of it.
pub(crate) struct Tokens<'s>(&'s [u8; STATE_SIZE]);

impl fmt::Debug for Tokens<'_> {
    fn fmt(&self, f: &mut fmt::Formatter<'_>) -> fmt::Result {
        let all = (0..TOKEN_COUNT).map(|of| (of, token(self.0, of)));
        f.debug_map()
            .entries(
                all.filter(|(_, (state, _))| *state != 0)
                    .map(|(of, told)| (of, Told(told))),
            )
            .finish()
    }
}

struct Told((u32, u32));

impl fmt::Debug for Told {
    fn fmt(&self, f: &mut fmt::Formatter<'_>) -> fmt::Result {
        match self.0 {
            (1, _) => f.write_str("waits"),
            (_, status) => write!(f, "marked {status:#06x}"),
        }
    }
}

/// Which answer a consistent state waits for, and which call waits for it; `None` with no exchange open.
pub(crate) fn open(state: &[u8; STATE_SIZE]) -> Option<(&'static str, &'static str)> {
    let [_, stage, call, part, ..] = waits(state);
    let answer = match stage {
        0 => return None,
        1 => "query of jacks",
        2 => "query of streams",
        3 => "query of channel maps",
        _ => "its own request",
    };
    Some((answer, call_name(call, part)))
}

fn call_name(call: u8, part: u8) -> &'static str {
    match (call, part) {
        (1, _) => "set parameters",
        (2, 0) => "prepare",
        (2, 1) => "release",
        (2, 2) => "start",
        (2, _) => "stop",
        (3, _) => "remap",
        (4, 0) => "output streams",
        (4, _) => "input streams",
        (5, 0) => "rates",
        (5, 1) => "formats",
        (5, 2) => "channel range",
        (5, _) => "features",
        (6, _) => "transfer",
        _ => "capture",
    }
}
