//! The C entries over the rules: the order of refusals, the lent stores and the result slice
//! (host/include/snd.h says what each answers and writes).

use crate::capture::Heard;
use crate::event::{Event, latest_notification};
use crate::model::Model;
use crate::ring::{Reading, Ring, Turn};
use crate::sound::{Call, Fed, Say, Sound, Value};
use crate::trace::Fault;
use crate::*;

pub const STATE_SIZE: usize = 14703;
pub const RING_SIZE: usize = 636;
/// Where the reserved bytes of a state's store stand.
pub const STATE_RESERVED: usize = 48;
/// The bit of the first that is the guard, and where the streams' states stand.
pub const GUARD: u8 = 1;
pub const LIVES: usize = 14320;
/// Where the 32 tokens of what does not wait stand: the state's last bytes.
pub const TOKENS: usize = 14447;
pub const RESULT_SIZE: usize = 512;
pub const MODEL_SIZE: usize = 16427;
pub const SEND: u64 = 256;
pub const GOING: u64 = 512;
pub const NOTHING: u64 = 513;

/// A lent store: its length, and what stands in it, where anything does.
pub struct Store<T> {
    pub len: usize,
    pub value: Option<T>,
}

impl<T> Store<T> {
    /// What stands there, once every length was tested.
    fn known(self) -> Result<T, u64> {
        self.value.ok_or(INVALID_PARAM as u64)
    }
}

type Answer = Result<u64, u64>;

/// The number, refused or not.
pub fn number(answer: Answer) -> u64 {
    match answer {
        Ok(n) | Err(n) => n,
    }
}

fn lengths(all_good: bool) -> Result<(), u64> {
    if all_good { Ok(()) } else { Err(BAD_LENGTH as u64) }
}

fn put(result: &mut [u8], numbers: &[u64]) {
    for (place, n) in result.chunks_mut(8).zip(numbers) {
        place.copy_from_slice(&n.to_le_bytes());
    }
}

/// What was said, as a number; a value goes into the result.
fn said(say: Say, result: &mut [u8]) -> u64 {
    match say {
        Say::Send(n) => return SEND + n as u64,
        Say::Refused(why) => return why.answer(),
        Say::Going => return GOING,
        Say::Done(Value::Nothing) => {}
        Say::Done(Value::Bits(bits)) => put(result, &[bits]),
        Say::Done(Value::Token(token)) => put(result, &[token as u64]),
        Say::Done(Value::Range(min, max)) => result[..2].copy_from_slice(&[min, max]),
        Say::Done(Value::Streams(ids)) => {
            result[..4].copy_from_slice(&(ids.len() as u32).to_le_bytes());
            for (place, id) in result[4..].chunks_mut(4).zip(ids) {
                place.copy_from_slice(&id.to_le_bytes());
            }
        }
    }
    OK as u64
}

/// One of the configured counts.
pub fn count(state: Store<&Sound>, which: usize, result: &mut [u8]) -> Answer {
    lengths(state.len >= STATE_SIZE && result.len() >= RESULT_SIZE)?;
    let state = state.known()?;
    if !state.consistent() {
        return Err(INVALID_PARAM as u64);
    }
    put(result, &[state.counts[which] as u64]);
    Ok(OK as u64)
}

pub fn call(state: Store<&mut Sound>, ring: Store<&Ring>, call: Call, message: &mut [u8], result: &mut [u8]) -> Answer {
    let lent = message.len() >= MESSAGE && result.len() >= RESULT_SIZE;
    lengths(state.len >= STATE_SIZE && ring.len >= RING_SIZE && lent)?;
    let (state, ring) = (state.known()?, ring.known()?);
    Ok(said(state.call(ring, call, message), result))
}

pub fn feed(state: Store<&mut Sound>, fed: Fed, message: &mut [u8], result: &mut [u8]) -> Answer {
    let lent = message.len() >= MESSAGE && result.len() >= RESULT_SIZE;
    lengths(state.len >= STATE_SIZE && !fed.bad_length() && lent)?;
    Ok(said(state.known()?.feed(fed, message), result))
}

/// Strict mode is to feed by this entry. The length is 64 bits wide, so nothing is cut off on the way.
pub fn feed_written(
    state: Store<&mut Sound>,
    page: &[u8],
    written: u64,
    message: &mut [u8],
    result: &mut [u8],
) -> Answer {
    feed(state, Fed::Written(page, written), message, result)
}

pub fn xfer_start(
    state: Store<&mut Sound>,
    ring: Store<&mut Ring>,
    stream: u32,
    frames_len: usize,
    budget: u64,
    message: &mut [u8],
) -> Answer {
    let stores = state.len >= STATE_SIZE && ring.len >= RING_SIZE;
    lengths(stores && message.len() >= MESSAGE)?;
    let (state, ring) = (state.known()?, ring.known()?);
    let say = state.xfer_start(ring, stream, frames_len as u64, budget, message);
    Ok(said(say, &mut []))
}

/// The room's length is not among the first: it is "last before the first turn".
pub fn xfer_start_traced(
    state: Store<&mut Sound>,
    ring: Store<&mut Ring>,
    stream: u32,
    frames_len: usize,
    budget: u64,
    room_len: usize,
    message: &mut [u8],
) -> Answer {
    let stores = state.len >= STATE_SIZE && ring.len >= RING_SIZE;
    lengths(stores && message.len() >= MESSAGE)?;
    let (state, ring) = (state.known()?, ring.known()?);
    let say = state.xfer_start_traced(ring, stream, frames_len as u64, budget, room_len as u64, message);
    Ok(said(say, &mut []))
}

/// The recording's length is not among the first: it is "the last check before the first turn".
pub fn capture_start(
    state: Store<&mut Sound>,
    ring: Store<&mut Ring>,
    stream: u32,
    periods: u64,
    recording_len: usize,
    budget: u64,
    message: &mut [u8],
) -> Answer {
    let stores = state.len >= STATE_SIZE && ring.len >= RING_SIZE;
    lengths(stores && message.len() >= MESSAGE)?;
    let (state, ring) = (state.known()?, ring.known()?);
    let say = state.capture_start(ring, stream, periods, recording_len as u64, budget, message);
    Ok(said(say, &mut []))
}

/// Neither the payload's length nor that of the places is among the first: the call has its own order for them.
pub fn pcm_xfer_nb(
    state: Store<&mut Sound>,
    ring: Store<&Ring>,
    stream: u32,
    payload: &[u8],
    places: &mut [u8],
    message: &mut [u8],
    result: &mut [u8],
) -> Answer {
    let lent = message.len() >= MESSAGE && result.len() >= RESULT_SIZE;
    lengths(state.len >= STATE_SIZE && ring.len >= RING_SIZE && lent)?;
    let (state, ring) = (state.known()?, ring.known()?);
    Ok(said(state.pcm_xfer_nb(ring, stream, payload, places, message), result))
}

/// The reading's slot is the token.
pub fn pcm_xfer_mark(state: Store<&mut Sound>, reading: Reading) -> Answer {
    lengths(state.len >= STATE_SIZE)?;
    Ok(state.known()?.pcm_xfer_mark(reading) as u64)
}

pub fn pcm_xfer_ok(state: Store<&mut Sound>, token: u32) -> Answer {
    lengths(state.len >= STATE_SIZE)?;
    Ok(state.known()?.pcm_xfer_ok(token).answer())
}

pub fn pending_count(state: Store<&Sound>, result: &mut [u8]) -> Answer {
    lengths(state.len >= STATE_SIZE && result.len() >= RESULT_SIZE)?;
    put(result, &[state.known()?.pending_count().map_err(u64::from)?]);
    Ok(OK as u64)
}

pub fn pending_token(state: Store<&Sound>, token: usize, result: &mut [u8]) -> Answer {
    lengths(state.len >= STATE_SIZE && result.len() >= RESULT_SIZE)?;
    let (held, status) = state.known()?.pending_token(token).map_err(u64::from)?;
    put(result, &[held, status]);
    Ok(OK as u64)
}

pub fn offered(ring: Store<&Ring>, frames_len: usize, result: &mut [u8]) -> Answer {
    lengths(ring.len >= RING_SIZE && result.len() >= RESULT_SIZE)?;
    match ring.known()?.offered(frames_len as u64) {
        Err(number) => Err(number as u64),
        Ok(None) => {
            put(result, &[0, 0, 0, 0]);
            Ok(OK as u64)
        }
        Ok(Some(offer)) => {
            put(result, &[1, offer.slot, offer.offset, offer.length]);
            Ok(OK as u64)
        }
    }
}

pub fn turn(ring: Store<&mut Ring>, frames_len: usize, reading: Reading) -> Answer {
    turn_traced(ring, frames_len, &mut [], reading)
}

pub fn turn_traced(ring: Store<&mut Ring>, frames_len: usize, room: &mut [u8], reading: Reading) -> Answer {
    lengths(ring.len >= RING_SIZE)?;
    match ring.known()?.turn_traced(frames_len as u64, room, reading) {
        Turn::Going => Ok(GOING),
        Turn::Ended(said) => Ok(said.answer()),
    }
}

/// Result: there 8, slot 8, length 8.
pub fn capture_offered(ring: Store<&Ring>, recording_len: usize, result: &mut [u8]) -> Answer {
    lengths(ring.len >= RING_SIZE && result.len() >= RESULT_SIZE)?;
    let offer = ring.known()?.capture_offered(recording_len as u64).map_err(u64::from)?;
    put(result, &offer.map_or([0; 3], |offer| [1, offer.slot, offer.length]));
    Ok(OK as u64)
}

pub fn capture_turn(ring: Store<&mut Ring>, recording: &mut [u8], heard: Heard) -> Answer {
    lengths(ring.len >= RING_SIZE)?;
    match ring.known()?.capture_turn(recording, heard) {
        Turn::Going => Ok(GOING),
        Turn::Ended(said) => Ok(said.answer()),
    }
}

pub fn drain_turn(ring: Store<&mut Ring>, reading: Reading) -> Answer {
    lengths(ring.len >= RING_SIZE)?;
    Ok(ring.known()?.drain_turn(reading) as u64)
}

/// The reads of the ring.
#[derive(Copy, Clone, Debug, PartialEq, Eq)]
pub enum Asked {
    Running,
    InFlight,
    FreeDescriptors,
    TurnsRun,
    Stream,
    Carried(usize),
    Oldest,
    Kept,
    Accepted,
    TraceLength,
}

pub fn ring_read(ring: Store<&Ring>, asked: Asked, result: &mut [u8]) -> Answer {
    lengths(ring.len >= RING_SIZE && result.len() >= RESULT_SIZE)?;
    let ring = ring.known()?;
    if !ring.consistent() {
        return Err(INVALID_PARAM as u64);
    }
    match asked {
        Asked::Running => put(result, &[ring.running as u64]),
        Asked::InFlight => put(result, &[ring.in_flight]),
        Asked::FreeDescriptors => put(result, &[ring.free()]),
        Asked::TurnsRun => put(result, &[ring.turns]),
        Asked::Stream => put(result, &[ring.stream as u64]),
        Asked::Kept => put(result, &[ring.kept]),
        Asked::Accepted => put(result, &[ring.good]),
        Asked::TraceLength => put(result, &[ring.traced]),
        Asked::Oldest => put(result, &[ring.oldest().is_some() as u64, ring.oldest().unwrap_or(0)]),
        Asked::Carried(slot) => match ring.slots.get(slot) {
            None => return Err(INVALID_PARAM as u64),
            Some((offset, length)) => put(result, &[*offset, *length]),
        },
    }
    Ok(OK as u64)
}

pub fn notification(event: &[u8], result: &mut [u8]) -> Answer {
    lengths(result.len() >= RESULT_SIZE)?;
    match latest_notification(event) {
        Event::Nothing => Ok(NOTHING),
        Event::Refused(why) => Err(why.answer()),
        Event::Is { code, data } => {
            result[..8].copy_from_slice(&wire::words(&[code, data]));
            Ok(OK as u64)
        }
    }
}

/// The lent slice of a file is of any length; that of the result comes first. Result: offset 8, length 8, channels 1, format 1, rate 1.
pub fn wav_read(file: &[u8], result: &mut [u8]) -> Answer {
    lengths(result.len() >= RESULT_SIZE)?;
    let wave = wave::read(file).map_err(|fault| fault.number() as u64)?;
    put(result, &[wave.offset as u64, wave.length as u64]);
    result[16..19].copy_from_slice(&[wave.channels, wave.format, wave.rate]);
    Ok(OK as u64)
}

pub fn wav_write(channels: u8, format: u8, rate: u8, frames: &[u8], file: &mut [u8]) -> Answer {
    wave::write(channels, format, rate, frames, file).map_err(|why| why.number() as u64)?;
    Ok(OK as u64)
}

/// What is said of a trace, and its offset: 0 where there is nothing against it.
fn told(judged: Result<(), Fault>) -> (u64, u64) {
    judged.map_or_else(|fault| (fault.number.into(), fault.at as u64), |()| (OK.into(), 0))
}

/// A trace is of any length; its offset is an answer of its own.
pub fn trace_scan(trace: &[u8]) -> (u64, u64) {
    told(trace::scan(trace).map(|_| ()))
}

pub fn judge(mode: u32, trace: &[u8]) -> (u64, u64) {
    told(trace::judge_in(mode, trace))
}

/// How many differences there are; 0 where one of the two is no trace, which `trace_scan` tells.
pub fn differences(first: &[u8], second: &[u8]) -> u64 {
    differences::differences(first, second).map_or(0, |list| list.len() as u64)
}

pub fn compare(first: &[u8], second: &[u8], list: &mut [u8]) -> Answer {
    differences::compare(first, second, list).map_err(|refused| refused.number() as u64)?;
    Ok(OK as u64)
}

pub fn model_control(model: Store<&mut Model>, request: &[u8], page: &mut [u8], result: &mut [u8]) -> Answer {
    let lent = page.len() == PAGE && result.len() >= RESULT_SIZE;
    lengths(model.len >= MODEL_SIZE && lent)?;
    let length = model.known()?.control(request, page).map_err(u64::from)?;
    put(result, &[length as u64]);
    Ok(OK as u64)
}

pub fn model_transfer(model: Store<&mut Model>, request: &[u8], answer: &mut [u8]) -> Answer {
    lengths(model.len >= MODEL_SIZE && answer.len() >= 8)?;
    model.known()?.transfer(request, answer).map_err(u64::from)?;
    Ok(OK as u64)
}

/// A request that is no good transfer shows an empty payload.
pub fn model_payload(model: Store<&Model>, request: &[u8], result: &mut [u8]) -> Answer {
    lengths(model.len >= MODEL_SIZE && result.len() >= RESULT_SIZE)?;
    let (offset, length) = model.known()?.payload(request).unwrap_or((0, 0));
    put(result, &[offset, length]);
    Ok(OK as u64)
}

pub fn model_params(model: Store<&Model>, stream: u32, result: &mut [u8]) -> Answer {
    lengths(model.len >= MODEL_SIZE && result.len() >= RESULT_SIZE)?;
    match model.known()?.params.get(stream as usize) {
        None => return Err(INVALID_PARAM as u64),
        Some(None) => put(result, &[0]),
        Some(Some(all)) => {
            put(result, &[1]);
            result[8..32].copy_from_slice(all);
        }
    }
    Ok(OK as u64)
}

pub fn model_played(model: Store<&Model>, stream: u32, result: &mut [u8]) -> Answer {
    lengths(model.len >= MODEL_SIZE && result.len() >= RESULT_SIZE)?;
    match model.known()?.played.get(stream as usize) {
        None => return Err(INVALID_PARAM as u64),
        Some(count) => put(result, &[*count]),
    }
    Ok(OK as u64)
}
