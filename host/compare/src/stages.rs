//! Every entry at every stage of a driver's life, without the guard and with it, with each lent slice in turn empty, one short, right and one
//! long, with each reserved byte of the state in turn not 0, and with the guard and a stream's state in turn damaged: the port against the rules.
use crate::captures::direction_at;
use crate::case::{Body, Kind};
use crate::entries::Lent;
use crate::raw::{Damage, Op, Pair, What};
use rules::entries::{Asked, RESULT_SIZE};
use rules::pending::{PLACES, PLACES_INDIRECT};
use rules::sound::{Call, Params};
use rules::{MESSAGE, PAGE, RESERVED, wire};

pub fn whole(what: What) -> Op {
    Op { lent: Lent::WHOLE, message: MESSAGE, result: RESULT_SIZE, what }
}

fn ok(kind: Kind) -> What {
    What::Feed { status: wire::STATUS_OK, body: Body::of(kind, 5), len: PAGE }
}

fn set(stream: u32, buffer: u32, format: u8) -> What {
    let params = Params { buffer, period: 4, features: 1, channels: 2, format, rate: 7 };
    What::Call(Call::SetParams { stream, params })
}

fn turn(frames: u32, kind: u32, slot: u32, status: u32) -> What {
    What::Turn { frames, kind, slot, status }
}

/// From a new driver to slots owed and drained, one entry at a time: each is a stage.
pub fn life() -> Vec<What> {
    let tables = [2, 2, 1].iter().zip(wire::SIZES).map(|(rows, size)| rows * size).collect::<Vec<_>>();
    vec![
        What::New([2, 2, 1]),
        What::ModelNew(tables.try_into().unwrap()),
        What::Call(Call::OutputStreams),
        ok(Kind::Jacks),
        ok(Kind::Streams),
        ok(Kind::Maps),
        set(0, 8, 5),
        ok(Kind::Noise),
        What::Start { stream: 0, frames: 10, budget: 5 },
        turn(10, 0, 0, 0),
        turn(10, 1, 0, wire::STATUS_OK),
        turn(10, 1, 7, wire::STATUS_OK),
        What::Drain { kind: 1, slot: 1, status: 0 },
        What::Drain { kind: 1, slot: 2, status: 0 },
        What::Start { stream: 1, frames: 10, budget: 5 },
        What::Start { stream: 0, frames: 0, budget: 1 },
    ]
}

/// The same under the guard, with a stream's whole lifecycle in it.
pub fn guarded_life() -> Vec<What> {
    let command = |code| [What::Call(Call::Command { code, stream: 0 }), ok(Kind::Noise)];
    let mut all = vec![What::NewGuarded([2, 2, 1])];
    all.extend_from_slice(&life()[1..8]);
    all.extend(command(wire::PREPARE));
    all.extend(command(wire::START));
    all.extend_from_slice(&life()[8..]);
    all.extend([turn(0, 0, 0, 0)].into_iter().chain(command(wire::STOP)).chain(command(wire::RELEASE)));
    all
}

/// A capture's turn of a period of 4: what was written is lent.
fn capture_turn(recording: u32, slot: u32, written: u32, status: u32) -> What {
    What::CaptureTurn { recording, kind: 1, slot, written, status, lent: written.min(12) }
}

/// Set up with an input that has parameters, then captures to each of their ends, owed slots drained between, and a playback at last.
pub fn capture_life() -> Vec<What> {
    let start = |recording, budget| What::CaptureStart { stream: 0, periods: 3, recording, budget };
    let quiet = What::CaptureTurn { recording: 14, kind: 0, slot: 0, written: 0, status: 0, lent: 0 };
    let damage = vec![(direction_at(0), wire::INPUT), (direction_at(1), wire::OUTPUT)];
    let inputs = What::Feed { status: wire::STATUS_OK, body: Body { kind: Kind::Streams, seed: 5, damage }, len: PAGE };
    let mut all = life()[..8].to_vec();
    all[4] = inputs;
    all.extend([start(14, 5), quiet.clone(), capture_turn(14, 0, 10, wire::STATUS_OK)]);
    all.extend([capture_turn(14, 1, 12, 0x8003), What::Drain { kind: 1, slot: 2, status: 0 }]);
    all.extend([start(12, 9), capture_turn(12, 0, 12, wire::STATUS_OK), capture_turn(12, 1, 7, wire::STATUS_OK)]);
    all.extend([start(14, 2), quiet.clone(), quiet]);
    all.extend([0, 1].map(|slot| What::Drain { kind: 1, slot, status: 0 }));
    all.push(What::Start { stream: 0, frames: 10, budget: 5 });
    all
}

fn traced(room: u32, kind: u32, slot: u32, status: u32) -> What {
    What::TurnTraced { frames: 10, room, kind, slot, status }
}

/// Set up, then transfers that write a trace: to Ok, to 2 with a slot owed, and one that a host left in the midst.
pub fn traced_life() -> Vec<What> {
    let start = |room| What::StartTraced { stream: 0, frames: 10, budget: 9, room };
    let mut all = life()[..8].to_vec();
    all.extend([start(80), traced(80, 0, 0, 0)]);
    all.extend((0..3).map(|slot| traced(80, 1, slot, wire::STATUS_OK)));
    all.extend([traced(80, 0, 0, 0), start(79), traced(79, 0, 0, 0), traced(79, 1, 0, 0x8003)]);
    all.extend([What::Drain { kind: 1, slot: 1, status: 0 }, start(81), traced(81, 1, 0, wire::STATUS_OK)]);
    all
}

/// Traced starts and turns of rooms around 79 and 80 bytes.
fn traces() -> Vec<What> {
    let mut all = vec![What::Read(Asked::TraceLength)];
    for (stream, frames, budget, room) in
        [(0, 10, 5, 79), (0, 10, 5, 78), (0, 10, 0, 0), (0, 0, 5, 19), (0, 0, 5, 18), (1, 10, 5, 0), (2, 10, 5, 99)]
    {
        all.push(What::StartTraced { stream, frames, budget, room });
    }
    for room in [0, 78, 79, 80, 81] {
        all.push(traced(room, 0, 0, 0));
        all.extend((0..3).map(|slot| traced(room, 1, slot, wire::STATUS_OK)));
        all.push(What::TurnTraced { frames: 9, room, kind: 1, slot: 0, status: 0x8003 });
    }
    all
}

/// Captures of each length around a period of 4 and a recording of 14.
fn captures() -> Vec<What> {
    let mut all = vec![What::Read(Asked::Kept)];
    for (stream, periods, recording, budget) in
        [(0, 3, 12, 5), (0, 3, 11, 5), (0, 3, 11, 0), (0, 1 << 62, 20, 5), (1, 3, 12, 5), (2, 3, 12, 5), (0, 0, 0, 1)]
    {
        all.push(What::CaptureStart { stream, periods, recording, budget });
    }
    for recording in [10, 12, 13, 14] {
        all.push(What::CaptureOffered { recording });
        all.push(What::CaptureTurn { recording, kind: 0, slot: 9, written: 9, status: 0, lent: 0 });
        all.extend((0..3).map(|slot| capture_turn(recording, slot, 9, wire::STATUS_OK)));
    }
    for written in [0, 7, 8, 12, 13, u32::MAX] {
        for lent in [0, 7, 8, 11, 12, 13] {
            let (recording, status) = (14, if lent == 13 { 0x8003 } else { wire::STATUS_OK });
            all.push(What::CaptureTurn { recording, kind: 2, slot: 0, written, status, lent });
        }
    }
    all
}

fn submit(stream: u32, payload: u32, places: usize) -> What {
    What::Submit { stream, payload, places }
}

fn mark(token: u32, status: u32) -> What {
    What::Mark { kind: 1, token, status }
}

/// Set up, then submissions that do not wait up to Full, marks and finishes between, and a transfer that waits for the last of them.
pub fn pending_life() -> Vec<What> {
    let room = PLACES * 8;
    let mut all = life()[..8].to_vec();
    all.extend([submit(0, 4, room), submit(0, 4, room + 3), mark(1, 0x8003), What::Finish(1), submit(0, 4, room)]);
    all.extend((2..PLACES).map(|_| submit(0, 4, room)));
    all.extend((0..PLACES as u32).map(|token| mark(token, wire::STATUS_OK)));
    all.extend((0..PLACES as u32).rev().map(What::Finish));
    all.push(What::Start { stream: 0, frames: 10, budget: 5 });
    all
}

/// Set up with a ring for indirect descriptors, then 33 periods of which none comes back until 32 are out; the rest, and one that fails.
pub fn indirect_life() -> Vec<What> {
    let start = What::Start { stream: 0, frames: 4 * 33, budget: 90 };
    let mut all = life()[..8].to_vec();
    all.extend([What::RingNewIndirect, start.clone()]);
    all.extend(vec![turn(4 * 33, 0, 0, 0); 34]);
    all.extend((0..34).map(|slot| turn(4 * 33, 1, slot % 32, wire::STATUS_OK)));
    all.push(start);
    all.extend(vec![turn(4 * 33, 0, 0, 0); 32]);
    all.push(turn(4 * 33, 1, 0, 0x8003));
    all.extend((1..32).map(|slot| What::Drain { kind: 1, slot, status: 0 }));
    all.push(What::Start { stream: 0, frames: 10, budget: 5 });
    all
}

/// The same, then submissions that do not wait up to Full at 32, marked and finished.
pub fn indirect_pending_life() -> Vec<What> {
    let (count, room) = (PLACES_INDIRECT, PLACES_INDIRECT * 8);
    let mut all = life()[..8].to_vec();
    all.push(What::RingNewIndirect);
    all.extend(vec![submit(0, 4, room); count + 1]);
    all.extend((0..count as u32).map(|token| mark(token, wire::STATUS_OK)));
    all.extend((0..count as u32).rev().map(What::Finish));
    all.push(What::Start { stream: 0, frames: 10, budget: 5 });
    all
}

fn pendings() -> Vec<What> {
    let room = PLACES * 8;
    let mut all = vec![What::PendingCount, What::Mark { kind: 0, token: 0, status: 0x8003 }];
    for (payload, places) in [(4, room), (4, room + 17), (3, room), (5, room), (0, 0), (4, room - 1), (4, 15), (4, 0)] {
        all.push(submit(0, payload, places));
    }
    all.extend([submit(1, 4, room), submit(2, 4, room)]);
    for more in [0, 1, 31] {
        all.extend([submit(0, 4, 2 * room + more), submit(0, 4, 2 * room - 1 - more)]);
    }
    for token in [0, 1, 15, 16, 31, 32, 99, u32::MAX] {
        all.extend([mark(token, wire::STATUS_OK), mark(token, 0x8003), What::Finish(token), What::PendingToken(token)]);
    }
    all
}

fn calls() -> Vec<What> {
    let mut all = vec![Call::OutputStreams, Call::InputStreams];
    for stream in [0, 1, 2] {
        all.extend([Call::Rates(stream), Call::Formats(stream), Call::ChannelRange(stream), Call::Features(stream)]);
        all.push(Call::Remap { jack: stream, association: 1, sequence: 2 });
    }
    all.extend((wire::PREPARE..=wire::STOP).flat_map(|code| [0, 1, 2, 3].map(|stream| Call::Command { code, stream })));
    let mut all: Vec<What> = all.into_iter().map(What::Call).collect();
    all.extend([set(0, 8, 5), set(2, 8, 5), set(0, 9, 5), set(0, 8, 25)]);
    all
}

fn rings() -> Vec<What> {
    let mut all = vec![What::RingNew, What::RingNewIndirect];
    for frames in [9, 10, 11, 4 * 33] {
        all.extend([What::Offered { frames }, turn(frames, 0, 0, 0)]);
        all.extend((0..4).map(|slot| turn(frames, 1, slot, wire::STATUS_OK)));
    }
    for slot in [0, 1, 2, 31, 32] {
        all.push(turn(10, 2, slot, 0x8003));
        all.push(What::Drain { kind: 1, slot, status: 0x8003 });
        all.push(What::Read(Asked::Carried(slot as usize)));
    }
    all.push(What::Drain { kind: 0, slot: 1, status: 0 });
    for asked in
        [Asked::Running, Asked::InFlight, Asked::FreeDescriptors, Asked::TurnsRun, Asked::Stream, Asked::Oldest]
    {
        all.push(What::Read(asked));
    }
    all.push(What::Read(Asked::Accepted));
    for (stream, budget) in [(0, 0), (0, 1), (0, 1 << 32), (0, u64::MAX), (1, 5), (2, 5)] {
        all.push(What::Start { stream, frames: 10, budget });
    }
    all
}

fn others() -> Vec<What> {
    let mut all = vec![What::New([1, 1, 1]), What::NewGuarded([1, 1, 1]), What::FeedFailure];
    all.extend([0, 1, 2].map(What::Count));
    for len in [0, 4, PAGE - 1, PAGE, PAGE + 1] {
        for status in [wire::STATUS_OK, wire::STATUS_BAD] {
            all.push(What::Feed { status, body: Body::of(Kind::Streams, 9), len });
        }
        let request = wire::query(1, 2);
        all.push(What::ModelControl { request, page: len });
    }
    // streams 2 and maps 1 need 68 and 28 bytes, jacks 52
    for written in [0, 3, 4, 27, 28, 51, 52, 67, 68, 4096, 4097, (1 << 32) + 4, u64::MAX] {
        all.push(What::FeedWritten { status: wire::STATUS_OK, body: Body::of(Kind::Streams, 9), len: PAGE, written });
    }
    for (written, len) in [(3, PAGE), (4, PAGE), (4, PAGE - 1), (4097, PAGE + 1)] {
        all.push(What::FeedWritten { status: wire::STATUS_BAD, body: Body::ZERO, len, written });
    }
    all.extend([0, 7, 8, 9].map(|n| What::Event(wire::words(&[0x1101, 5, 6])[..n].to_vec())));
    for (version, features) in [(0x0102, 1), (0x0103, 1), (0x0104, 1)] {
        all.extend([7, 8].map(|n| What::EventIn(wire::words(&[0x1200, 5])[..n].to_vec(), version, features)));
        all.extend([12, 16].map(|n| What::Config(wire::words(&[1, 2, 3, 4])[..n].to_vec(), version, features)));
    }
    for answer in [0, 7, 8, 9] {
        all.push(What::ModelTransfer { request: wire::words(&[1, 2]), answer });
        all.push(What::ModelTransfer { request: wire::words(&[2, 2]), answer });
    }
    for length in 0..=9 {
        all.push(What::ModelPayload(wire::words(&[1, 2, 3])[..length].to_vec()));
    }
    for stream in 0..=2 {
        all.extend([What::ModelParams(stream), What::ModelPlayed(stream)]);
    }
    all.extend([What::ModelNew([24, 32, 24]), What::ModelNew([23, 32, 24]), What::ModelNew([24, 33, 24])]);
    all.extend([What::ModelNew([171 * 24, 0, 0]), What::ModelNew([0, 128 * 32, 0]), What::ModelNew([0, 0, 171 * 24])]);
    all
}

/// The same entry, each store and slice in turn of another length.
fn lengths(what: &What) -> Vec<Op> {
    let mut all = vec![whole(what.clone())];
    for change in [|right: usize| right - 1, |right: usize| right + 1, |_: usize| 0] {
        let right = whole(what.clone());
        let lent = right.lent;
        all.push(Op { lent: Lent { state: change(lent.state), ..lent }, ..right.clone() });
        all.push(Op { lent: Lent { ring: change(lent.ring), ..lent }, ..right.clone() });
        all.push(Op { lent: Lent { model: change(lent.model), ..lent }, ..right.clone() });
        all.push(Op { message: change(right.message), ..right.clone() });
        all.push(Op { result: change(right.result), ..right.clone() });
    }
    all
}

/// Each reserved byte of the state with one bit of it set, beside the guard with each; the guard, and states of the first stream.
fn damages() -> Vec<Damage> {
    let bit = |at: usize| 1 << (at % 8);
    let mut all: Vec<Damage> = (1..RESERVED).map(|at| Damage::State(at, bit(at))).collect();
    all.extend((1..8).map(|at| Damage::State(0, bit(at))));
    all.extend([0, 1, 2, 3, 4, 5, 255].map(|life| Damage::Life(0, life)));
    all.push(Damage::Guard);
    all.extend([0, 1, 2, 3, 4, 255].map(Damage::Per));
    for (at, state) in [(0, 0), (0, 1), (0, 2), (0, u32::MAX), (15, 1), (16, 3), (31, 1), (31, 256)] {
        all.push(Damage::Token(at, state, 0x8003));
    }
    all
}

/// How many entries agreed, or the first that did not.
pub fn all() -> Result<u64, String> {
    let all = |_: usize| true;
    let lives = along(life(), "life", all)? + along(guarded_life(), "guarded_life", all)?;
    let captures = along(capture_life(), "capture_life", |at| at >= CAPTURES_FROM)?;
    let lives = lives + along(traced_life(), "traced_life", |at| at >= CAPTURES_FROM)?;
    let lives = lives + along(indirect_life(), "indirect_life", |at| INDIRECT_STAGES.contains(&at))?;
    let lives = lives + along(indirect_pending_life(), "indirect_pending_life", |at| PLACES_STAGES.contains(&at))?;
    Ok(lives + captures + along(pending_life(), "pending_life", |at| PENDING_STAGES.contains(&at))?)
}

/// Of the third, where one token is out, where one is marked, where all are out, where all are marked, and where a transfer runs again.
const PENDING_STAGES: [usize; 5] = [8, 10, 26, 42, 59];

/// With indirect descriptors, where the ring is new, where a transfer runs, where 10, 11, 32 and 32 are out for good, where one came back, where
/// it is done, where one failed, and where all are drained.
const INDIRECT_STAGES: [usize; 10] = [8, 9, 19, 20, 41, 43, 44, 77, 111, 142];
/// And where one token is out, 16, 17, all of them, all marked, and where a transfer runs again.
const PLACES_STAGES: [usize; 6] = [9, 24, 25, 41, 73, 106];

/// Of those of captures and of traces, from the first of them on.
const CAPTURES_FROM: usize = 8;

/// Tries every entry at those stages of a life that are looked at.
fn along(life: Vec<What>, name: &str, looked: impl Fn(usize) -> bool) -> Result<u64, String> {
    let whats = [calls(), rings(), traces(), captures(), pendings(), others()].concat();
    let mut count = 0;
    let mut pair = Pair::new();
    for (at, step) in life.into_iter().enumerate() {
        pair.step(&whole(step))?;
        if !looked(at) {
            continue;
        }
        let after = |text| format!("after {} entries of {name} in src/stages.rs: {text}", at + 1);
        for op in whats.iter().flat_map(lengths) {
            pair.clone().step(&op).map_err(after)?;
            count += 1;
        }
        for damage in damages() {
            for what in &whats {
                let mut tried = pair.clone();
                tried.damage(damage);
                let tried = tried.step(&whole(what.clone()));
                tried.map_err(|text| after(format!("with {damage:?}: {text}")))?;
                count += 1;
            }
        }
    }
    Ok(count)
}
