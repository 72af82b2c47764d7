//! Single entries in any order, with lent slices of any length: the port against the rules, every number and every lent byte. A refusal
//! leaves the port's stores as they were, byte for byte; the guard, each stream's state and the tokens of what does not wait are looked up
//! in them. Then the same with damaged stores, where only what holds of any bytes is asked, but of a damaged guard, stream's state or
//! token, which both readings know.
use crate::case::{Body, Frames, Kind, Rng, lent_bytes};
use crate::entries::{Entries, Lent};
use crate::plain::Plain;
use crate::port::{LEAD, PAST, Port};
use crate::random::STATUSES;
use crate::stages;
use rules::entries::{Asked, GUARD, LIVES, RESULT_SIZE, STATE_RESERVED, TOKENS};
use rules::pending::{PLACES, TOKEN_SIZE, Token, WAITS, places_of};
use rules::ring::{Mode, Way};
use rules::sound::{Call, Params};
use rules::trace::room_for;
use rules::{FIT, MESSAGE, PAGE, wire};

const FILL: u8 = 0x3c;

#[derive(Clone, Debug)]
pub struct Op {
    pub lent: Lent,
    pub message: usize,
    pub result: usize,
    pub what: What,
}

#[derive(Clone, Debug)]
pub enum What {
    New([u32; 3]),
    NewGuarded([u32; 3]),
    /// no entry: bytes of the stores become others
    Damage(Damage),
    RingNew,
    RingNewIndirect,
    Count(usize),
    Call(Call),
    Feed {
        status: u32,
        body: Body,
        len: usize,
    },
    FeedWritten {
        status: u32,
        body: Body,
        len: usize,
        written: u64,
    },
    FeedFailure,
    Start {
        stream: u32,
        frames: u32,
        budget: u64,
    },
    Offered {
        frames: u32,
    },
    Turn {
        frames: u32,
        kind: u32,
        slot: u32,
        status: u32,
    },
    StartTraced {
        stream: u32,
        frames: u32,
        budget: u64,
        room: u32,
    },
    TurnTraced {
        frames: u32,
        room: u32,
        kind: u32,
        slot: u32,
        status: u32,
    },
    CaptureStart {
        stream: u32,
        periods: u64,
        recording: u32,
        budget: u64,
    },
    CaptureOffered {
        recording: u32,
    },
    /// so many bytes are lent, with a status 8 before the end of what was written
    CaptureTurn {
        recording: u32,
        kind: u32,
        slot: u32,
        written: u32,
        status: u32,
        lent: u32,
    },
    Drain {
        kind: u32,
        slot: u32,
        status: u32,
    },
    Read(Asked),
    Submit {
        stream: u32,
        payload: u32,
        places: usize,
    },
    Mark {
        kind: u32,
        token: u32,
        status: u32,
    },
    Finish(u32),
    PendingCount,
    PendingToken(u32),
    Event(Vec<u8>),
    /// the version and the features that are named
    EventIn(Vec<u8>, u32, u64),
    Config(Vec<u8>, u32, u64),
    ModelNew([usize; 3]),
    ModelControl {
        request: Vec<u8>,
        page: usize,
    },
    ModelTransfer {
        request: Vec<u8>,
        answer: usize,
    },
    ModelPayload(Vec<u8>),
    ModelParams(u32),
    ModelPlayed(u32),
}

/// What an entry answered and what it left in the slices that it may write.
#[derive(Clone, Debug, PartialEq, Eq)]
struct Left {
    number: u64,
    message: Vec<u8>,
    result: Vec<u8>,
    /// a page, a transfer's answer, a recording, the room of a trace, or the places of what does not wait
    other: Vec<u8>,
}

fn frames(len: u32) -> Vec<u8> {
    Frames { len, seed: 0 }.bytes()
}

fn page(status: u32, body: &Body, len: usize) -> Vec<u8> {
    let mut page = [&status.to_le_bytes()[..], &body.bytes()].concat();
    page.resize(len, 0);
    page
}

fn enter<E: Entries>(e: &mut E, op: &Op) -> Left {
    let mut message = vec![FILL; op.message];
    let mut result = vec![FILL; op.result];
    let mut other = vec![];
    e.lend(op.lent);
    let (m, o) = (&mut message[..], &mut result[..]);
    let number = match &op.what {
        What::New(counts) => e.make(*counts, false),
        What::NewGuarded(counts) => e.make(*counts, true),
        What::Damage(_) => 0,
        What::RingNew => e.ring_new(false),
        What::RingNewIndirect => e.ring_new(true),
        What::Count(which) => e.count(*which, o),
        What::Call(call) => e.call(*call, m, o),
        What::Feed { status, body, len } => e.feed(&page(*status, body, *len), m, o),
        What::FeedWritten { status, body, len, written } => e.feed_written(&page(*status, body, *len), *written, m, o),
        What::FeedFailure => e.feed_failure(m, o),
        What::Start { stream, frames: len, budget } => e.xfer_start(*stream, &frames(*len), *budget, m),
        What::Offered { frames: len } => e.offered(&frames(*len), o),
        What::Turn { frames: len, kind, slot, status } => e.turn(&frames(*len), *kind, *slot, *status),
        What::StartTraced { stream, frames: len, budget, room } => {
            e.xfer_start_traced(*stream, &frames(*len), *budget, &frames(*room), m)
        }
        What::TurnTraced { frames: len, room, kind, slot, status } => {
            other = vec![FILL; *room as usize];
            e.turn_traced(&frames(*len), &mut other, *kind, *slot, *status)
        }
        What::CaptureStart { stream, periods, recording, budget } => {
            e.capture_start(*stream, *periods, &frames(*recording), *budget, m)
        }
        What::CaptureOffered { recording } => e.capture_offered(&frames(*recording), o),
        What::CaptureTurn { recording, kind, slot, written, status, lent } => {
            other = vec![FILL; *recording as usize];
            let bytes = lent_bytes(*lent, *written, *status, *slot as u8);
            e.capture_turn(&mut other, *kind, *slot, *written, &bytes)
        }
        What::Drain { kind, slot, status } => e.drain_turn(*kind, *slot, *status),
        What::Read(asked) => e.ring_read(*asked, o),
        What::Submit { stream, payload, places } => {
            other = vec![FILL; *places];
            e.xfer_nb(*stream, &frames(*payload), &mut other, m, o)
        }
        What::Mark { kind, token, status } => e.xfer_mark(*kind, *token, *status),
        What::Finish(token) => e.xfer_ok(*token),
        What::PendingCount => e.pending_count(o),
        What::PendingToken(token) => e.pending_token(*token, o),
        What::Event(event) => e.notification(event, o),
        What::EventIn(event, version, features) => e.notification_in(event, *version, *features, o),
        What::Config(config, version, features) => e.config(config, *version, *features, o),
        What::ModelNew(lens) => {
            let tables = lens.map(|len| Body::of(Kind::Streams, len as u64).bytes().repeat(2)[..len].to_vec());
            e.model_new([&tables[0], &tables[1], &tables[2]])
        }
        What::ModelControl { request, page } => {
            other = vec![FILL; *page];
            e.model_control(request, &mut other, o)
        }
        What::ModelTransfer { request, answer } => {
            other = vec![FILL; *answer];
            e.model_transfer(request, &mut other)
        }
        What::ModelPayload(request) => e.model_payload(request, o),
        What::ModelParams(stream) => e.model_params(*stream, o),
        What::ModelPlayed(stream) => e.model_played(*stream, o),
    };
    Left { number, message, result, other }
}

/// An answer by which the entry must have left its stores as they were, given whether an exchange was open.
fn keeps(what: &What, left: &Left, open: bool) -> bool {
    let number = left.number as u32;
    match what {
        What::New(_) | What::NewGuarded(_) | What::ModelNew(_) => number != 0,
        What::RingNew | What::RingNewIndirect => number != 0,
        What::Call(_) => number < 256 && number != 0,
        What::Feed { .. } | What::FeedWritten { .. } | What::FeedFailure => number == 10 || (number == 1 && !open),
        What::Start { .. } | What::StartTraced { .. } | What::CaptureStart { .. } => number < 256,
        What::Turn { .. } | What::TurnTraced { .. } | What::CaptureTurn { .. } => number == 1 || number == 10,
        What::Drain { kind, .. } | What::Mark { kind, .. } => number != 0 || *kind == 0,
        What::Submit { .. } => number < 256 && number != 0,
        // 2 frees the place too
        What::Finish(_) => number != 0 && number != 2,
        What::ModelControl { .. } | What::ModelTransfer { .. } => {
            number != 0 || left.other[..4] == wire::STATUS_BAD.to_le_bytes()
        }
        _ => true,
    }
}

/// Which stores an entry may write at all: state, ring, model.
fn writes(what: &What) -> [bool; 3] {
    match what {
        What::New(_) | What::NewGuarded(_) => [true, false, false],
        What::Call(_) | What::Feed { .. } | What::FeedWritten { .. } | What::FeedFailure => [true, false, false],
        What::RingNew | What::RingNewIndirect | What::Turn { .. } | What::Drain { .. } => [false, true, false],
        What::TurnTraced { .. } | What::CaptureTurn { .. } => [false, true, false],
        What::Start { .. } | What::StartTraced { .. } | What::CaptureStart { .. } => [true, true, false],
        What::Submit { .. } | What::Mark { .. } | What::Finish(_) => [true, false, false],
        What::ModelNew(_) | What::ModelControl { .. } | What::ModelTransfer { .. } => [false, false, true],
        _ => [false; 3],
    }
}

/// What is wrong with the port's stores after an entry, if anything is.
fn stores(what: &What, left: &Left, open: bool, before: &Port, after: &Port) -> Option<String> {
    let kept = keeps(what, left, open);
    let pairs = [(&before.state, &after.state), (&before.ring, &after.ring), (&before.model, &after.model)];
    for (which, (before, after)) in pairs.into_iter().enumerate() {
        let name = ["state", "ring", "model"][which];
        let end = before.len() - PAST;
        if before[..LEAD] != after[..LEAD] || before[end..] != after[end..] {
            return Some(format!("bytes around the {name} store were written"));
        }
        if (kept || !writes(what)[which]) && before != after {
            return Some(format!("the {name} store changed with answer {:#x}", left.number));
        }
    }
    None
}

/// What both readings know of a damaged store.
#[derive(Copy, Clone, Debug)]
pub enum Damage {
    /// bits of a state's reserved byte, counted from the first
    State(usize, u8),
    /// a stream's state becomes this
    Life(usize, u8),
    /// the guard is there where it was not, or the other way
    Guard,
    /// a token's state and status become these
    Token(usize, u32, u32),
    /// the descriptors of a submission: the first byte of a ring
    Per(u8),
}

#[derive(Clone)]
pub struct Pair {
    pub port: Port,
    pub rules: Plain,
}

impl Pair {
    pub fn new() -> Self {
        let mut pair = Pair { port: Port::fresh(), rules: Plain::fresh() };
        let (message, result) = (MESSAGE, RESULT_SIZE);
        for what in [What::New([0; 3]), What::RingNew, What::ModelNew([0; 3])] {
            let op = Op { lent: Lent::WHOLE, message, result, what };
            pair.step(&op).expect("fresh stores agree");
        }
        pair
    }

    pub fn damage(&mut self, damage: Damage) {
        let (port, rules) = (&mut self.port, &mut self.rules);
        match damage {
            Damage::State(at, bits) => {
                // the guard is none of them
                let bits = if at == 0 { bits & !GUARD } else { bits };
                port.state[LEAD + STATE_RESERVED + at] |= bits;
                rules.sound.reserved[at] |= bits;
            }
            Damage::Per(per) => {
                port.ring[LEAD] = per;
                rules.ring.per = per.into();
            }
            Damage::Life(stream, life) => {
                port.state[LEAD + LIVES + stream] = life;
                rules.sound.lives[stream] = life;
            }
            Damage::Guard => {
                port.state[LEAD + STATE_RESERVED] ^= GUARD;
                rules.sound.guard ^= true;
            }
            Damage::Token(at, state, status) => {
                let bytes = wire::words(&[state, status]);
                port.state[LEAD + TOKENS + TOKEN_SIZE * at..][..TOKEN_SIZE].copy_from_slice(&bytes);
                rules.sound.pending.tokens[at] = Token { state, status };
            }
        }
    }

    /// What stands in the port's store where the second reading has the guard and the streams' states.
    fn lives_agree(&self) -> bool {
        let (store, sound) = (&self.port.state[LEAD..], &self.rules.sound);
        (store[STATE_RESERVED] & GUARD != 0) == sound.guard && store[LIVES..][..sound.lives.len()] == sound.lives
    }

    /// The same of the tokens: the state's last bytes.
    fn tokens_agree(&self) -> bool {
        let expected = self.rules.sound.pending.bytes();
        self.port.state[LEAD + TOKENS..][..expected.len()] == expected
    }

    pub fn step(&mut self, op: &Op) -> Result<(), String> {
        if let What::Damage(damage) = op.what {
            self.damage(damage);
            return Ok(());
        }
        // an inconsistent state ends nothing
        let open = self.rules.sound.open.is_some() && self.rules.sound.consistent();
        let before = self.port.clone();
        let rules_before = self.rules.clone();
        let port = enter(&mut self.port, op);
        let rules = enter(&mut self.rules, op);
        if let Some(wrong) = stores(&op.what, &port, open, &before, &self.port) {
            return Err(format!("{op:?}\n  port: {wrong}"));
        }
        let unchanged = self.rules.sound == rules_before.sound && self.rules.ring == rules_before.ring;
        if keeps(&op.what, &rules, open) && !unchanged {
            return Err(format!("{op:?}\n  rules: the state changed with answer {:#x}", rules.number));
        }
        if port != rules {
            return Err(format!("{op:?}\n  port  {}\n  rules {}", left_text(&port), left_text(&rules)));
        }
        if !self.lives_agree() {
            return Err(format!("{op:?}\n  the guard or a stream's state in the port's store is another"));
        }
        if !self.tokens_agree() {
            return Err(format!("{op:?}\n  a token in the port's store is another"));
        }
        if let What::Submit { .. } = op.what {
            let changed = port.other.iter().any(|byte| *byte != FILL);
            if changed != (port.number == 0) {
                return Err(format!("{op:?}\n  places with answer {:#x}: {changed}", port.number));
            }
        }
        Ok(())
    }
}

impl Default for Pair {
    fn default() -> Self {
        Self::new()
    }
}

fn left_text(left: &Left) -> String {
    let hex = crate::text::hex;
    let short = |bytes: &[u8]| hex(&bytes[..bytes.len().min(40)]);
    format!(
        "{:#x} message {} result {} other {}",
        left.number,
        short(&left.message),
        short(&left.result),
        short(&left.other)
    )
}

/// Mostly the right length, else around it.
fn length(rng: &mut Rng, right: usize, more: usize) -> usize {
    match rng.below(40) {
        0 => right - 1,
        1 => 0,
        2 => rng.below(right as u64) as usize,
        3 | 4 => right + 1 + rng.below(more as u64) as usize,
        _ => right,
    }
}

pub fn op(rng: &mut Rng, guide: &Plain) -> Op {
    let state = length(rng, Lent::WHOLE.state, PAST);
    let ring = length(rng, Lent::WHOLE.ring, PAST);
    let model = length(rng, Lent::WHOLE.model, PAST);
    let lent = Lent { state, ring, model };
    let (message, result) = (length(rng, MESSAGE, 20), length(rng, RESULT_SIZE, 9));
    Op { lent, message, result, what: what(rng, guide) }
}

fn what(rng: &mut Rng, guide: &Plain) -> What {
    let open = guide.sound.open.is_some();
    if rng.one_in(4) {
        return of_what_does_not_wait(rng, guide);
    }
    match rng.below(30) {
        0 if rng.one_in(16) => What::New(counts(rng)),
        0 if rng.one_in(8) => What::NewGuarded(counts(rng)),
        0 if rng.one_in(8) => What::Damage(damage(rng)),
        1 if rng.one_in(12) => What::RingNew,
        1 if rng.one_in(11) => What::RingNewIndirect,
        2 => What::Count(rng.below(3) as usize),
        3..=8 if open => feed(rng, guide),
        3 => feed(rng, guide),
        4..=8 => What::Call(call(rng, guide)),
        9 | 10 if !guide.ring.running && rng.one_in(2) => start(rng, guide),
        9 | 10 if !guide.ring.running => capture_start(rng, guide),
        11 if rng.one_in(2) => What::Offered { frames: lent(rng, guide) },
        11 => What::CaptureOffered { recording: lent(rng, guide) },
        9..=17 => turn(rng, guide),
        18..=20 => drain(rng, guide),
        21 | 22 => What::Read(asked(rng)),
        23 if rng.one_in(2) => by_version(rng),
        23 => What::Event(event(rng)),
        24 if rng.one_in(3) => model_new(rng),
        24 | 25 => model_control(rng, guide),
        26 => What::ModelTransfer { request: transfer(rng, guide), answer: length(rng, 8, 5) },
        27 => What::ModelPayload(transfer(rng, guide)),
        28 => What::ModelParams(rng.below(guide.model.played.len() as u64 + 2) as u32),
        _ => What::ModelPlayed(rng.below(guide.model.played.len() as u64 + 2) as u32),
    }
}

fn of_what_does_not_wait(rng: &mut Rng, guide: &Plain) -> What {
    let tokens = &guide.sound.pending.tokens;
    let of = |wanted: fn(&Token) -> bool| {
        let found = (0..).zip(tokens).filter(move |(_, token)| wanted(token)).map(|(at, _)| at);
        found.collect::<Vec<u32>>()
    };
    let some = |rng: &mut Rng, of: Vec<u32>| {
        let any = [0, 1, 2, 14, 15, 16, 30, 31, 32, 33, 99, 256, u32::MAX];
        if of.is_empty() || rng.one_in(8) { rng.pick(&any) } else { rng.pick(&of) }
    };
    match rng.below(9) {
        0..=3 => submit(rng, guide),
        4 | 5 => {
            let token = some(rng, of(|token| token.state == WAITS));
            let status = if rng.one_in(4) { rng.pick(&STATUSES) } else { wire::STATUS_OK };
            What::Mark { kind: rng.pick(&[0, 1, 1, 1, 1, 2, u32::MAX]), token, status }
        }
        6 => {
            let marked = if rng.one_in(4) { of(|token| token.pending()) } else { of(|token| token.marked()) };
            What::Finish(some(rng, marked))
        }
        7 => What::PendingCount,
        _ => What::PendingToken(some(rng, (0..32).collect())),
    }
}

/// One period with room for it mostly; else around it.
fn submit(rng: &mut Rng, guide: &Plain) -> What {
    let set: Vec<u32> = guide.sound.params.keys().copied().collect();
    let stream = if set.is_empty() || rng.one_in(6) { rng.below(4) as u32 } else { rng.pick(&set) };
    let period = guide.sound.params.get(&stream).map_or(3, |params| params.period);
    let payload = if rng.one_in(9) { rng.below(u64::from(period) + 3) as u32 } else { period };
    let count = Mode::of(guide.ring.per).map_or(PLACES, places_of);
    let room = count * (period as usize + 4);
    let places = match rng.below(12) {
        0 => rng.below(17) as usize,
        1 => room - 1 - rng.below(16) as usize,
        2 => room + 16 + rng.below(9) as usize,
        _ => room + rng.below(16) as usize,
    };
    What::Submit { stream, payload, places }
}

/// Of the guard, of streams' states, of tokens and of the mode alone, so that most stores are still taken.
fn damage(rng: &mut Rng) -> Damage {
    if rng.one_in(6) {
        return Damage::Per(rng.pick(&[1, 1, 1, 3, 3, 3, 0, 2]));
    }
    if rng.one_in(4) {
        return Damage::Guard;
    }
    if rng.one_in(2) {
        let state = rng.pick(&[0, 0, 1, 2, 3, 256, 0x0100_0000, u32::MAX]);
        return Damage::Token(rng.below(32) as usize, state, rng.pick(&[0, 0x8000, 0x8003, u32::MAX]));
    }
    let life = rng.pick(&[0, 1, 2, 3, 4, 5, 127, 128, 255]);
    Damage::Life(rng.pick(&[0, 0, 0, 1, 1, 2, 125, 126]), life)
}

fn counts(rng: &mut Rng) -> [u32; 3] {
    std::array::from_fn(|t| match rng.below(10) {
        0 => rng.pick(&[FIT[t], FIT[t] + 1, u32::MAX]),
        _ => rng.below(4) as u32,
    })
}

fn call(rng: &mut Rng, guide: &Plain) -> Call {
    let some = |rng: &mut Rng, count: u32| rng.below(count.min(4) as u64 + 1) as u32;
    let (stream, jack) = (some(rng, guide.sound.counts[1]), some(rng, guide.sound.counts[0]));
    match rng.below(14) {
        0..=3 => {
            let period = rng.below(6) as u32;
            let buffer = period * rng.below(4) as u32 + rng.pick(&[0, 0, 0, 1]);
            let (format, rate) = (rng.pick(&[0, 5, 24, 24, 25, 255]), rng.pick(&[0, 7, 13, 13, 14, 255]));
            let params = Params { buffer, period, features: rng.word() as u32, channels: 2, format, rate };
            Call::SetParams { stream, params }
        }
        4 | 12 | 13 => Call::Command { code: wire::PREPARE + rng.below(4) as u32, stream },
        5 => Call::Remap { jack, association: rng.word() as u32, sequence: rng.word() as u32 },
        6 => Call::OutputStreams,
        7 => Call::InputStreams,
        8 => Call::Rates(stream),
        9 => Call::Formats(stream),
        10 => Call::ChannelRange(stream),
        _ => Call::Features(stream),
    }
}

fn feed(rng: &mut Rng, guide: &Plain) -> What {
    if rng.one_in(10) {
        return What::FeedFailure;
    }
    let kinds = [Kind::Jacks, Kind::Streams, Kind::Maps, Kind::Noise];
    let at = match guide.sound.open {
        Some((rules::sound::Awaits::Table(table), _)) => table,
        _ => 3,
    };
    let status = if rng.one_in(8) { rng.pick(&STATUSES) } else { wire::STATUS_OK };
    let (body, len) = (Body::of(kinds[at], rng.below(1 << 16)), length(rng, PAGE, 20));
    if rng.one_in(2) {
        return What::Feed { status, body, len };
    }
    let rows = guide.sound.counts.get(at).copied().unwrap_or_default();
    let whole = 4 + u64::from(rows) * wire::SIZES.get(at).copied().unwrap_or_default() as u64;
    let written = match rng.below(6) {
        0 => rng.pick(&[0, 3, 4, whole - 1, whole + 1, 4095, 4097, (1 << 32) + 4, u64::MAX]),
        1 | 2 => whole,
        _ => 4096,
    };
    What::FeedWritten { status, body, len, written }
}

fn start(rng: &mut Rng, guide: &Plain) -> What {
    let set: Vec<u32> = guide.sound.params.keys().copied().collect();
    let stream = if set.is_empty() || rng.one_in(5) { rng.below(4) as u32 } else { rng.pick(&set) };
    let (frames, budget) = (rng.below(60) as u32, rng.pick(&[0, 1, 5, 30, 30, u64::MAX]));
    if rng.one_in(2) {
        return What::Start { stream, frames, budget };
    }
    let period = guide.sound.params.get(&stream).map_or(3, |params| params.period.max(1));
    let need = room_for(frames.into(), period.into()) as u32;
    let room = if rng.one_in(8) { need - 1 - rng.below(3) as u32 } else { need + rng.pick(&[0, 0, 1, 20]) };
    What::StartTraced { stream, frames, budget, room }
}

/// Mostly of an input that has parameters, with room for all periods.
fn capture_start(rng: &mut Rng, guide: &Plain) -> What {
    let sound = &guide.sound;
    let input = |stream: &u32| sound.tables[1].get(*stream as usize).is_some_and(|r| r[wire::DIRECTION] == wire::INPUT);
    let inputs: Vec<u32> = sound.params.keys().copied().filter(input).collect();
    let stream = if inputs.is_empty() || rng.one_in(5) { rng.below(4) as u32 } else { rng.pick(&inputs) };
    let period = sound.params.get(&stream).map_or(3, |params| params.period);
    let periods = rng.below(13);
    let need = period * periods as u32;
    let recording = if rng.one_in(8) { need.saturating_sub(1) } else { need + rng.below(9) as u32 };
    let periods = if rng.one_in(30) { rng.pick(&[1 << 32, 1 << 63, u64::MAX]) } else { periods };
    What::CaptureStart { stream, periods, recording, budget: rng.pick(&[0, 1, 5, 30, 30, u64::MAX]) }
}

/// As long as at the start mostly.
fn lent(rng: &mut Rng, guide: &Plain) -> u32 {
    let right = guide.ring.lent as u32;
    if rng.one_in(12) { right.wrapping_add(rng.pick(&[1, u32::MAX])).min(100) } else { right }
}

/// A kind, a slot and a status: quiet, the oldest, or another.
fn read(rng: &mut Rng, guide: &Plain) -> (u32, u32, u32) {
    let oldest = if guide.ring.in_flight > 0 { guide.ring.tail } else { guide.ring.head } as u32;
    let kind = rng.pick(&[0, 0, 1, 1, 1, 2, u32::MAX]);
    let slot = if rng.one_in(12) { rng.pick(&[oldest + 1, 31, 32, u32::MAX]) } else { oldest };
    let status = if rng.one_in(15) { rng.pick(&STATUSES) } else { wire::STATUS_OK };
    (kind, slot, status)
}

fn turn(rng: &mut Rng, guide: &Plain) -> What {
    let (kind, slot, status) = read(rng, guide);
    // the other way seldom
    if (guide.ring.way == Way::Capture) != rng.one_in(12) {
        return capture_turn(rng, guide);
    }
    let (frames, right) = (lent(rng, guide), guide.ring.room as u32);
    let room = if rng.one_in(12) { rng.pick(&[0, 1, right + 1, right.saturating_sub(1)]) } else { right };
    if room > 0 || rng.one_in(4) {
        return What::TurnTraced { frames, room, kind, slot, status };
    }
    What::Turn { frames, kind, slot, status }
}

/// A good length mostly, and as many bytes.
fn capture_turn(rng: &mut Rng, guide: &Plain) -> What {
    let (kind, slot, status) = read(rng, guide);
    let period = guide.ring.period.min(100) as u32;
    let whole = period + 8;
    let written = match rng.below(20) {
        0 => rng.pick(&[0, 7, whole + 1, 1 << 31, u32::MAX]),
        1..=6 => whole,
        7 | 8 => 8,
        _ => 8 + rng.below(u64::from(period) + 1) as u32,
    };
    let bytes = match rng.below(12) {
        0 => rng.below(u64::from(whole)) as u32,
        1..=4 => whole,
        _ => written.min(whole),
    };
    What::CaptureTurn { recording: lent(rng, guide), kind, slot, written, status, lent: bytes }
}

fn drain(rng: &mut Rng, guide: &Plain) -> What {
    let (kind, slot, status) = read(rng, guide);
    What::Drain { kind, slot, status }
}

fn asked(rng: &mut Rng) -> Asked {
    let slot = rng.pick(&[0, 1, 2, 9, 10, 30, 31, 32, 33, usize::MAX]);
    let plain = [
        Asked::Running,
        Asked::InFlight,
        Asked::FreeDescriptors,
        Asked::TurnsRun,
        Asked::Stream,
        Asked::Oldest,
        Asked::Kept,
        Asked::Accepted,
        Asked::TraceLength,
    ];
    if rng.one_in(3) { Asked::Carried(slot) } else { rng.pick(&plain) }
}

fn event(rng: &mut Rng) -> Vec<u8> {
    let mut bytes = wire::words(&[rng.pick(&[0x1000, 0x1001, 0x1100, 0x1101, 0x1002, 0]), rng.word() as u32]);
    bytes.resize(rng.pick(&[8, 8, 8, 0, 7, 9]), 1);
    bytes
}

fn by_version(rng: &mut Rng) -> What {
    let version = rng.pick(&[0x0102, 0x0103, 0x0103, 0x0103, 0x0104, 0]);
    let features = rng.pick(&[0, 1, 1, 1, 2, u64::MAX]);
    if rng.one_in(2) {
        let mut config = wire::words(&std::array::from_fn::<u32, 4, _>(|_| rng.word() as u32));
        config.resize(rng.pick(&[12, 16, 16, 0, 11, 13, 15, 17]), 1);
        return What::Config(config, version, features);
    }
    let mut bytes = wire::words(&[rng.pick(&[0x1200, 0x1200, 0x1101, 0x1201]), rng.word() as u32]);
    bytes.resize(rng.pick(&[8, 8, 8, 0, 7, 9]), 1);
    What::EventIn(bytes, version, features)
}

fn model_new(rng: &mut Rng) -> What {
    What::ModelNew(std::array::from_fn(|t| {
        let rows = match rng.below(8) {
            0 => FIT[t] as usize + rng.below(3) as usize - 1,
            _ => rng.below(4) as usize,
        };
        let odd = if rng.one_in(12) { 1 + rng.below(23) as usize } else { 0 };
        rows * wire::SIZES[t] + odd
    }))
}

fn model_control(rng: &mut Rng, guide: &Plain) -> What {
    let table = rng.below(3) as usize;
    let rows = guide.model.tables[table].len() as u64;
    let mut request = match rng.below(3) {
        0 => wire::words(&[wire::SET_PARAMS, rng.below(4) as u32, 8, 3, rng.word() as u32, rng.word() as u32]),
        1 => wire::words(&[rng.pick(&[2, 0x102, 0x103, 0x104, 0x105, 0x106]), rng.word() as u32]),
        _ => {
            let (start, count) = (rng.below(rows + 2) as u32, rng.below(rows + 2) as u32);
            wire::words(&[wire::QUERIES[table], start, count, wire::SIZES[table] as u32])
        }
    };
    if rng.one_in(6) {
        request.resize(rng.below(30) as usize, 0);
    }
    What::ModelControl { request, page: length(rng, PAGE, 9) }
}

fn transfer(rng: &mut Rng, guide: &Plain) -> Vec<u8> {
    let mut request = wire::words(&[rng.below(guide.model.played.len() as u64 + 1) as u32]);
    request.resize(if rng.one_in(8) { rng.below(4) as usize } else { 4 + rng.below(30) as usize }, 6);
    request
}

/// So many entries on one pair of stores; the ops up to a difference.
pub fn sequence(seed: u64, length: usize) -> Result<(), (Vec<Op>, String)> {
    let mut rng = Rng(seed.wrapping_mul(0xa076_1d64_78bd_642f));
    let mut pair = Pair::new();
    let mut ops = begun(&mut rng);
    for at in 0..ops.len() + length {
        if at >= ops.len() {
            ops.push(op(&mut rng, &pair.rules));
        }
        pair.step(&ops[at]).map_err(|text| (ops.clone(), text))?;
    }
    Ok(())
}

/// The beginning of a driver's life, so that sequences are not all of an empty device.
fn begun(rng: &mut Rng) -> Vec<Op> {
    let life = rng.pick(&[
        stages::life,
        stages::guarded_life,
        stages::pending_life,
        stages::capture_life,
        stages::traced_life,
        stages::indirect_life,
        stages::indirect_pending_life,
    ])();
    let length = rng.below(life.len() as u64 + 1) as usize;
    life.into_iter().take(length).map(stages::whole).collect()
}

/// The ops that are needed to show a difference, dropped one by one.
pub fn shrink(mut ops: Vec<Op>) -> (Vec<Op>, String) {
    let fails = |ops: &[Op]| {
        let mut pair = Pair::new();
        ops.iter().find_map(|op| pair.step(op).err())
    };
    let mut at = ops.len();
    while at > 0 {
        at -= 1;
        let mut fewer = ops.clone();
        fewer.remove(at);
        if fails(&fewer).is_some() {
            ops = fewer;
            at = at.min(ops.len());
        }
    }
    let text = fails(&ops).unwrap_or("(gone when run again)".into());
    (ops, text)
}

/// A number that entries answer, and a high half of 2 and 3 alone.
fn known(answer: u64) -> bool {
    let (number, high) = (answer as u32, answer >> 32);
    let known = matches!(number, 0..=12 | 15..=17 | 512 | 513) || (257..=256 + MESSAGE as u32).contains(&number);
    known && (high == 0 || matches!(number, 2 | 3))
}

/// What holds of any bytes: a known number, the same twice, nothing written past the slices' own bytes, a refusal that keeps all.
fn on_any_bytes(port: &mut Port, op: &Op) -> Result<(), String> {
    let before = port.clone();
    let left = enter(port, op);
    let mut again = before.clone();
    let twice = enter(&mut again, op);
    if !known(left.number) {
        return Err(format!("{op:?}\n  port answers {:#x}", left.number));
    }
    if left != twice || *port != again {
        return Err(format!("{op:?}\n  port: not the same twice"));
    }
    // whether an exchange is open cannot be known here: a feed's 1 is not judged
    stores(&op.what, &left, true, &before, port).map_or(Ok(()), |wrong| Err(format!("{op:?}\n  port: {wrong}")))
}

/// Good stores, some bytes of them replaced, then entries. How many were refused with 1.
pub fn damaged(seed: u64, length: usize) -> Result<u64, String> {
    let mut rng = Rng(seed.wrapping_mul(0xe703_7ed1_a0b4_28db));
    let mut pair = Pair::new();
    for op in begun(&mut rng) {
        pair.step(&op)?;
    }
    for _ in 0..rng.below(40) {
        let op = op(&mut rng, &pair.rules);
        pair.step(&op)?;
    }
    let port = &mut pair.port;
    for _ in 0..1 + rng.below(6) {
        let store = match rng.below(3) {
            0 => &mut port.ring,
            1 => &mut port.model,
            _ => &mut port.state,
        };
        // the first and the last bytes are where counts and stages are likely to stand
        let size = (store.len() - LEAD - PAST) as u64;
        let at = rng.pick(&[0, 0, size - 100]) + rng.below(100);
        let at = if rng.one_in(3) { rng.below(size) } else { at };
        store[LEAD + at as usize] = rng.pick(&[0, 1, 2, 31, 32, 127, 128, 255, rng_byte(seed)]);
    }
    let mut refused = 0;
    for _ in 0..length {
        let op = op(&mut rng, &pair.rules);
        on_any_bytes(port, &op)?;
        refused += u64::from(matches!(enter(&mut port.clone(), &op).number, 1));
    }
    Ok(refused)
}

fn rng_byte(seed: u64) -> u8 {
    Rng(seed).word() as u8
}
