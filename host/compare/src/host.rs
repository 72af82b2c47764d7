//! A host over the C entries, as the console's is: it sends what it is told to, feeds what came back, submits what is offered.
use crate::case::{Case, Heard, Reading, Step, model_tables};
use crate::driver::{DIGEST, Driver, ModelSeen, Seen, digest};
use crate::entries::Entries;
use crate::outside::{Device, Scripted, resolve};
use oracle::{Control, End, Inside};
use rules::entries::{Asked, GOING, NOTHING, RESULT_SIZE, SEND};
use rules::pending::{TOKENS, places_of};
use rules::ring::{Mode, SLOTS};
use rules::sound::Call;
use rules::wire::{STATUS_OK, u32_at, u64_at};
use rules::{BAD_CAPTURE, BAD_LENGTH, BAD_STATE, FULL, IO_ERROR, MESSAGE, NOT_YET, OUT_OF_TURNS, PAGE};

/// What lent buffers hold before a call, and bytes lent beyond what is asked for.
const FILL: u8 = 0xc3;
const MORE: usize = 5;

pub struct Host<E> {
    pub entries: E,
    page: Vec<u8>,
    model: bool,
    strict: bool,
    mode: Mode,
    /// those of what does not wait, and where in them each token's bytes stand
    places: Vec<u8>,
    out: [(usize, usize); TOKENS],
    /// good completions of the transfer that runs or ran last, as this host saw them, and as the ring told them in this step
    good: u64,
    accepted: Vec<u64>,
    stray: Vec<String>,
}

/// The message and result slices of one call.
struct Slices {
    message: [u8; MESSAGE + MORE],
    result: [u8; RESULT_SIZE + MORE],
}

impl Slices {
    fn new() -> Self {
        Slices { message: [FILL; MESSAGE + MORE], result: [FILL; RESULT_SIZE + MORE] }
    }
}

fn untouched(bytes: &[u8]) -> bool {
    bytes.iter().all(|b| *b == FILL)
}

/// How many bytes of result a call's value takes, and the value.
fn value(call: Option<Call>, result: &[u8]) -> (usize, Vec<u64>) {
    match call {
        Some(Call::OutputStreams | Call::InputStreams) => {
            let count = u32_at(result, 0).min(127) as usize;
            let ids = (0..count).map(|i| u32_at(result, 4 + 4 * i) as u64);
            (4 + 4 * count, ids.collect())
        }
        Some(Call::Rates(_) | Call::Formats(_) | Call::Features(_)) => (8, vec![u64_at(result, 0)]),
        Some(Call::ChannelRange(_)) => (2, vec![result[0] as u64, result[1] as u64]),
        _ => (0, vec![]),
    }
}

/// An answer as the way a call ended: its number, and the high half beside it.
fn ended(answer: u64, values: Vec<u64>) -> Seen {
    let (number, high) = (answer as u32, (answer >> 32) as u32);
    let known = number <= u32::from(BAD_STATE) || [FULL, NOT_YET, BAD_CAPTURE].map(u32::from).contains(&number);
    let end = if known { End::Number(number as u8) } else { End::Panic(format!("answers {number}")) };
    Seen { high, ..Seen::new(end, values) }
}

impl<E: Entries> Device for E {
    fn control(&mut self, request: &[u8]) -> Vec<u8> {
        let (mut page, mut result) = (vec![FILL; PAGE], [FILL; RESULT_SIZE]);
        let number = self.model_control(request, &mut page, &mut result);
        assert_eq!(number, 0, "the model takes every request");
        page.truncate(u64_at(&result, 0) as usize);
        page
    }
    fn transfer(&mut self, request: &[u8]) -> Vec<u8> {
        let mut answer = [FILL; 8];
        assert_eq!(self.model_transfer(request, &mut answer), 0, "the model takes every transfer");
        answer.to_vec()
    }
}

impl<E: Entries> Host<E> {
    pub fn new(case: &Case) -> Self {
        let mut entries = E::fresh();
        let made = (entries.make(case.counts, case.guard), entries.ring_new(case.indirect));
        assert_eq!(made, (0, 0), "whole stores are taken");
        if let Some(seed) = case.model {
            let tables = model_tables(case.counts, seed).map(|rows| rows.concat());
            assert_eq!(entries.model_new([&tables[0], &tables[1], &tables[2]]), 0, "good tables are taken");
        }
        let (page, model) = (vec![0; PAGE], case.model.is_some());
        let (places, out, stray) = (vec![], [(0, 0); TOKENS], vec![]);
        let (strict, mode) = (case.strict, if case.indirect { Mode::Indirect } else { Mode::Direct });
        Host { entries, page, model, strict, mode, places, out, good: 0, accepted: vec![], stray }
    }

    fn note(&mut self, fine: bool, what: &str) {
        if !fine {
            self.stray.push(what.into());
        }
    }

    /// From a first answer: sends, feeds, until something else is said. None where an answer is missing.
    fn exchange(&mut self, mut number: u64, mut lent: Slices, script: &mut Scripted) -> Option<(u64, Slices)> {
        while (SEND..GOING).contains(&number) {
            let (request, rest) = lent.message.split_at((number - SEND).min(MESSAGE as u64) as usize);
            self.note(number <= SEND + MESSAGE as u64 && untouched(rest), "message written beyond the request");
            self.note(untouched(&lent.result), "result written with a request");
            let request = request.to_vec();
            let device = self.model.then_some(&mut self.entries as &mut dyn Device);
            let mut control = script.control(&request, &mut self.page, device);
            loop {
                (number, lent) = self.feed(control, &request, script)?;
                // a length that no page has: the exchange stays open, and the next answer is to the same request
                if number != u64::from(BAD_LENGTH) {
                    break;
                }
                let kept = untouched(&lent.message) && untouched(&lent.result);
                self.note(kept, "message or result written with a bad length");
                let device = self.model.then_some(&mut self.entries as &mut dyn Device);
                control = script.answer(&request, &mut self.page, device);
            }
        }
        self.note(untouched(&lent.message), "message written with a result");
        Some((number, lent))
    }

    /// Feeds what came back. None where nothing did.
    fn feed(&mut self, control: Control, request: &[u8], script: &mut Scripted) -> Option<(u64, Slices)> {
        let mut lent = Slices::new();
        let (message, result) = (&mut lent.message[..], &mut lent.result[..]);
        let number = match control {
            Control::NoAnswer => return None,
            Control::Failed => self.entries.feed_failure(message, result),
            Control::Answered if self.strict => {
                script.feeds(request, &self.page);
                self.entries.feed_written(&self.page, script.wrote, message, result)
            }
            Control::Answered => self.entries.feed(&self.page, message, result),
        };
        Some((number, lent))
    }

    fn control(&mut self, call: Call, script: &mut Scripted) -> Seen {
        let mut lent = Slices::new();
        let number = self.entries.call(call, &mut lent.message, &mut lent.result);
        let Some((number, lent)) = self.exchange(number, lent, script) else {
            return Seen::new(End::Waits, vec![]);
        };
        let (written, values) = if number == 0 { value(Some(call), &lent.result) } else { (0, vec![]) };
        self.note(untouched(&lent.result[written..]), "result written beyond its value");
        ended(number, values)
    }

    fn read(&mut self, asked: Asked) -> [u64; 2] {
        let mut result = [FILL; RESULT_SIZE];
        let number = self.entries.ring_read(asked, &mut result);
        self.note(number == 0, "a read of the ring is refused");
        [u64_at(&result, 0), u64_at(&result, 8)]
    }

    fn in_flight(&mut self) -> Vec<u16> {
        let count = self.read(Asked::InFlight)[0].min(32);
        let [there, oldest] = self.read(Asked::Oldest);
        self.note((there == 1) == (count > 0), "oldest and in flight disagree");
        (0..count).map(|i| ((oldest + i) % 32) as u16).collect()
    }

    /// How many descriptors are free, as the crate tells it to its driver: of indirect ones all, while one is.
    fn free(&mut self) -> usize {
        let (free, held) = (self.read(Asked::FreeDescriptors)[0], self.read(Asked::InFlight)[0]);
        self.note(free + self.mode.per() * held == SLOTS as u64, "the ring tells another number of free descriptors");
        let all = self.mode == Mode::Indirect && free > 0;
        if all { SLOTS } else { free as usize }
    }

    /// What the ring tells of good completions is what was seen of them.
    fn heard(&mut self) {
        let [told, _] = self.read(Asked::Accepted);
        self.note(told == self.good, "the ring tells another number of good completions");
        self.accepted.push(told);
    }

    /// A start was answered: one that goes on counts anew, and a refused one keeps the count of the last transfer.
    fn began(&mut self, number: u64) -> bool {
        if number == GOING {
            self.good = 0;
        }
        self.heard();
        number == GOING
    }

    /// "The accepted payloads are exactly the first k periods, the failing one is the next, and those still owed follow it without a gap."
    fn followed(&mut self, number: u64, sent: &[(u16, u64, u64)]) {
        let failing = [IO_ERROR, BAD_CAPTURE].map(u32::from).contains(&(number as u32));
        let mut owed = vec![];
        for slot in self.in_flight() {
            let [offset, length] = self.read(Asked::Carried(slot as usize));
            owed.push((slot, offset, length));
        }
        let from = self.good as usize + usize::from(failing);
        self.note(sent.get(from..) == Some(&owed[..]), "what is owed does not follow what was accepted");
    }

    /// One turn: submit what is offered, look, tell. The turn's number.
    fn turn(&mut self, stream: u32, script: &mut Scripted) -> Option<u64> {
        let frames = script.frames.clone();
        let mut result = [FILL; RESULT_SIZE + MORE];
        let number = self.entries.offered(&frames, &mut result);
        self.note(number == 0 && untouched(&result[32..]), "offered refuses, or writes beyond its result");
        let mut flight = self.in_flight();
        let free = self.free();
        if !script.turn(free) {
            return None;
        }
        let [there, slot, offset, length] = [0, 8, 16, 24].map(|at| u64_at(&result, at));
        if there == 1 {
            let payload = &frames[offset as usize..][..length as usize];
            script.submit(slot as u16, &stream.to_le_bytes(), payload);
            flight.push(slot as u16);
        }
        // with nothing in flight the turn must not look: it is told nonsense
        let read = if flight.is_empty() {
            Some((77, 0xdead))
        } else {
            script.reading(&flight, self.model.then_some(&mut self.entries as &mut dyn Device))
        };
        let (kind, (slot, status)) = read.map_or((0, (77, 0xdead)), |read| (1, read));
        let number = self.entries.turn(&frames, kind, slot, status);
        let oldest = flight.first().map(|slot| u32::from(*slot));
        self.good += u64::from(oldest.is_some() && read == oldest.map(|slot| (slot, STATUS_OK)));
        self.heard();
        Some(number)
    }

    fn transfer(&mut self, stream: u32, budget: u64, script: &mut Scripted) -> Seen {
        let mut lent = Slices::new();
        let number = self.entries.xfer_start(stream, &script.frames, budget, &mut lent.message);
        let Some((mut number, _)) = self.exchange(number, lent, script) else {
            self.heard();
            return Seen::new(End::Waits, vec![]);
        };
        let began = self.began(number);
        while number == GOING {
            let running = self.read(Asked::Running)[0] == 1 && self.read(Asked::Stream)[0] == stream as u64;
            self.note(running, "the ring does not say that this transfer runs");
            let Some(next) = self.turn(stream, script) else {
                return Seen::new(End::Spins, vec![]);
            };
            number = next;
        }
        let mut seen = ended(number, vec![]);
        if began {
            let stopped = self.read(Asked::Running)[0] == 0;
            self.note(stopped, "the ring says that an ended transfer runs");
            self.followed(number, &script.sent());
            seen.turns = self.read(Asked::TurnsRun)[0];
        }
        seen
    }

    /// One turn of a capture: submit what is offered, look, tell. The turn's number.
    fn capture_turn(
        &mut self,
        stream: u32,
        recording: &mut [u8],
        heard: Heard,
        seed: u8,
        script: &mut Scripted,
    ) -> Option<u64> {
        let mut result = [FILL; RESULT_SIZE + MORE];
        let number = self.entries.capture_offered(recording, &mut result);
        self.note(number == 0 && untouched(&result[24..]), "a capture's offer refuses, or writes beyond its result");
        let mut flight = self.in_flight();
        let free = self.free();
        if !script.turn(free) {
            return None;
        }
        let [there, slot, length] = [0, 8, 16].map(|at| u64_at(&result, at));
        if there == 1 {
            script.submit_writable(slot as u16, &stream.to_le_bytes(), length);
            flight.push(slot as u16);
        }
        let read = resolve(heard.reading, &flight);
        let (kind, (slot, status)) = read.map_or((0, (77, 0xdead)), |read| (1, read));
        let bytes = heard.bytes(status, seed);
        let (before, kept) = (recording.to_vec(), self.read(Asked::Kept)[0] as usize);
        let number = self.entries.capture_turn(recording, kind, slot, heard.written, &bytes);
        script.read(read.map(|(slot, _)| (slot, heard.written)), number != u64::from(BAD_LENGTH));
        // the oldest came back, and was refused with neither 17 nor 2
        let taken = number == GOING || number == u64::from(OUT_OF_TURNS);
        let oldest = flight.first().map(|slot| u32::from(*slot));
        self.good += u64::from(taken && oldest.is_some() && oldest == read.map(|(slot, _)| slot));
        self.heard();
        let now = self.read(Asked::Kept)[0] as usize;
        let joined = kept <= now && now <= recording.len();
        self.note(joined, "less is kept than before, or more than the recording");
        if joined {
            let rest = before[..kept] == recording[..kept] && before[now..] == recording[now..];
            self.note(rest, "other bytes of the recording written than those accepted");
        }
        Some(number)
    }

    /// The values are how much is kept at the end, and how many turns were refused for what was lent, which runs none.
    fn capture(&mut self, step: &Step, script: &mut Scripted) -> Seen {
        let Step::Capture { stream, periods, recording, budget, heard, .. } = step else {
            unreachable!("of this step alone")
        };
        let (mut lent, mut recording) = (Slices::new(), recording.bytes());
        let number = self.entries.capture_start(*stream, *periods, &recording, *budget, &mut lent.message);
        let Some((mut number, _)) = self.exchange(number, lent, script) else {
            self.heard();
            return Seen::new(End::Waits, vec![]);
        };
        let (began, mut refused) = (self.began(number), 0);
        let mut script_of_turns = heard.iter().copied().chain(std::iter::repeat(Heard::QUIET)).zip(0u64..);
        while number == GOING {
            let running = self.read(Asked::Running)[0] == 1 && self.read(Asked::Stream)[0] == u64::from(*stream);
            self.note(running, "the ring does not say that this capture runs");
            let (heard, seed) = script_of_turns.next().expect("it has no end");
            let Some(next) = self.capture_turn(*stream, &mut recording, heard, seed as u8, script) else {
                return Seen::new(End::Spins, vec![]);
            };
            let runs_none = next == u64::from(BAD_LENGTH);
            refused += u64::from(runs_none);
            number = if runs_none { GOING } else { next };
        }
        if !began {
            return ended(number, vec![]);
        }
        let stopped = self.read(Asked::Running)[0] == 0;
        self.note(stopped, "the ring says that an ended capture runs");
        let sent = script.sent().into_iter().zip(0..);
        let sent: Vec<_> = sent.map(|((slot, _, length), at): (_, u64)| (slot, at * length, length)).collect();
        self.followed(number, &sent);
        let mut seen = ended(number, vec![self.read(Asked::Kept)[0], refused]);
        seen.turns = self.read(Asked::TurnsRun)[0];
        seen.recorded = digest(DIGEST, &recording);
        seen
    }

    /// The values are what each drain turn answered.
    fn drain(&mut self, readings: &[Reading]) -> Seen {
        let mut values = vec![];
        for reading in readings {
            let read = resolve(*reading, &self.in_flight());
            let (kind, (slot, status)) = read.map_or((0, (0, 0)), |read| (1, read));
            values.push(self.entries.drain_turn(kind, slot, status));
            self.heard();
        }
        Seen::new(End::Number(0), values)
    }

    /// Of what does not wait: the tokens that are pending, with state and status of each.
    fn pending(&mut self) -> Vec<(u64, u64, u64)> {
        let mut result = [FILL; RESULT_SIZE + MORE];
        let number = self.entries.pending_count(&mut result);
        let count = u64_at(&result, 0);
        self.note(number == 0 && untouched(&result[8..]), "the count of what is pending is not told, or more than it");
        let mut all = vec![];
        if count == 0 {
            return all;
        }
        for token in 0..TOKENS as u32 {
            let mut result = [FILL; RESULT_SIZE + MORE];
            let number = self.entries.pending_token(token, &mut result);
            self.note(number == 0 && untouched(&result[16..]), "a token is not told, or more than it");
            if u64_at(&result, 0) != 0 {
                all.push((token.into(), u64_at(&result, 0), u64_at(&result, 8)));
            }
        }
        self.note(count == all.len() as u64, "the count of what is pending is another");
        all
    }

    fn submit(&mut self, stream: u32, lent_places: usize, script: &mut Scripted) -> Seen {
        if self.places.len() < lent_places {
            self.places.resize(lent_places, FILL);
        }
        let (mut lent, payload, before) = (Slices::new(), script.frames.clone(), self.places.clone());
        let places = &mut self.places[..lent_places];
        let number = self.entries.xfer_nb(stream, &payload, places, &mut lent.message, &mut lent.result);
        let at_once = number == 0;
        let Some((number, lent)) = self.exchange(number, lent, script) else {
            self.note(self.places == before, "places written with a request");
            return Seen::new(End::Waits, vec![]);
        };
        if !at_once {
            self.note(self.places == before && untouched(&lent.result), "places or result written with a refusal");
            return ended(number, vec![]);
        }
        let (token, length) = (u64_at(&lent.result, 0), payload.len() + 4);
        let count = places_of(self.mode);
        let at = (token as usize).min(count) * (lent_places / count);
        let fits = token < count as u64 && at + length <= lent_places;
        self.note(fits && untouched(&lent.result[8..]), "a token that is no place, or more than a token");
        if fits {
            let mut expected = before;
            expected[at..][..length].copy_from_slice(&self.places[at..][..length]);
            self.note(self.places == expected, "other bytes of the places written");
            self.out[token as usize] = (at, length);
            script.submit_one(token as u16, &self.places[at..][..length]);
        }
        ended(number, vec![token])
    }

    /// The values are what each mark answered.
    fn mark(&mut self, readings: &[Reading]) -> Seen {
        let mut values = vec![];
        for reading in readings {
            let waiting: Vec<u16> =
                self.pending().iter().filter(|held| held.1 == 1).map(|(token, ..)| *token as u16).collect();
            let mut read = resolve(*reading, &waiting);
            if let (Reading::Device, Some(oldest)) = (reading, waiting.first()) {
                let (at, length) = self.out[*oldest as usize];
                let answer = self.entries.transfer(&self.places[at..][..length]);
                read = Some((u32::from(*oldest), u32_at(&answer, 0)));
            }
            let (kind, (token, status)) = read.map_or((0, (0, 0)), |read| (1, read));
            values.push(self.entries.xfer_mark(kind, token, status));
        }
        Seen::new(End::Number(0), values)
    }

    fn event(&mut self, event: &[u8]) -> Seen {
        let mut result = [FILL; RESULT_SIZE + MORE];
        let number = self.entries.notification(event, &mut result);
        // without control elements the entry by version says the same, so that the Rust is held to it too
        for (version, features) in [(0x0102, 0), (0x0102, 1), (0x0103, 0), (0x0103, 6)] {
            let mut again = [FILL; RESULT_SIZE + MORE];
            let said = self.entries.notification_in(event, version, features, &mut again);
            self.note(said == number && again == result, "another event by its version");
        }
        let written = if number == 0 { 8 } else { 0 };
        self.note(untouched(&result[written..]), "result written beyond the event");
        match number {
            0 => Seen::new(End::Number(0), vec![u32_at(&result, 0) as u64, u32_at(&result, 4) as u64]),
            NOTHING => Seen::new(End::Number(0), vec![]),
            number => ended(number, vec![]),
        }
    }

    fn counts(&mut self) -> Seen {
        let mut values = vec![];
        for which in 0..3 {
            let mut result = [FILL; RESULT_SIZE + MORE];
            let number = self.entries.count(which, &mut result);
            self.note(number == 0 && untouched(&result[8..]), "a count refuses, or writes beyond its result");
            values.push(u64_at(&result, 0));
        }
        Seen::new(End::Number(0), values)
    }

    fn ask(&mut self, step: &Step) -> Option<Seen> {
        let answer = match step {
            Step::ModelControl(request) => self.ask_control(request),
            Step::ModelTransfer(request) => self.ask_transfer(request),
            _ => return None,
        };
        let payload = if let Step::ModelTransfer(request) = step { self.payload(request) } else { vec![] };
        let streams = self.counts().values[1] as u32;
        let (params, played) = (0..streams).map(|stream| self.kept(stream)).unzip();
        let mut seen = Seen::new(End::Number(0), vec![]);
        seen.model = Some(ModelSeen { answer: Ok(answer), payload, params, played });
        Some(seen)
    }

    fn ask_control(&mut self, request: &[u8]) -> Vec<u8> {
        let (mut page, mut result) = (vec![FILL; PAGE], [FILL; RESULT_SIZE + MORE]);
        let number = self.entries.model_control(request, &mut page, &mut result);
        let length = u64_at(&result, 0).min(PAGE as u64) as usize;
        let fine = number == 0 && untouched(&result[8..]) && untouched(&page[length..]);
        self.note(fine, "the model refuses, or writes beyond its answer");
        page.truncate(length);
        page
    }

    fn ask_transfer(&mut self, request: &[u8]) -> Vec<u8> {
        let mut answer = [FILL; 8 + MORE];
        let number = self.entries.model_transfer(request, &mut answer);
        self.note(number == 0 && untouched(&answer[8..]), "the model refuses, or writes beyond its status");
        answer[..8].to_vec()
    }

    /// What a transfer shows of its request; of a bad one nothing.
    fn payload(&mut self, request: &[u8]) -> Vec<u8> {
        let mut result = [FILL; RESULT_SIZE + MORE];
        let number = self.entries.model_payload(request, &mut result);
        if number != 0 {
            return vec![];
        }
        let (offset, length) = (u64_at(&result, 0) as usize, u64_at(&result, 8) as usize);
        request.get(offset..offset.saturating_add(length)).map_or(vec![], <[u8]>::to_vec)
    }

    /// A stream's parameters and its count, as the model keeps them.
    fn kept(&mut self, stream: u32) -> (Option<Vec<u8>>, u64) {
        let mut result = [FILL; RESULT_SIZE + MORE];
        let number = self.entries.model_params(stream, &mut result);
        self.note(number == 0 && untouched(&result[32..]), "the model hides parameters, or writes beyond them");
        let params = (u64_at(&result, 0) == 1).then(|| result[8..32].to_vec());
        let mut result = [FILL; RESULT_SIZE + MORE];
        let number = self.entries.model_played(stream, &mut result);
        self.note(number == 0 && untouched(&result[8..]), "the model hides its count, or writes beyond it");
        (params, u64_at(&result, 0))
    }
}

impl<E: Entries> Driver for Host<E> {
    fn step(&mut self, step: &Step) -> Option<Seen> {
        let mut script = Scripted::new(step);
        let mut seen = match step {
            Step::Control { call, .. } => self.control(*call, &mut script),
            Step::Transfer { stream, budget, .. } => self.transfer(*stream, *budget, &mut script),
            Step::Capture { .. } => self.capture(step, &mut script),
            Step::Drain(readings) => self.drain(readings),
            Step::Submit { stream, places, .. } => self.submit(*stream, *places as usize, &mut script),
            Step::Mark(readings) => self.mark(readings),
            Step::Finish(token) => ended(self.entries.xfer_ok(*token), vec![]),
            Step::Event(event) => self.event(event.as_deref().unwrap_or(&[])),
            Step::Counts => self.counts(),
            Step::ModelControl(_) | Step::ModelTransfer(_) if !self.model => return None,
            Step::ModelControl(_) | Step::ModelTransfer(_) => self.ask(step)?,
        };
        for slot in self.in_flight() {
            let [offset, length] = self.read(Asked::Carried(slot as usize));
            seen.in_flight.push((slot as u64, offset, length));
        }
        for (token, state, status) in self.pending() {
            seen.pending.push(token);
            seen.held.push((state, status));
        }
        if !self.places.is_empty() {
            seen.places = digest(DIGEST, &self.places);
        }
        script.tell(&mut seen);
        seen.accepted = std::mem::take(&mut self.accepted);
        seen.stray = std::mem::take(&mut self.stray);
        Some(seen)
    }
    fn inside(&self) -> Option<Inside> {
        self.entries.inside()
    }
}
