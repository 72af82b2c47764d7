//! Request 2026-06, "Start an announcement and go on": each test names the rulings on it by their numbers.
use rules::entries::{self, RESULT_SIZE, RING_SIZE, STATE_SIZE, Store, number};
use rules::life;
use rules::pending::{FREE, MARKED, PLACES, Pending, TOKENS, Token, WAITS};
use rules::ring::{Reading, Ring, Turn};
use rules::sound::{Awaits, Call, Fed, Params, Say, Sound, Value};
use rules::status::Verdict;
use rules::wire::{self, STATUS_OK};

const DONE: Say = Say::Done(Value::Nothing);
const PERIOD: usize = 6;
const PARAMS: Params = Params { buffer: 12, period: PERIOD as u32, features: 0, channels: 2, format: 5, rate: 7 };
/// A place, and the store of 16.
const PLACE: usize = PERIOD + 4;
const STORE: usize = PLACES * PLACE;
const FILL: u8 = 0xb7;

fn token(state: u32, status: u32) -> Token {
    Token { state, status }
}

fn page(status: u32) -> Vec<u8> {
    let mut page = wire::words(&[status]);
    page.resize(4096, 0);
    page
}

fn completed(slot: u32, status: u32) -> Reading {
    Reading::Completed { slot, status }
}

/// All that a submission is handed.
#[derive(Clone, Debug, PartialEq)]
struct Desk {
    sound: Sound,
    ring: Ring,
    stream: u32,
    payload: Vec<u8>,
    places: Vec<u8>,
    message: Vec<u8>,
    result: Vec<u8>,
    /// how much of the two stores is lent
    state_len: usize,
    ring_len: usize,
}

impl Desk {
    /// Under the guard; stream 1 is prepared and has parameters, and everything is good.
    fn good() -> Self {
        let mut sound = Sound::new_guarded([1, 2, 1]);
        let params = Call::SetParams { stream: 1, params: PARAMS };
        let prepare = Call::Command { code: wire::PREPARE, stream: 1 };
        for (call, answers) in [(params, 4), (prepare, 1)] {
            let mut message = [0; 24];
            let mut say = sound.call(&Ring::default(), call, &mut message);
            for _ in 0..answers {
                assert!(matches!(say, Say::Send(_)));
                say = sound.feed(Fed::Page(&page(STATUS_OK)), &mut message);
            }
            assert_eq!(say, DONE);
        }
        let payload = (1..=PERIOD as u8).collect();
        let (places, message, result) = (vec![FILL; STORE], vec![FILL; 24], vec![FILL; RESULT_SIZE]);
        let (state_len, ring_len) = (STATE_SIZE, RING_SIZE);
        Desk { sound, ring: Ring::default(), stream: 1, payload, places, message, result, state_len, ring_len }
    }

    fn submit(&mut self) -> Say {
        self.sound.pcm_xfer_nb(&self.ring, self.stream, &self.payload, &mut self.places, &mut self.message)
    }

    fn enter(&mut self) -> u64 {
        let state = Store { len: self.state_len, value: Some(&mut self.sound) };
        let ring = Store { len: self.ring_len, value: Some(&self.ring) };
        let (places, message, result) = (&mut self.places, &mut self.message, &mut self.result);
        number(entries::pcm_xfer_nb(state, ring, self.stream, &self.payload, places, message, result))
    }

    fn start(&mut self, budget: u64) -> Say {
        self.sound.xfer_start(&mut self.ring, self.stream, 12, budget, &mut self.message)
    }

    fn tokens(&mut self) -> &mut [Token; TOKENS] {
        &mut self.sound.pending.tokens
    }
}

/// A fault by name: what it does to a good desk, and what is then said, as an entry answers it.
type Fault = (&'static str, fn(&mut Desk), u64);

const NO_PARAMS: u64 = 0x8000_0000_0002;
const SET_UP: u64 = 256 + 16;

/// What bars a call: the lengths, the stores' consistency, an exchange, a ring in use.
const FIRST: [Fault; 12] = [
    ("state store", |d| d.state_len -= 1, 10),
    ("ring store", |d| d.ring_len -= 1, 10),
    ("message", |d| d.message.truncate(23), 10),
    ("result", |d| d.result.truncate(RESULT_SIZE - 1), 10),
    ("state", |d| d.sound.reserved[3] = 1, 1),
    ("ring", |d| d.ring.kept = 9, 1),
    ("format", |d| own_params(d, Params { format: 25, ..PARAMS }), 1),
    ("period", |d| own_params(d, Params { buffer: 13, ..PARAMS }), 1),
    ("exchange open", exchange, 8),
    ("transfer runs", |d| assert_eq!(d.ring.start(0, 8, 4, 9), Turn::Going), 8),
    ("slot owed", owes, 8),
    ("no set-up", no_set_up, SET_UP),
];

/// What a transfer and a submission have in common after it.
const STREAM: [Fault; 3] = [
    ("range", |d| d.stream = 2, 1),
    ("guard", |d| d.sound.lives[1] = life::STOPPED, 12),
    ("no parameters", |d| d.sound.params.clear(), NO_PARAMS),
];

/// The submission's own.
const OWN: [Fault; 3] = [
    ("payload", |d| d.payload.push(9), 1),
    ("place", |d| d.places.truncate(STORE - 1), 10),
    ("full", |d| d.tokens()[..PLACES].fill(token(WAITS, 0)), 15),
];

/// Of a stream whose parameters were set: only where they are is there something to damage.
fn own_params(desk: &mut Desk, params: Params) {
    if desk.sound.set_up && !desk.sound.params.is_empty() {
        desk.sound.params.insert(1, params);
    }
}

fn exchange(desk: &mut Desk) {
    let call = Call::Command { code: wire::START, stream: 1 };
    desk.sound.open = Some((if desk.sound.set_up { Awaits::Own } else { Awaits::Table(0) }, call));
}

/// A transfer ended with its slot in flight.
fn owes(desk: &mut Desk) {
    let kept = desk.ring.kept;
    desk.ring = Ring::default();
    assert_eq!(desk.ring.start(0, 8, 4, 1), Turn::Going);
    assert_eq!(desk.ring.turn(8, Reading::Quiet), Turn::ended(9));
    desk.ring.kept = kept;
}

/// As a new state is: no tables, no parameters.
fn no_set_up(desk: &mut Desk) {
    desk.sound.set_up = false;
    desk.sound.tables = Default::default();
    desk.sound.params.clear();
}

/// Faults that do not go together: parameters that are not there cannot be at fault, of a stream out of range they are not looked at.
fn together(one: &str, other: &str) -> bool {
    let damaged = matches!(one, "format" | "period");
    !(damaged && matches!(other, "no set-up" | "no parameters" | "range"))
        && (one, other) != ("format", "period")
        && (one, other) != ("transfer runs", "slot owed")
}

/// Each pair of faults: the first alone is told, and but for a set-up begun nothing changes.
fn ordered(faults: &[Fault], enter: fn(&mut Desk) -> u64) -> usize {
    let mut pairs = 0;
    for (at, (name, make, said)) in faults.iter().enumerate() {
        let others = faults[at + 1..].iter().filter(|other| together(name, other.0));
        for other in [None].into_iter().chain(others.map(Some)) {
            let mut desk = Desk::good();
            if let Some((_, also, _)) = other {
                also(&mut desk);
            }
            make(&mut desk);
            let before = desk.clone();
            assert_eq!(enter(&mut desk), *said, "{name}, and {:?}", other.map(|other| other.0));
            if *said != SET_UP {
                assert_eq!(desk, before, "{name} changes nothing");
            }
            assert_eq!((&desk.places, &desk.result), (&before.places, &before.result));
            assert_eq!(desk.sound.pending, before.sound.pending);
            pairs += 1;
        }
    }
    pairs
}

#[test]
fn ruling_7_the_order_of_a_submission() {
    let faults = [&FIRST[..], &STREAM, &OWN].concat();
    assert_eq!(faults.len(), 18);
    // 18 alone, 153 pairs, of which eight do not go together
    assert_eq!(ordered(&faults, Desk::enter), 18 + 153 - 8);
    let mut desk = Desk::good();
    assert_eq!(desk.enter(), 0);
    assert_eq!((&desk.result[..8], &desk.result[8..]), (&[0; 8][..], &[FILL; RESULT_SIZE - 8][..]));
}

#[test]
fn ruling_7_the_same_by_value() {
    let by_value = |desk: &mut Desk| match desk.submit() {
        Say::Refused(why) => why.answer(),
        Say::Send(n) => 256 + n as u64,
        say => panic!("{say:?}"),
    };
    // the lengths of stores and result are the entry's alone
    let faults: Vec<Fault> = [&FIRST[..], &STREAM, &OWN]
        .concat()
        .into_iter()
        .filter(|f| !f.0.contains("store") && f.0 != "result")
        .collect();
    assert_eq!(ordered(&faults, by_value), 15 + 105 - 8);
}

#[test]
fn ruling_10_the_order_of_a_transfers_start() {
    fn start(desk: &mut Desk) -> u64 {
        let state = Store { len: desk.state_len, value: Some(&mut desk.sound) };
        let ring = Store { len: desk.ring_len, value: Some(&mut desk.ring) };
        number(entries::xfer_start(state, ring, desk.stream, 12, 0, &mut desk.message))
    }
    let pending: [Fault; 2] = [
        ("one waits", |d| d.tokens()[3] = token(WAITS, 0), 8),
        ("one is marked", |d| d.tokens()[15] = token(MARKED, STATUS_OK), 8),
    ];
    // it has no result slice; what is pending is Busy, before set-up and all that follows
    let first: Vec<Fault> = FIRST.into_iter().filter(|fault| fault.0 != "result").collect();
    let faults = [&first[..10], &pending, &first[10..], &STREAM].concat();
    assert_eq!(ordered(&faults, start), 16 + 120 - 8);
    assert_eq!(start(&mut Desk::good()), 9);
    assert_eq!(Desk::good().start(1), Say::Going);
}

#[test]
fn ruling_10_any_token_of_the_table_bars_a_transfer() {
    for at in 0..TOKENS {
        for state in [WAITS, MARKED, 3, u32::MAX] {
            let mut desk = Desk::good();
            desk.tokens()[at] = token(state, STATUS_OK);
            let before = desk.clone();
            assert_eq!((desk.start(9), &desk), (Say::refused(8), &before));
        }
        // a status alone is none
        let mut desk = Desk::good();
        desk.tokens()[at] = token(FREE, 0x8001);
        assert_eq!(desk.start(9), Say::Going);
    }
}

#[test]
fn rulings_4_5_and_6_what_is_copied() {
    for more in [0, 1, 15, 16, 40] {
        let mut desk = Desk::good();
        desk.places = vec![FILL; STORE + more];
        let place = (STORE + more) / PLACES;
        let mut expected = desk.places.clone();
        for k in 0..PLACES {
            desk.payload = vec![k as u8; PERIOD];
            assert_eq!(desk.submit(), Say::Done(Value::Token(k)));
            expected[k * place..][..PLACE].copy_from_slice(&[vec![1, 0, 0, 0], vec![k as u8; PERIOD]].concat());
            assert_eq!(desk.places, expected, "and no other byte of the store");
            assert_eq!(desk.message, [FILL; 24]);
            assert_eq!(desk.sound.pending.count(), k + 1);
        }
        // 15: exactly if 16 are pending
        assert_eq!(desk.submit(), Say::refused(15));
        // the lowest free
        for k in [9, 4, 12] {
            assert_eq!(desk.sound.pcm_xfer_mark(completed(k, STATUS_OK)), 0);
            assert_eq!(desk.submit(), Say::refused(15), "a marked one is pending");
        }
        for k in [9, 4, 12] {
            assert_eq!(desk.sound.pcm_xfer_ok(k), 0.into());
        }
        for k in [4, 9, 12] {
            assert_eq!(desk.submit(), Say::Done(Value::Token(k)));
        }
    }
}

#[test]
fn ruling_4_stores_that_have_no_place() {
    for length in (0..STORE).step_by(7).chain([15, STORE - 1]) {
        let mut desk = Desk::good();
        desk.places = vec![FILL; length];
        let before = desk.clone();
        assert_eq!((desk.submit(), &desk), (Say::refused(10), &before));
    }
    // the largest period there is does not wrap
    let mut desk = Desk::good();
    desk.sound.params.insert(1, Params { buffer: u32::MAX, period: u32::MAX, ..PARAMS });
    assert_eq!(desk.submit(), Say::refused(1));
}

#[test]
fn rulings_3_and_15_tokens_past_the_places() {
    // no call leaves them taken; they count as pending, and no submission takes them
    let mut desk = Desk::good();
    desk.tokens()[PLACES..].fill(token(WAITS, 0));
    assert_eq!(desk.sound.pending_count(), Ok(16));
    assert_eq!(desk.submit(), Say::Done(Value::Token(0)));
    desk.tokens()[..PLACES].fill(token(WAITS, 0));
    desk.tokens()[PLACES..].fill(token(FREE, 0));
    assert_eq!(desk.submit(), Say::refused(15));
    desk.tokens()[31] = token(WAITS, 0);
    assert_eq!(desk.sound.pcm_xfer_ok(31), 16.into());
    assert_eq!(desk.sound.pcm_xfer_mark(completed(31, 0)), 0);
    assert_eq!(desk.sound.pcm_xfer_ok(31), Verdict::by(2, 0));
}

#[test]
fn rulings_8_and_11_what_is_pending_bars_no_submission_and_no_control_call() {
    let mut desk = Desk::good();
    assert_eq!(desk.submit(), Say::Done(Value::Token(0)));
    let places = desk.places.clone();
    let set = Call::SetParams { stream: 0, params: Params { period: 12, ..PARAMS } };
    for call in [set, Call::Command { code: wire::START, stream: 1 }] {
        assert!(matches!(desk.sound.call(&desk.ring, call, &mut desk.message), Say::Send(_)));
        let pending = desk.sound.pending;
        // 8: an exchange does
        assert_eq!(desk.submit(), Say::refused(8));
        assert_eq!(desk.sound.feed(Fed::Page(&page(STATUS_OK)), &mut desk.message), DONE);
        assert_eq!(desk.sound.pending, pending);
    }
    assert_eq!((desk.submit(), desk.submit()), (Say::Done(Value::Token(1)), Say::Done(Value::Token(2))));
    // 11: new parameters are for the next submission, what is pending keeps its bytes
    desk.sound.params.insert(1, Params { period: 4, ..PARAMS });
    assert_eq!(desk.submit(), Say::refused(1));
    desk.payload.truncate(4);
    assert_eq!(desk.submit(), Say::Done(Value::Token(3)));
    assert_eq!(desk.places[..PLACE], places[..PLACE]);
}

#[test]
fn ruling_9_a_submission_that_begins_set_up_ends_at_a_feed() {
    let ends: [(&[u32], u32, bool, Say); 6] = [
        (&[STATUS_OK; 3], 1, false, Say::refused(2)),
        (&[0x8001, STATUS_OK, 0x8001], 1, false, Say::refused(2)),
        (&[STATUS_OK; 3], 2, false, Say::refused(1)),
        (&[STATUS_OK; 3], 1, true, Say::refused(12)),
        (&[STATUS_OK; 3], 2, true, Say::refused(1)),
        (&[STATUS_OK, 0x8003], 1, true, Say::refused_by(2, 0x8003)),
    ];
    for (statuses, stream, guard, last) in ends {
        let sound = if guard { Sound::new_guarded([1, 2, 1]) } else { Sound::new([1, 2, 1]) };
        // neither payload nor places are judged
        let mut desk = Desk { sound, stream, payload: vec![], places: vec![], ..Desk::good() };
        let mut say = desk.submit();
        assert_eq!(desk.sound.open, Some((Awaits::Table(0), Call::Transfer(stream))));
        assert_eq!(desk.message[..16], wire::query(0, 1));
        for status in statuses {
            assert_eq!(say, Say::Send(16));
            say = desk.sound.feed(Fed::Page(&page(*status)), &mut desk.message);
        }
        assert_eq!((say, desk.sound.pending), (last, Pending::default()));
        assert_eq!(desk.sound.set_up, statuses.len() == 3);
    }
}

#[test]
fn ruling_19_the_guard_and_the_direction() {
    for (life, taken) in
        [(life::SET, false), (1, true), (life::RELEASED, false), (life::STARTED, true), (4, false), (5, false)]
    {
        let mut desk = Desk::good();
        desk.sound.lives[1] = life;
        for direction in [0, 1, 7] {
            desk.sound.tables[1][1][24] = direction;
            let mut tried = desk.clone();
            assert_eq!(tried.submit(), if taken { Say::Done(Value::Token(0)) } else { Say::refused(12) });
        }
        desk.sound.guard = false;
        assert_eq!(desk.submit(), Say::Done(Value::Token(0)));
    }
    let mut desk = Desk::good();
    desk.payload.clear();
    assert_eq!(desk.submit(), Say::refused(1));
}

/// Tokens 0 and 1 wait, 2 is marked ok, 3 is marked not ok.
fn table() -> Desk {
    let mut desk = Desk::good();
    desk.tokens()[..4].copy_from_slice(&[
        token(WAITS, 0),
        token(WAITS, 0),
        token(MARKED, STATUS_OK),
        token(MARKED, 0x8002),
    ]);
    desk
}

#[test]
fn ruling_13_marks() {
    for status in [STATUS_OK, 0x8001, 0, u32::MAX] {
        // pending and not marked yet: Ok whatever the status is
        let mut desk = table();
        let mut expected = desk.sound.clone();
        expected.pending.tokens[1] = token(MARKED, status);
        assert_eq!((desk.sound.pcm_xfer_mark(completed(1, status)), &desk.sound), (0, &expected));
        // twice: the first status stays
        assert_eq!((desk.sound.pcm_xfer_mark(completed(1, 0x8003)), &desk.sound), (6, &expected));
        for wrong in [2, 3, 4, 15, 16, 31, 32, 99, 1 << 16, u32::MAX] {
            assert_eq!((desk.sound.pcm_xfer_mark(completed(wrong, status)), &desk.sound), (6, &expected));
        }
        assert_eq!((desk.sound.pcm_xfer_mark(Reading::Quiet), &desk.sound), (0, &expected));
    }
}

#[test]
fn ruling_14_finishes() {
    let mut desk = table();
    let before = desk.sound.clone();
    for (number, said) in [(0, 16), (1, 16), (4, 6), (15, 6), (16, 6), (31, 6), (32, 6), (99, 6), (u32::MAX, 6)] {
        assert_eq!((desk.sound.pcm_xfer_ok(number), &desk.sound), (Verdict::from(said), &before));
    }
    // in any order, and both free
    assert_eq!(desk.sound.pcm_xfer_ok(3), Verdict::by(2, 0x8002));
    assert_eq!(desk.sound.pcm_xfer_ok(2), 0.into());
    assert_eq!(desk.sound.pending.tokens[2..], [token(FREE, 0); TOKENS - 2]);
    assert_eq!((desk.sound.pcm_xfer_ok(3), desk.sound.pcm_xfer_ok(2)), (6.into(), 6.into()));
    for status in [0, 0x8001, 0x8002, 0x8003, 0x8004, u32::MAX] {
        assert_eq!(desk.sound.pcm_xfer_mark(completed(0, status)), 0);
        assert_eq!(desk.sound.pcm_xfer_ok(0), Verdict::by(2, status));
        assert_eq!(desk.submit(), Say::Done(Value::Token(0)));
    }
}

#[test]
fn ruling_3_any_other_number_is_marked() {
    for state in [2, 3, 256, u32::MAX] {
        let mut desk = Desk::good();
        desk.tokens()[5] = token(state, 0x8003);
        assert_eq!(desk.sound.pending_token(5), Ok((2, 0x8003)));
        assert_eq!(desk.sound.pcm_xfer_mark(completed(5, STATUS_OK)), 6);
        assert_eq!(desk.sound.pending.tokens[5], token(state, 0x8003));
        assert_eq!(desk.sound.pcm_xfer_ok(5), Verdict::by(2, 0x8003));
        assert_eq!(desk.sound.pending, Pending::default());
    }
}

/// The four entries over a state alone, token 3 or the reading of it: what each answers, and the result.
fn four(sound: &mut Sound, state_len: usize, result_len: usize, token: u32) -> [(u64, Vec<u8>); 4] {
    let mut result = [vec![FILL; result_len], vec![FILL; result_len]];
    let count = number(entries::pending_count(Store { len: state_len, value: Some(&*sound) }, &mut result[0]));
    let one = Store { len: state_len, value: Some(&*sound) };
    let one = number(entries::pending_token(one, token as usize, &mut result[1]));
    let mark = Store { len: state_len, value: Some(&mut *sound) };
    let mark = number(entries::pcm_xfer_mark(mark, completed(token, 0x8001)));
    let ok = number(entries::pcm_xfer_ok(Store { len: state_len, value: Some(sound) }, token));
    let [first, second] = result;
    [(mark, vec![]), (ok, vec![]), (count, first), (one, second)]
}

#[test]
fn ruling_12_the_order_at_the_entries() {
    let numbers = |sound: &mut Sound, state: usize, result: usize, token: u32| {
        four(sound, state, result, token).map(|(answer, _)| answer)
    };
    let good = table().sound;
    let mut spoilt = good.clone();
    spoilt.reserved[7] = 9;
    for before in [&good, &spoilt] {
        for token in [0, 4, 32, u32::MAX] {
            let mut sound = before.clone();
            assert_eq!(numbers(&mut sound, STATE_SIZE - 1, RESULT_SIZE, token), [10; 4]);
            assert_eq!(numbers(&mut sound, 0, 0, token), [10; 4]);
            assert_eq!(&sound, before);
        }
    }
    // 1 before 6 and 16, also of a quiet reading
    for token in [0, 2, 4, 32] {
        let mut sound = spoilt.clone();
        assert_eq!(numbers(&mut sound, STATE_SIZE, RESULT_SIZE, token), [1; 4]);
        assert_eq!((sound.pcm_xfer_mark(Reading::Quiet), &sound), (1, &spoilt));
    }
    // a short result is 10 for the two that have one, also for a token that is none
    let mut sound = good.clone();
    assert_eq!(numbers(&mut sound, STATE_SIZE, RESULT_SIZE - 1, 32), [6, 6, 10, 10]);
    assert_eq!(numbers(&mut sound, STATE_SIZE, RESULT_SIZE, 32), [6, 6, 0, 1]);
    assert_eq!(numbers(&mut sound, STATE_SIZE, RESULT_SIZE, u32::MAX), [6, 6, 0, 1]);
    assert_eq!(numbers(&mut sound, STATE_SIZE, RESULT_SIZE, 31), [6, 6, 0, 0]);
    assert_eq!(sound, good);
    // a mark, and the finish of what it marked
    assert_eq!(numbers(&mut sound, STATE_SIZE, RESULT_SIZE, 1), [0, 0x8001_0000_0002, 0, 0]);
    assert_eq!(numbers(&mut sound, STATE_SIZE, RESULT_SIZE, 3), [6, 0x8002_0000_0002, 0, 0]);
    let nobody = Store { len: STATE_SIZE, value: None::<&Sound> };
    assert_eq!(number(entries::pending_count(nobody, &mut [0; RESULT_SIZE])), 1);
}

#[test]
fn ruling_12_no_set_up_and_never_busy() {
    let mut sound = Sound::new([1, 2, 1]);
    assert_eq!((sound.pcm_xfer_mark(completed(0, STATUS_OK)), sound.pcm_xfer_ok(0)), (6, 6.into()));
    assert_eq!((sound.pending_count(), sound.pending_token(0)), (Ok(0), Ok((0, 0))));
    assert_eq!(sound, Sound::new([1, 2, 1]));
    let mut desk = table();
    assert!(matches!(
        desk.sound.call(&desk.ring, Call::Command { code: wire::START, stream: 1 }, &mut desk.message),
        Say::Send(8)
    ));
    let open = desk.sound.open;
    assert_eq!(desk.sound.pcm_xfer_mark(completed(0, STATUS_OK)), 0);
    assert_eq!((desk.sound.pcm_xfer_ok(0), desk.sound.pcm_xfer_ok(1)), (0.into(), 16.into()));
    assert_eq!((desk.sound.pending_count(), desk.sound.open), (Ok(3), open));
}

#[test]
fn the_two_reads() {
    let mut desk = table();
    desk.tokens()[20] = token(FREE, 7);
    desk.tokens()[21] = token(WAITS, 8);
    let told = [(0, 1, 0), (2, 2, STATUS_OK), (3, 2, 0x8002), (4, 0, 0), (20, 0, 0), (21, 1, 0), (31, 0, 0)];
    for (at, state, status) in told {
        let mut result = vec![FILL; RESULT_SIZE + 3];
        let store = Store { len: STATE_SIZE, value: Some(&desk.sound) };
        assert_eq!(number(entries::pending_token(store, at, &mut result)), 0);
        assert_eq!(result[..16], wire::words(&[state, 0, status, 0]));
        assert!(result[16..].iter().all(|byte| *byte == FILL));
    }
    let [.., (answer, result), _] = four(&mut desk.sound, STATE_SIZE, RESULT_SIZE, 32);
    assert_eq!((answer, &result[..9]), (0, &[5, 0, 0, 0, 0, 0, 0, 0, FILL][..]));
}

#[test]
fn the_store_ends_with_the_tokens() {
    assert_eq!((entries::TOKENS, STATE_SIZE), (14447, 14447 + 32 * 8));
    let mut desk = table();
    desk.tokens()[31] = token(0x0403_0201, 0x0807_0605);
    let bytes = desk.sound.pending.bytes();
    assert_eq!(
        (bytes.len(), &bytes[24..32], &bytes[248..]),
        (256, &[2, 0, 0, 0, 2, 0x80, 0, 0][..], &[1, 2, 3, 4, 5, 6, 7, 8][..])
    );
    assert_eq!(Pending::read(&bytes), desk.sound.pending);
    assert_eq!(Sound::new_guarded([9, 9, 9]).pending.bytes(), [0; 256]);
}

/// A small generator (splitmix64), so that every run is the same.
struct Dice(u64);

impl Dice {
    fn below(&mut self, bound: u64) -> u64 {
        self.0 = self.0.wrapping_add(0x9E37_79B9_7F4A_7C15);
        let z = (self.0 ^ (self.0 >> 30)).wrapping_mul(0xBF58_476D_1CE4_E5B9);
        let z = (z ^ (z >> 27)).wrapping_mul(0x94D0_49BB_1331_11EB);
        (z ^ (z >> 31)) % bound
    }
}

/// Over any sequence: what was submitted and not finished, each with its bytes, and what it was completed with.
#[test]
fn what_is_pending_is_what_was_submitted_and_not_finished() {
    let mut seen = std::collections::BTreeSet::new();
    for seed in 0..40 {
        let (mut dice, mut desk) = (Dice(seed), Desk::good());
        let mut kept: Vec<(usize, Vec<u8>, Option<u32>)> = vec![];
        for _ in 0..300 {
            let number = dice.below(18) as u32;
            let at = kept.iter().position(|(k, ..)| *k == number as usize);
            match dice.below(7) {
                0..=2 => {
                    desk.payload = (0..PERIOD).map(|_| dice.below(256) as u8).collect();
                    let free = (0..PLACES).find(|k| kept.iter().all(|(taken, ..)| taken != k));
                    let said = free.map_or(Say::refused(15), |k| Say::Done(Value::Token(k)));
                    assert_eq!(desk.submit(), said);
                    seen.insert(if free.is_some() { 0 } else { 15 });
                    kept.extend(free.map(|k| (k, [&[1, 0, 0, 0], &desk.payload[..]].concat(), None)));
                }
                3 | 4 => {
                    let status = [STATUS_OK, 0x8003][dice.below(2) as usize];
                    let first = at.filter(|at| kept[*at].2.is_none());
                    let said = if first.is_some() { 0 } else { 6 };
                    assert_eq!(desk.sound.pcm_xfer_mark(completed(number, status)), said);
                    if let Some(at) = first {
                        kept[at].2 = Some(status);
                    }
                }
                5 => {
                    let said = match at.map(|at| kept[at].2) {
                        None => 6.into(),
                        Some(None) => 16.into(),
                        Some(Some(STATUS_OK)) => 0.into(),
                        Some(Some(status)) => Verdict::by(2, status),
                    };
                    assert_eq!(desk.sound.pcm_xfer_ok(number), said);
                    seen.insert(said.number);
                    if matches!(said.number, 0 | 2) {
                        kept.remove(at.unwrap());
                    }
                }
                _ => {
                    let mut tried = desk.clone();
                    let said = if kept.is_empty() { Say::Going } else { Say::refused(8) };
                    assert_eq!(tried.start(9), said);
                }
            }
            assert_eq!(desk.sound.pending_count(), Ok(kept.len() as u64));
            for (k, bytes, status) in &kept {
                assert_eq!(desk.places[k * PLACE..][..PLACE], bytes[..]);
                assert_eq!(desk.sound.pending_token(*k), Ok(status.map_or((1, 0), |status| (2, status.into()))));
            }
        }
    }
    assert_eq!(seen, [0, 2, 6, 15, 16].into());
}
