//! Request 2026-09, "Microphones": each test names the rulings on it by their numbers.
use rules::capture::Heard;
use rules::entries::{self, Asked, RESULT_SIZE, RING_SIZE, STATE_SIZE, Store, number};
use rules::pending::{Token, WAITS};
use rules::ring::{Reading, Ring, Turn};
use rules::sound::{Awaits, Call, Fed, Params, Say, Sound, Value};
use rules::status::Verdict;
use rules::wire::{self, STATUS_OK, u64_at};
use rules::{
    BAD_CAPTURE, BAD_LENGTH, BAD_STATE, BUSY, INVALID_PARAM, IO_ERROR, OK, OUT_OF_TURNS, TOO_MANY, WRONG_TOKEN, life,
};

const PERIOD: u64 = 6;
/// What the device may write into: a period and the status.
const WHOLE: u32 = PERIOD as u32 + 8;
const PARAMS: Params = Params { buffer: 12, period: PERIOD as u32, features: 0, channels: 2, format: 5, rate: 7 };
const FILL: u8 = 0xb7;

/// A device's bytes: a payload of so many bytes that are told apart by a seed, the status, a latency.
fn wrote(payload: usize, seed: u8, status: u32) -> Vec<u8> {
    let payload = (0..payload as u8).map(|at| seed.wrapping_mul(16).wrapping_add(at));
    payload.chain(wire::words(&[status, 0xdead_beef])).collect()
}

fn heard(slot: u32, bytes: &[u8]) -> Heard<'_> {
    Heard::Completed { slot, written: bytes.len() as u32, bytes }
}

/// A page of streams whose directions are these; the header says ok.
fn page(directions: &[u8]) -> Vec<u8> {
    let mut page = wire::words(&[STATUS_OK]);
    for direction in directions {
        let mut record = vec![0; wire::PCM];
        record[wire::DIRECTION] = *direction;
        page.extend(record);
    }
    page.resize(4096, 0);
    page
}

fn fed(sound: &mut Sound, mut say: Say, directions: &[u8]) -> Say {
    let mut message = [0; 24];
    while let Say::Send(_) = say {
        say = sound.feed(Fed::Page(&page(directions)), &mut message);
    }
    say
}

/// All that a capture is handed.
#[derive(Clone, Debug, PartialEq)]
struct Desk {
    sound: Sound,
    ring: Ring,
    stream: u32,
    periods: u64,
    recording: Vec<u8>,
    budget: u64,
    message: Vec<u8>,
}

impl Desk {
    /// Under the guard; stream 1 is of direction 1, prepared, with parameters; three periods are asked for, and everything is good.
    fn good() -> Self {
        let mut sound = Sound::new_guarded([1, 3, 1]);
        let prepare = Call::Command { code: wire::PREPARE, stream: 1 };
        for call in [Call::SetParams { stream: 1, params: PARAMS }, prepare] {
            let say = sound.call(&Ring::default(), call, &mut [0; 24]);
            assert_eq!(fed(&mut sound, say, &[0, 1, 2]), Say::Done(Value::Nothing));
        }
        let (recording, message) = (vec![FILL; 3 * PERIOD as usize + 2], vec![FILL; 24]);
        Desk { sound, ring: Ring::default(), stream: 1, periods: 3, recording, budget: 20, message }
    }

    fn start(&mut self) -> Say {
        let lent = self.recording.len() as u64;
        self.sound.capture_start(&mut self.ring, self.stream, self.periods, lent, self.budget, &mut self.message)
    }

    /// One that has begun.
    fn running() -> Self {
        let mut desk = Desk::good();
        assert_eq!(desk.start(), Say::Going);
        desk
    }

    fn turn(&mut self, heard: Heard) -> Turn {
        self.ring.capture_turn(&mut self.recording, heard)
    }

    /// The recording is these bytes, and what stood behind them.
    fn holds(&self, joined: &[u8]) -> bool {
        let (front, rest) = self.recording.split_at(joined.len());
        self.ring.kept == joined.len() as u64 && front == joined && rest.iter().all(|byte| *byte == FILL)
    }
}

fn caused(status: u32) -> Turn {
    Turn::Ended(Verdict::by(IO_ERROR, status))
}

#[test]
fn rulings_1_and_9_payloads_are_joined() {
    let mut desk = Desk::running();
    for seed in 0..3 {
        let offer = desk.ring.capture_offered(20).unwrap().unwrap();
        assert_eq!((offer.slot, offer.length), (seed.into(), PERIOD));
        assert_eq!(desk.turn(heard(seed.into(), &wrote(6, seed, STATUS_OK))), Turn::Going);
    }
    assert_eq!(desk.ring.capture_offered(20), Ok(None));
    // that turn does not look
    assert_eq!(desk.turn(heard(99, &[])), Turn::ended(OK));
    let joined = [0, 1, 2, 3, 4, 5, 16, 17, 18, 19, 20, 21, 32, 33, 34, 35, 36, 37];
    assert!(desk.holds(&joined));
    assert_eq!((desk.ring.turns, desk.ring.running, desk.ring.in_flight), (4, false, 0));
}

#[test]
fn ruling_8_written_lengths() {
    for (written, good) in [(0, false), (7, false), (8, true), (9, true), (WHOLE - 1, true), (WHOLE, true)] {
        let bytes = wrote(PERIOD as usize, 3, STATUS_OK);
        let mut bytes = bytes[..6.min(written.saturating_sub(8) as usize)].to_vec();
        bytes.extend(&wire::words(&[STATUS_OK, 0])[..written.min(8) as usize]);
        assert_eq!(bytes.len(), written as usize);
        let mut desk = Desk::running();
        let said = desk.turn(heard(0, &bytes));
        assert_eq!(said, if good { Turn::Going } else { Turn::ended(BAD_CAPTURE) }, "{written}");
        let joined: Vec<u8> = (48..48 + written.saturating_sub(8) as u8).collect();
        assert!(desk.holds(if good { &joined } else { &[] }), "{written}");
        // the slot is freed whatever was said
        assert_eq!((desk.ring.in_flight, desk.ring.tail, desk.ring.turns), (0, 1, 1));
    }
}

#[test]
fn rulings_6_and_7_a_device_that_claims_more_than_its_buffer() {
    for written in [WHOLE + 1, WHOLE + 2, 1 << 31, u32::MAX] {
        // a whole buffer is all that a host can lend; with more of it nothing else is said
        for lent in [WHOLE, WHOLE + 1, 40] {
            let (mut desk, bytes) = (Desk::running(), vec![1; lent as usize]);
            let said = desk.turn(Heard::Completed { slot: 0, written, bytes: &bytes });
            assert_eq!(said, Turn::ended(BAD_CAPTURE));
            assert!(desk.holds(&[]));
        }
        let (mut desk, bytes) = (Desk::running(), vec![1; WHOLE as usize - 1]);
        let before = desk.clone();
        assert_eq!(desk.turn(Heard::Completed { slot: 0, written, bytes: &bytes }), Turn::ended(BAD_LENGTH));
        assert_eq!(desk, before);
    }
}

#[test]
fn ruling_7_fewer_bytes_than_were_written_run_no_turn() {
    let bytes = wrote(6, 1, STATUS_OK);
    for written in 1..=WHOLE {
        for lent in 0..=WHOLE {
            let mut desk = Desk::running();
            let before = desk.clone();
            // also for a slot that is none
            for slot in [0, 5] {
                let said = desk.turn(Heard::Completed { slot, written, bytes: &bytes[..lent as usize] });
                assert_eq!(said == Turn::ended(BAD_LENGTH), lent < written);
                assert_eq!(desk == before, lent < written);
                desk = before.clone();
            }
        }
    }
    // nothing written: nothing need be lent
    assert_eq!(Desk::running().turn(heard(0, &[])), Turn::ended(BAD_CAPTURE));
}

#[test]
fn ruling_6_the_status_stands_behind_what_was_written() {
    // a short payload; the bytes where the status of a whole one would stand say ok, those at the front too
    let mut bytes = wire::words(&[STATUS_OK]);
    bytes.extend(wire::words(&[0x8003, 0]));
    bytes.extend(wire::words(&[STATUS_OK, STATUS_OK]));
    let mut desk = Desk::running();
    assert_eq!(desk.turn(Heard::Completed { slot: 0, written: 12, bytes: &bytes }), caused(0x8003));
    assert!(desk.holds(&[]));
    // and the other way
    let mut bytes = wire::words(&[0x8003, STATUS_OK, 0x8003, 0x8003]);
    bytes.push(0);
    let mut desk = Desk::running();
    assert_eq!(desk.turn(Heard::Completed { slot: 0, written: 12, bytes: &bytes }), Turn::Going);
    assert!(desk.holds(&0x8003u32.to_le_bytes()));
}

#[test]
fn ruling_9_short_payloads_leave_no_gap() {
    let mut desk = Desk::running();
    for (seed, length) in [(0, 2), (1, 0), (2, 6)] {
        assert_eq!(desk.turn(heard(seed.into(), &wrote(length, seed, STATUS_OK))), Turn::Going);
    }
    assert_eq!(desk.turn(Heard::Quiet), Turn::ended(OK));
    assert!(desk.holds(&[0, 1, 32, 33, 34, 35, 36, 37]));
}

#[test]
fn ruling_8_a_bad_status_accepts_nothing_and_frees_the_slot() {
    for status in [0x8001, 0x8002, 0x8003, 0, 0x7fff, u32::MAX, 0x0001_8000] {
        let mut desk = Desk::running();
        assert_eq!(desk.turn(Heard::Quiet), Turn::Going);
        assert_eq!(desk.turn(heard(0, &wrote(3, 1, STATUS_OK))), Turn::Going);
        assert_eq!(desk.turn(heard(1, &wrote(4, 2, status))), caused(status));
        assert!(desk.holds(&[16, 17, 18]));
        // the third is owed
        assert_eq!((desk.ring.running, desk.ring.in_flight, desk.ring.tail), (false, 1, 2));
    }
}

#[test]
fn ruling_8_six_comes_before_17_and_17_before_2() {
    let short = wrote(0, 0, 0x8003);
    for (slot, written, said) in [
        (5, 7, Turn::ended(WRONG_TOKEN)),
        (0, 7, Turn::ended(BAD_CAPTURE)),
        (0, 8, caused(0x8003)),
        (32, 8, Turn::ended(WRONG_TOKEN)),
        (u32::MAX, 8, Turn::ended(WRONG_TOKEN)),
    ] {
        let mut desk = Desk::running();
        assert_eq!(desk.turn(Heard::Completed { slot, written, bytes: &short[..written as usize] }), said);
        assert!(desk.holds(&[]));
        // a wrong token frees nothing
        let owed = u64::from(said == Turn::ended(WRONG_TOKEN));
        assert_eq!((desk.ring.running, desk.ring.in_flight, desk.ring.turns), (false, owed, 1));
    }
    // with no period the turn ends before it looks
    let mut desk = Desk { periods: 0, ..Desk::good() };
    assert_eq!((desk.start(), desk.turn(heard(0, &short))), (Say::Going, Turn::ended(OK)));
}

#[test]
fn ruling_11_ok_quiet_and_out_of_turns_are_playbacks() {
    // no period at all: Ok on turn 1
    let mut desk = Desk { periods: 0, recording: vec![], ..Desk::good() };
    assert_eq!((desk.start(), desk.turn(Heard::Quiet)), (Say::Going, Turn::ended(OK)));
    // 11 periods, all quiet, budget 12: answer 9, 10 in flight
    let mut desk = Desk { periods: 11, recording: vec![FILL; 66], budget: 12, ..Desk::good() };
    assert_eq!(desk.start(), Say::Going);
    assert!((0..11).all(|_| desk.turn(Heard::Quiet) == Turn::Going));
    assert_eq!(desk.turn(Heard::Quiet), Turn::ended(OUT_OF_TURNS));
    assert_eq!((desk.ring.in_flight, desk.ring.turns), (10, 12));
    // the last turn accepts, and is out of turns
    let mut desk = Desk { budget: 1, ..Desk::good() };
    assert_eq!(desk.start(), Say::Going);
    assert_eq!(desk.turn(heard(0, &wrote(2, 1, STATUS_OK))), Turn::ended(OUT_OF_TURNS));
    assert!(desk.holds(&[16, 17]));
}

/// A capture moves the ring as the playback of as many bytes does, whatever was written, if it is good.
#[test]
fn ruling_12_the_same_turns_as_a_playback() {
    for script in 0..3u32.pow(7) {
        let mut desk = Desk { periods: 4, recording: vec![FILL; 24], budget: 7, ..Desk::good() };
        let mut playback = Ring::default();
        assert_eq!((desk.start(), playback.start(1, 24, PERIOD, 7)), (Say::Going, Turn::Going));
        for at in 0..7 {
            let (offer, played) = (desk.ring.capture_offered(24), playback.offered(24));
            assert_eq!(offer, played);
            let slot = desk.ring.tail as u32;
            let bytes = wrote(at % 7, at as u8, STATUS_OK);
            let (said, other) = match script / 3u32.pow(at as u32) % 3 {
                0 => (desk.turn(Heard::Quiet), playback.turn(24, Reading::Quiet)),
                kind => {
                    let slot = if kind == 1 { slot } else { slot + 1 };
                    let reading = Reading::Completed { slot, status: STATUS_OK };
                    (desk.turn(heard(slot, &bytes)), playback.turn(24, reading))
                }
            };
            assert_eq!(said, other);
            let kept = desk.ring.kept;
            assert_eq!(Ring { way: playback.way, kept: 0, ..desk.ring.clone() }, playback);
            assert!(kept <= 24);
            if said != Turn::Going {
                break;
            }
        }
    }
}

#[test]
fn ruling_2_recordings_around_n_periods() {
    for periods in [0u64, 1, 2, 3, 17] {
        let need = periods * PERIOD;
        for length in [need, need + 1, need + 50] {
            let mut desk = Desk { periods, recording: vec![FILL; length as usize], ..Desk::good() };
            assert_eq!(desk.start(), Say::Going);
            assert_eq!((desk.ring.lent, desk.ring.kept, desk.ring.frames_len), (length, 0, need));
        }
        if need > 0 {
            let mut desk = Desk { periods, recording: vec![FILL; need as usize - 1], ..Desk::good() };
            let before = desk.clone();
            assert_eq!(desk.start(), Say::refused(BAD_LENGTH));
            assert_eq!(desk, before);
        }
    }
    // computed wide: (2^64 + 2) / 6 periods are 2 bytes where it wraps
    for periods in [u64::MAX, u64::MAX / 6 + 1, 1 << 63] {
        assert_eq!(Desk { periods, ..Desk::good() }.start(), Say::refused(BAD_LENGTH));
    }
}

/// Each fault in the order of the tests, alone and with each that comes later: its number is said, and nothing changes.
#[test]
fn ruling_2_the_order_of_refusals() {
    type Fault = (u8, fn(&mut Desk));
    let faults: [Fault; 13] = [
        (BAD_LENGTH, |desk| desk.message.truncate(23)),
        (INVALID_PARAM, |desk| desk.sound.reserved[3] = 1),
        (INVALID_PARAM, |desk| desk.ring.tail = 32),
        (INVALID_PARAM, |desk| desk.ring.kept = 1),
        (INVALID_PARAM, |desk| _ = desk.sound.params.insert(1, Params { period: 5, ..PARAMS })),
        (BUSY, |desk| (desk.ring.head, desk.ring.in_flight) = (1, 1)),
        (BUSY, |desk| desk.sound.pending.tokens[4] = Token { state: WAITS, status: 0 }),
        (INVALID_PARAM, |desk| desk.stream = 3),
        (BAD_STATE, |desk| desk.sound.lives[1] = life::SET),
        (INVALID_PARAM, |desk| desk.sound.tables[1][1][wire::DIRECTION] = 0),
        (IO_ERROR, |desk| _ = desk.sound.params.remove(&1)),
        (OUT_OF_TURNS, |desk| desk.budget = 0),
        (BAD_LENGTH, |desk| desk.recording.truncate(17)),
    ];
    for (at, (number, fault)) in faults.into_iter().enumerate() {
        for (_, later) in &faults[at..] {
            let mut desk = Desk::good();
            later(&mut desk);
            fault(&mut desk);
            let before = desk.clone();
            assert_eq!(desk.start(), Say::refused(number), "fault {at}");
            assert_eq!(desk, before);
        }
    }
    assert_eq!(Desk::good().start(), Say::Going);
}

#[test]
fn ruling_2_directions() {
    for direction in 0..=255 {
        let mut desk = Desk::good();
        desk.sound.tables[1][1][wire::DIRECTION] = direction;
        assert_eq!(desk.start() == Say::Going, direction == 1, "{direction}");
        // playback asks for no direction
        let mut desk = Desk::good();
        desk.sound.tables[1][1][wire::DIRECTION] = direction;
        assert_eq!(desk.sound.xfer_start(&mut desk.ring, 1, 12, 9, &mut desk.message), Say::Going);
    }
}

#[test]
fn ruling_2_an_exchange_that_is_open_and_slots_that_are_owed_are_busy() {
    let mut desk = Desk::good();
    desk.sound.open = Some((Awaits::Own, Call::Command { code: wire::STOP, stream: 1 }));
    assert_eq!(desk.start(), Say::refused(BUSY));
    // a capture that runs, and the slots that it owes, are so to every call
    let mut desk = Desk::running();
    assert_eq!(desk.start(), Say::refused(BUSY));
    assert_eq!(desk.turn(heard(7, &[])), Turn::ended(WRONG_TOKEN));
    assert_eq!(desk.start(), Say::refused(BUSY));
    assert_eq!(desk.sound.call(&desk.ring, Call::Rates(0), &mut desk.message), Say::refused(BUSY));
    assert_eq!(desk.sound.xfer_start(&mut desk.ring, 1, 12, 9, &mut desk.message), Say::refused(BUSY));
    let payload = [0; PERIOD as usize];
    let nb = desk.sound.pcm_xfer_nb(&desk.ring, 1, &payload, &mut [0; 160], &mut desk.message);
    assert_eq!(nb, Say::refused(BUSY));
    assert_eq!(desk.ring.drain_turn(Reading::Completed { slot: 0, status: 0 }), OK);
    assert_eq!(desk.start(), Say::Going);
}

#[test]
fn ruling_3_a_capture_that_begins_set_up_never_runs() {
    for guard in [false, true] {
        let barred = if guard { Say::refused(BAD_STATE) } else { Say::refused(IO_ERROR) };
        let other = if guard { Say::refused(BAD_STATE) } else { Say::refused(INVALID_PARAM) };
        for (stream, said) in [(0, other.clone()), (1, barred), (2, other), (3, Say::refused(INVALID_PARAM))] {
            let mut sound = if guard { Sound::new_guarded([1, 3, 1]) } else { Sound::new([1, 3, 1]) };
            let (mut ring, mut message) = (Ring::default(), [0; 24]);
            // neither the budget nor the recording is asked for
            let say = sound.capture_start(&mut ring, stream, u64::MAX, 0, 0, &mut message);
            assert_eq!((&say, sound.open), (&Say::Send(16), Some((Awaits::Table(0), Call::Capture(stream)))));
            assert!(sound.consistent());
            assert_eq!(fed(&mut sound, say, &[0, 1, 2]), said, "stream {stream}, guard {guard}");
            assert!(sound.set_up && sound.open.is_none() && ring == Ring::default());
        }
    }
    // under the guard 12 comes before the direction, and no stream is prepared before set-up; its last case is 2
    let mut sound = Sound::new_guarded([0, 1, 0]);
    sound.lives[0] = life::PREPARED;
    let say = sound.capture_start(&mut Ring::default(), 0, 1, 6, 1, &mut [0; 24]);
    assert_eq!(fed(&mut sound, say, &[1]), Say::refused(IO_ERROR));
    let mut sound = Sound::new([0, 128, 0]);
    let say = sound.capture_start(&mut Ring::default(), 0, 1, 6, 1, &mut [0; 24]);
    assert_eq!(fed(&mut sound, say, &[1]), Say::refused(TOO_MANY));
    // its own request can never be out
    let mut sound = Desk::good().sound;
    sound.open = Some((Awaits::Own, Call::Capture(1)));
    assert!(!sound.consistent());
}

#[test]
fn ruling_10_the_other_way() {
    // a playback's turn on a ring that runs a capture, by the length lent at the start: 20 of which 18 are asked for
    let mut desk = Desk::running();
    let before = desk.clone();
    for (length, number) in [(18, BAD_LENGTH), (19, BAD_LENGTH), (20, INVALID_PARAM)] {
        assert_eq!(desk.ring.turn(length, Reading::Quiet), Turn::ended(number));
        assert_eq!(desk.ring.turn(length, Reading::Completed { slot: 0, status: STATUS_OK }), Turn::ended(number));
        assert_eq!(desk.ring.offered(length), Err(number));
    }
    assert_eq!(desk.ring.drain_turn(Reading::Quiet), INVALID_PARAM);
    assert_eq!(desk, before);
    // a capture's turn on a ring that runs a playback
    let mut ring = Ring::default();
    assert_eq!(ring.start(1, 20, PERIOD, 9), Turn::Going);
    let before = ring.clone();
    for (length, number) in [(18, BAD_LENGTH), (20, INVALID_PARAM)] {
        let mut recording = vec![FILL; length];
        assert_eq!(ring.capture_turn(&mut recording, Heard::Quiet), Turn::ended(number));
        assert_eq!(ring.capture_turn(&mut recording, heard(0, &wrote(3, 1, STATUS_OK))), Turn::ended(number));
        // the bytes lent are asked for there too
        let few = Heard::Completed { slot: 0, written: 9, bytes: &[] };
        assert_eq!(ring.capture_turn(&mut recording, few), Turn::ended(BAD_LENGTH));
        assert_eq!(ring.capture_offered(length as u64), Err(number));
        assert!(recording.iter().all(|byte| *byte == FILL));
    }
    assert_eq!(ring, before);
}

#[test]
fn ruling_7_where_nothing_runs_it_is_1_whatever_is_lent() {
    let mut desk = Desk::running();
    assert_eq!(desk.turn(heard(9, &[])), Turn::ended(WRONG_TOKEN));
    for ring in [Ring::default(), desk.ring] {
        for length in [0, 18, 20, 21] {
            let (mut ring, mut recording) = (ring.clone(), vec![FILL; length]);
            for heard in [Heard::Quiet, Heard::Completed { slot: 0, written: 9, bytes: &[] }] {
                assert_eq!(ring.capture_turn(&mut recording, heard), Turn::ended(INVALID_PARAM));
            }
            assert_eq!(ring.capture_offered(length as u64), Err(INVALID_PARAM));
        }
    }
}

#[test]
fn ruling_7_the_recording_is_as_long_as_at_the_start() {
    let desk = Desk::running();
    for length in [0, 17, 18, 19, 21] {
        let (mut ring, mut recording) = (desk.ring.clone(), vec![FILL; length]);
        assert_eq!(ring.capture_turn(&mut recording, heard(0, &wrote(1, 1, STATUS_OK))), Turn::ended(BAD_LENGTH));
        assert_eq!(ring.capture_offered(length as u64), Err(BAD_LENGTH));
        assert_eq!((&ring, recording), (&desk.ring, vec![FILL; length]));
    }
    // 10 comes before an inconsistent ring, as for frames
    let mut desk = Desk::running();
    desk.ring.kept = 21;
    assert_eq!(desk.ring.capture_turn(&mut [], Heard::Quiet), Turn::ended(BAD_LENGTH));
    assert_eq!(desk.turn(Heard::Completed { slot: 0, written: 1, bytes: &[] }), Turn::ended(BAD_LENGTH));
    assert_eq!(desk.turn(Heard::Quiet), Turn::ended(INVALID_PARAM));
    assert_eq!(desk.ring.capture_offered(20), Err(INVALID_PARAM));
    assert_eq!(desk.ring.drain_turn(Reading::Quiet), INVALID_PARAM);
}

#[test]
fn ruling_11_drains_after_2_6_9_and_17() {
    let bad = wrote(2, 1, 0x8003);
    let ends: [(&[u8], u32, u64); 3] = [(&bad, 0, 2), (&[], 0, 2), (&bad, 3, 3)];
    for (bytes, slot, owed) in ends {
        let mut desk = Desk::running();
        assert_eq!((desk.turn(Heard::Quiet), desk.turn(Heard::Quiet)), (Turn::Going, Turn::Going));
        assert!(matches!(desk.turn(heard(slot, bytes)), Turn::Ended(_)));
        drained(desk, owed);
    }
    let mut desk = Desk { budget: 2, ..Desk::good() };
    assert_eq!(desk.start(), Say::Going);
    assert_eq!((desk.turn(Heard::Quiet), desk.turn(Heard::Quiet)), (Turn::Going, Turn::ended(OUT_OF_TURNS)));
    drained(desk, 2);
}

/// Oldest first, whatever the status; a wrong slot frees none.
fn drained(mut desk: Desk, owed: u64) {
    assert_eq!(desk.ring.in_flight, owed);
    let kept = desk.recording.clone();
    for left in (0..owed).rev() {
        let oldest = desk.ring.tail as u32;
        assert_eq!(desk.ring.drain_turn(Reading::Quiet), OK);
        assert_eq!(desk.ring.drain_turn(Reading::Completed { slot: oldest + 1, status: STATUS_OK }), WRONG_TOKEN);
        assert_eq!(desk.ring.drain_turn(Reading::Completed { slot: oldest, status: 7 }), OK);
        assert_eq!(desk.ring.in_flight, left);
    }
    let oldest = desk.ring.tail as u32;
    assert_eq!(desk.ring.drain_turn(Reading::Completed { slot: oldest, status: STATUS_OK }), WRONG_TOKEN);
    assert_eq!((&desk.recording, desk.ring.kept), (&kept, 0));
    desk.budget = 20;
    assert_eq!(desk.start(), Say::Going);
}

#[test]
fn kept_is_read_from_the_ring_and_begins_anew() {
    let mut desk = Desk::running();
    let kept = |ring: &Ring| {
        let mut result = [FILL; RESULT_SIZE];
        let ring = Store { len: RING_SIZE, value: Some(ring) };
        assert_eq!(number(entries::ring_read(ring, Asked::Kept, &mut result)), 0);
        assert!(result[8..].iter().all(|byte| *byte == FILL));
        u64_at(&result, 0)
    };
    assert_eq!(kept(&Ring::default()), 0);
    assert_eq!(desk.turn(heard(0, &wrote(5, 1, STATUS_OK))), Turn::Going);
    assert_eq!(kept(&desk.ring), 5);
    assert_eq!(desk.turn(heard(1, &wrote(6, 1, 0x8003))), caused(0x8003));
    // after the end too, and after a start that is refused
    assert_eq!((kept(&desk.ring), desk.ring.in_flight), (5, 0));
    desk.budget = 0;
    assert_eq!((desk.start(), kept(&desk.ring)), (Say::refused(OUT_OF_TURNS), 5));
    let mut playback = desk.clone();
    assert_eq!(playback.sound.xfer_start(&mut playback.ring, 1, 12, 9, &mut playback.message), Say::Going);
    assert_eq!((kept(&playback.ring), playback.ring.lent), (0, 12));
    desk.budget = 9;
    assert_eq!((desk.start(), kept(&desk.ring)), (Say::Going, 0));
}

#[test]
fn at_the_entries_lengths_come_first() {
    let enter = |state_len: usize, ring_len: usize, message: usize| {
        let mut desk = Desk { recording: vec![], budget: 0, ..Desk::good() };
        desk.sound.reserved[0] = 2;
        let state = Store { len: state_len, value: Some(&mut desk.sound) };
        let ring = Store { len: ring_len, value: Some(&mut desk.ring) };
        number(entries::capture_start(state, ring, 1, 3, 0, 0, &mut vec![0; message]))
    };
    assert_eq!(enter(STATE_SIZE, RING_SIZE, 24), INVALID_PARAM.into());
    for (state, ring, message) in
        [(STATE_SIZE - 1, RING_SIZE, 24), (STATE_SIZE, RING_SIZE - 1, 24), (STATE_SIZE, RING_SIZE, 23)]
    {
        assert_eq!(enter(state, ring, message), BAD_LENGTH.into());
    }
    let desk = Desk::running();
    let offered = |ring_len: usize, room: usize| {
        let mut result = vec![FILL; room];
        let ring = Store { len: ring_len, value: Some(&desk.ring) };
        (number(entries::capture_offered(ring, 20, &mut result)), result)
    };
    assert_eq!(offered(RING_SIZE - 1, RESULT_SIZE), (BAD_LENGTH.into(), vec![FILL; RESULT_SIZE]));
    assert_eq!(offered(RING_SIZE, RESULT_SIZE - 1), (BAD_LENGTH.into(), vec![FILL; RESULT_SIZE - 1]));
    let (said, result) = offered(RING_SIZE, RESULT_SIZE);
    assert_eq!((said, [0, 8, 16].map(|at| u64_at(&result, at))), (OK.into(), [1, 0, PERIOD]));
    assert!(result[24..].iter().all(|byte| *byte == FILL));
    let mut ring = desk.ring.clone();
    let store = Store { len: RING_SIZE - 1, value: Some(&mut ring) };
    assert_eq!(number(entries::capture_turn(store, &mut [0; 20], Heard::Quiet)), BAD_LENGTH.into());
}

#[test]
fn a_quiet_reading_has_nothing_else() {
    let few = Heard::from_words(0, 5, 99, &[]);
    assert_eq!(few, Heard::Quiet);
    for kind in [1, 2, u32::MAX] {
        assert_eq!(Heard::from_words(kind, 5, 2, &[1, 2]), Heard::Completed { slot: 5, written: 2, bytes: &[1, 2] });
    }
    assert_eq!(Desk::running().turn(few), Turn::Going);
}
