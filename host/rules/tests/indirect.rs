//! Request 2026-14, "Indirect descriptors": each test names the rulings on it by their numbers.
use rules::capture::Heard;
use rules::entries::{Asked, RESULT_SIZE, RING_SIZE, Store, number, ring_read};
use rules::pending::{FREE, PLACES, PLACES_INDIRECT, TOKENS, Token, WAITS, places_of};
use rules::ring::{Mode, Reading, Ring, Turn};
use rules::sound::{Call, Fed, Params, Say, Sound, Value};
use rules::trace::{Fault, Field, bytes, judge_in, judge_of};
use rules::wire::{self, STATUS_OK, u64_at};
use rules::{BAD_LENGTH, BUSY, FULL, INVALID_PARAM, NOT_A_RUN, OK, OUT_OF_TURNS};

const DONE: u32 = STATUS_OK;

fn completed(slot: u64) -> Reading {
    Reading::Completed { slot: slot as u32, status: DONE }
}

/// The most in flight of each mode.
fn most(mode: Mode) -> u64 {
    match mode {
        Mode::Direct => 10,
        Mode::Indirect => 32,
    }
}

fn read(ring: &Ring, asked: Asked) -> (u64, u64) {
    let mut result = [0; RESULT_SIZE];
    let said = number(ring_read(Store { len: RING_SIZE, value: Some(ring) }, asked, &mut result));
    (said, u64_at(&result, 0))
}

#[test]
fn rulings_1_and_10_a_mode_is_three_or_one() {
    assert_eq!((Ring::new(Mode::Direct), Ring::default().per), (Ring::default(), 3));
    assert_eq!(Ring::new(Mode::Indirect).per, 1);
    for per in [0, 1, 2, 3, 4, 32, u64::MAX] {
        let ring = Ring { per, ..Ring::default() };
        let said = if per == 1 || per == 3 { OK } else { INVALID_PARAM };
        assert_eq!(read(&ring, Asked::Running).0, said.into(), "{per}");
        assert_eq!(ring.clone().drain_turn(Reading::Quiet), said);
        let mut sound = Sound::new([0; 3]);
        let sent = if said == OK { Say::Send(16) } else { Say::refused(said) };
        assert_eq!(sound.call(&ring, Call::OutputStreams, &mut [0; 24]), sent);
    }
}

/// Periods of one byte, nothing comes back: how many go out, and where head and tail are.
#[test]
fn rulings_2_to_5_quiet() {
    for mode in Mode::ALL {
        for n in [0, 1, 9, 10, 11, 31, 32, 33, 40] {
            let mut ring = Ring::new(mode);
            assert_eq!(ring.start(0, n, 1, 50), Turn::Going);
            for turn in 1..50 {
                let out = n.min(most(mode)).min(turn);
                let said = ring.turn(n, Reading::Quiet);
                if n == 0 {
                    assert_eq!(said, Turn::ended(OK));
                    break;
                }
                assert_eq!((said, ring.in_flight), (Turn::Going, out));
                assert!(ring.consistent());
                assert_eq!(read(&ring, Asked::FreeDescriptors), (0, 32 - mode.per() * out));
                assert_eq!((ring.head, ring.tail, ring.per), (out % 32, 0, mode.per()));
            }
            if n > 0 {
                assert_eq!(ring.turn(n, Reading::Quiet), Turn::ended(OUT_OF_TURNS));
            }
        }
    }
}

/// "Head equals tail when empty and when full": full and no period left, rule 1 does nothing and rule 2 judges.
#[test]
fn ruling_4_full_is_not_done() {
    let mut ring = Ring::new(Mode::Indirect);
    assert_eq!(ring.start(0, 32, 1, 99), Turn::Going);
    for _ in 0..40 {
        assert_eq!(ring.turn(32, Reading::Quiet), Turn::Going);
    }
    assert_eq!((ring.head, ring.tail, ring.in_flight, ring.next), (0, 0, 32, 32));
    assert_eq!(ring.offered(32), Ok(None));
    for slot in 0..32 {
        assert_eq!(ring.turn(32, completed(slot)), Turn::Going);
    }
    assert_eq!((ring.head, ring.tail, ring.in_flight), (0, 0, 0));
    // with nothing in flight that turn does not look
    assert_eq!(ring.turn(32, Reading::Completed { slot: 9, status: 0 }), Turn::ended(OK));
    assert_eq!(ring.turns, 40 + 33);
    // and a wrong slot while it is full is judged
    assert_eq!(ring.start(0, 33, 1, 99), Turn::Going);
    for _ in 0..32 {
        assert_eq!(ring.turn(33, Reading::Quiet), Turn::Going);
    }
    assert_eq!(ring.clone().turn(33, completed(32)), Turn::ended(rules::WRONG_TOKEN));
    assert_eq!(ring.turn(33, completed(0)), Turn::Going);
    assert_eq!(ring.offered(33).unwrap().unwrap().slot, 0);
}

/// Demand 3 in each mode: n periods, one completion among any g turns, Ok no later than turn n times g plus 1, and all of it in order.
#[test]
fn rulings_2_and_3_demand_3() {
    for mode in Mode::ALL {
        for n in [0, 1, 2, 9, 10, 11, 31, 32, 33, 64, 70] {
            for g in 1..=5 {
                let (mut ring, mut quiet, mut sent, mut back) = (Ring::new(mode), 0, vec![], vec![]);
                let frames = (4 * n as u64).saturating_sub(1);
                assert_eq!(ring.start(0, frames, 4, n as u64 * g + 1), Turn::Going);
                loop {
                    let offer = ring.offered(frames).unwrap();
                    sent.extend(offer.map(|offer| (offer.slot, offer.offset, offer.length)));
                    let oldest = sent.get(back.len()).copied();
                    quiet += 1;
                    let due = quiet >= g;
                    let reading = match oldest {
                        Some((slot, ..)) if due => completed(slot),
                        _ => Reading::Quiet,
                    };
                    if reading != Reading::Quiet {
                        back.push(oldest);
                        quiet = 0;
                    }
                    assert!(ring.in_flight <= most(mode));
                    match ring.turn(frames, reading) {
                        Turn::Going => {}
                        said => break assert_eq!(said, Turn::ended(OK), "{mode:?} {n} {g}"),
                    }
                }
                assert!(ring.turns <= n as u64 * g + 1);
                let all = (0..n as u64).map(|i| (i % 32, 4 * i, 4.min(frames - 4 * i)));
                assert!(all.eq(sent.iter().copied()) && back.len() == n);
            }
        }
    }
}

#[test]
fn ruling_3_more_than_fit_is_inconsistent() {
    for (mode, held, said) in
        [(Mode::Direct, 10, 0), (Mode::Direct, 11, 1), (Mode::Indirect, 32, 0), (Mode::Indirect, 33, 1)]
    {
        let ring = Ring { in_flight: held, head: held % 32, ..Ring::new(mode) };
        assert_eq!(read(&ring, Asked::InFlight).0, said, "{mode:?} {held}");
    }
    let ring = Ring { in_flight: 32, head: 5, tail: 5, ..Ring::new(Mode::Indirect) };
    assert!(ring.consistent() && ring.busy());
    assert!(!Ring { per: 3, ..ring }.consistent());
}

/// Started, traced, captured, drained, refused: the mode stays.
#[test]
fn rulings_8_and_9_every_call_keeps_the_mode() {
    for mode in Mode::ALL {
        let mut ring = Ring::new(mode);
        let kept = |ring: &Ring| ring.per == mode.per() && ring.consistent();
        let started = [Ring::start, |ring: &mut Ring, s, f, p, b| ring.start_traced(s, f, p, b, 19 + 20 * f)];
        for start in started {
            assert_eq!((start(&mut ring, 0, 2, 1, 0), kept(&ring)), (Turn::ended(OUT_OF_TURNS), true));
            assert_eq!((start(&mut ring, 0, 2, 1, 2), kept(&ring)), (Turn::Going, true));
            let mut room = vec![0; ring.room as usize];
            assert_eq!(ring.turn_traced(2, &mut room, Reading::Quiet), Turn::Going);
            assert_eq!((start(&mut ring, 0, 2, 1, 2), kept(&ring)), (Turn::ended(BUSY), true));
            assert_eq!(ring.turn_traced(2, &mut room, Reading::Quiet), Turn::ended(OUT_OF_TURNS));
            for slot in 0..2 {
                assert_eq!((ring.drain_turn(completed(slot)), kept(&ring)), (OK, true));
            }
        }
        let mut recording = [0; 99];
        assert_eq!((ring.capture_start(0, 33, 3, 99, 40), kept(&ring)), (Turn::Going, true));
        for turn in 1..=39 {
            assert_eq!(ring.capture_turn(&mut recording, Heard::Quiet), Turn::Going);
            assert_eq!((ring.in_flight, kept(&ring)), (most(mode).min(turn), true));
        }
        assert_eq!(ring.capture_turn(&mut recording, Heard::Quiet), Turn::ended(OUT_OF_TURNS));
        let written = wire::words(&[STATUS_OK, 0]);
        for slot in 0..most(mode) {
            assert_eq!(ring.drain_turn(completed(slot)), OK);
        }
        assert_eq!(ring.capture_start(0, 1, 3, 99, 40), Turn::Going);
        let heard = Heard::Completed { slot: 0, written: 8, bytes: &written };
        assert_eq!((ring.capture_turn(&mut recording, heard), kept(&ring)), (Turn::Going, true));
    }
}

/// A state whose stream 0 has a period of 2 bytes.
fn set() -> Sound {
    let params = Params { buffer: 4, period: 2, features: 0, channels: 2, format: 5, rate: 7 };
    let (mut sound, mut message) = (Sound::new([0, 1, 0]), [0; 24]);
    let mut page = wire::words(&[STATUS_OK]);
    page.resize(4096, 0);
    let mut say = sound.call(&Ring::default(), Call::SetParams { stream: 0, params }, &mut message);
    while let Say::Send(_) = say {
        say = sound.feed(Fed::Page(&page), &mut message);
    }
    assert_eq!(say, Say::Done(Value::Nothing));
    sound
}

fn submit(sound: &mut Sound, ring: &Ring, places: &mut [u8]) -> Say {
    sound.pcm_xfer_nb(ring, 0, b"ab", places, &mut [0; 24])
}

#[test]
fn ruling_6_places_of_each_mode() {
    assert_eq!(Mode::ALL.map(places_of), [PLACES, PLACES_INDIRECT]);
    assert_eq!((PLACES, PLACES_INDIRECT), (16, TOKENS));
    for mode in Mode::ALL {
        let (count, ring) = (places_of(mode), Ring::new(mode));
        // a period and 4 bytes in each, and some that belong to none
        for more in [0, 1, count - 1] {
            let (mut sound, mut places) = (set(), vec![0xee; 6 * count + more]);
            let mut expected = places.clone();
            for token in 0..count {
                assert_eq!(submit(&mut sound, &ring, &mut places), Say::Done(Value::Token(token)));
                expected[6 * token..][..6].copy_from_slice(b"\0\0\0\0ab");
                assert_eq!(places, expected);
            }
            assert_eq!(submit(&mut sound, &ring, &mut places), Say::refused(FULL));
            // a transfer is Busy while any is pending
            let say = sound.xfer_start(&mut ring.clone(), 0, 2, 5, &mut [0; 24]);
            assert_eq!(say, Say::refused(BUSY));
            // the one that is freed is taken again
            for token in [0, 7, count as u32 - 1] {
                assert_eq!(sound.pcm_xfer_mark(completed(token.into())), OK);
                assert_eq!(sound.pcm_xfer_ok(token).number, OK);
                assert_eq!(submit(&mut sound, &ring, &mut places), Say::Done(Value::Token(token as usize)));
            }
            assert_eq!((places, sound.pending_count()), (expected, Ok(count as u64)));
        }
        // 10 before 15
        let mut sound = set();
        assert_eq!(submit(&mut sound, &ring, &mut vec![0; 6 * count - 1]), Say::refused(BAD_LENGTH));
        sound.pending.tokens[..count].fill(Token { state: WAITS, status: 0 });
        assert_eq!(submit(&mut sound, &ring, &mut vec![0; 6 * count - 1]), Say::refused(BAD_LENGTH));
        assert_eq!(submit(&mut sound, &ring, &mut vec![0; 6 * count]), Say::refused(FULL));
    }
}

/// "Told by the ring that a submission is handed": one state and two rings, which a host should not have.
#[test]
fn ruling_6_the_ring_tells_it() {
    let (mut sound, mut places) = (set(), vec![0; 6 * 32]);
    sound.pending.tokens[..16].fill(Token { state: WAITS, status: 0 });
    assert_eq!(submit(&mut sound.clone(), &Ring::default(), &mut places), Say::refused(FULL));
    assert_eq!(submit(&mut sound, &Ring::new(Mode::Indirect), &mut places), Say::Done(Value::Token(16)));
    sound.pending.tokens[..16].fill(Token { state: FREE, status: 0 });
    assert_eq!(submit(&mut sound, &Ring::default(), &mut places), Say::Done(Value::Token(0)));
    // whatever mode gave it out, a token is marked and finished alike
    assert_eq!((sound.pcm_xfer_mark(completed(16)), sound.pcm_xfer_ok(16).number), (OK, OK));
}

fn not_a_run(at: usize) -> Result<(), Fault> {
    Err(Fault { number: NOT_A_RUN, at })
}

/// So many submissions of one byte before the first comes back.
fn burst(count: u8) -> Vec<Field> {
    let mut fields = vec![Field::Start { stream: 0, length: 50, period: 1 }];
    fields.extend((0..count).map(|n| Field::Submitted { slot: n % 32, offset: n.into(), length: 1 }));
    fields
}

#[test]
fn ruling_7_the_judge() {
    for mode in Mode::ALL {
        let most = most(mode) as u8;
        let per = mode.per() as u32;
        for count in 1..=40 {
            let fits = [burst(count), vec![Field::End { answer: 9 }]].concat();
            // the first that has no room
            let past = 15 + 12 * usize::from(most);
            let said = if count <= most { Ok(()) } else { not_a_run(past) };
            assert_eq!(judge_in(per, &bytes(&fits)), said, "{mode:?} {count}");
            // one comes back, and the next goes out in its slot
            if count == most {
                let good = Field::Completed { slot: 0, status: STATUS_OK };
                let next = Field::Submitted { slot: most % 32, offset: most.into(), length: 1 };
                let more = [burst(count), vec![good, next, Field::End { answer: 6 }]].concat();
                assert_eq!(judge_of(mode, &bytes(&more)), Ok(()));
            }
        }
    }
    for mode in [0, 2, 4, u32::MAX] {
        assert_eq!(judge_in(mode, &bytes(&burst(1))), Err(Fault { number: INVALID_PARAM, at: 0 }));
    }
}

/// What a ring of a mode writes is accepted in it. A direct run is an indirect one too: where it waited for room, the completion may have come in
/// the turn of the last submission. An indirect one that had more than ten out is no direct one.
#[test]
fn ruling_7_what_the_turns_write() {
    for mode in Mode::ALL {
        for (n, quiet) in [(0, 0), (5, 3), (10, 20), (11, 10), (11, 12), (33, 31), (33, 32), (40, 33), (70, 40)] {
            let (mut ring, mut room) = (Ring::new(mode), vec![0; 19 + 20 * n as usize]);
            assert_eq!(ring.start_traced(1, n, 1, 200, room.len() as u64), Turn::Going);
            let said = loop {
                let reading = if ring.turns < quiet { Reading::Quiet } else { completed(ring.tail) };
                let said = ring.turn_traced(n, &mut room, reading);
                if said != Turn::Going {
                    break said;
                }
            };
            assert_eq!(said, Turn::ended(OK));
            let trace = &room[..ring.traced as usize];
            let direct = mode == Mode::Direct || n <= 10;
            let accepted = Mode::ALL.map(|by| judge_of(by, trace).is_ok());
            assert_eq!(accepted, [direct, true], "{mode:?} {n} {quiet}");
        }
    }
}
