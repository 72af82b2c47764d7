//! Submissions that do not wait: the order of refusals, every token, finishing in any order, and that no other byte of the places changes.
mod common;
use common::entries::entry;
use common::lent::Lent;
use common::{Desk, PARAMS, Random, sent};
use snd::{
    PLACES, Params, Pending, Places, Reading, Refusal, Ring, STATE_SIZE, STATUS_OK, Sound, Started, Status, Step,
    Submitted, ffi,
};

fn completed(token: u32, status: u32) -> Reading {
    Reading::Completed { slot: token, status }
}

/// A submission on what is lent: its whole answer.
fn submit(lent: &mut Lent) -> u64 {
    (entry("snd_pcm_xfer_nb").call)(lent)
}

/// As it is refused, with every byte as it was.
fn refused(lent: &Lent) -> u64 {
    let mut tried = lent.clone();
    let answer = submit(&mut tried);
    assert!(tried == *lent, "{answer:#x} changed a byte");
    answer
}

/// With every place taken.
fn full(mut lent: Lent) -> Lent {
    for _ in 0..PLACES {
        assert_eq!(submit(&mut lent), 0);
    }
    lent
}

#[test]
fn each_refusal_comes_before_all_that_follow_it() {
    // everything that can be at fault is; it is mended one by one
    let mut lent = Lent::good();
    let good = full(Lent::idle());
    let bad = |bytes: &mut Vec<u8>| bytes.fill(0xff);
    (lent.payload, lent.places, lent.numbers[0]) = (b"three".to_vec(), vec![7; 16 * 7 + 15], 2);
    lent.message.truncate(23);
    lent.result.truncate(511);
    bad(&mut lent.state);
    bad(&mut lent.ring);
    assert_eq!(refused(&lent), 10);
    lent.message.push(0);
    assert_eq!(refused(&lent), 10);
    lent.result.push(0);
    assert_eq!(refused(&lent), 1);
    lent.state = good.state.clone();
    assert_eq!(refused(&lent), 1);
    lent.ring = Lent::good().ring;
    assert_eq!(refused(&lent), 8);
    lent.ring = Lent::idle().ring;
    // the stream is too high, then it has no parameters
    assert_eq!(refused(&lent), 1);
    lent.numbers[0] = 1;
    assert_eq!(refused(&lent), 0x8000_0000_0002);
    lent.numbers[0] = 0;
    assert_eq!(refused(&lent), 1);
    lent.payload = b"four".to_vec();
    assert_eq!(refused(&lent), 10);
    lent.places = vec![7; 16 * 8];
    assert_eq!(refused(&lent), 15);
    lent.state = Lent::idle().state;
    assert_eq!(submit(&mut lent), 0);
}

#[test]
fn busy_8_and_set_up_come_before_the_calls_own_tests() {
    // an exchange is open; a slot is owed
    let mut lent = Lent::asking();
    lent.numbers[0] = 9;
    assert_eq!(refused(&lent), 8);
    let mut owed = Lent::idle();
    owed.ring = {
        let mut desk = Desk::with_transfer(b"frames", 1);
        assert_eq!(desk.ring.turn(b"frames", Reading::Quiet), Err(Refusal::OutOfTurns));
        desk.ring.store().to_vec()
    };
    assert_eq!(refused(&owed), 8);
    // set-up: the first query goes out, and neither places nor result nor token changes
    let mut new = Lent::idle();
    assert_eq!(ffi::snd_new(&mut new.state, 2, 2, 0), 0);
    (new.payload, new.places, new.numbers[0]) = (vec![], vec![], 9);
    let before = new.clone();
    assert_eq!(submit(&mut new), 256 + 16);
    assert!(new.places == before.places && new.result == before.result && new.ring == before.ring);
    assert_eq!(new.state[STATE_SIZE - 256..], before.state[STATE_SIZE - 256..]);
}

#[test]
fn a_set_up_that_it_began_ends_with_a_refusal() {
    for (stream, guard, refusal) in [
        (0, false, Refusal::IoError(None)),
        (2, false, Refusal::InvalidParam),
        (0, true, Refusal::BadState),
        (2, true, Refusal::InvalidParam),
    ] {
        let mut desk = Desk::new();
        if guard {
            desk.sound = Sound::new_guarded(2, 2, 0);
        }
        let mut places = Places::new(vec![0; 16 * 8]);
        let out = desk.sound.pcm_xfer_nb(&desk.ring, stream, b"four", &mut places);
        let Ok(Submitted::SetUp(exchange)) = out else {
            panic!("{out:?}")
        };
        assert_eq!(
            desk.sound.pcm_xfer_nb(&desk.ring, 0, b"four", &mut places),
            Err(Refusal::Busy)
        );
        assert_eq!(desk.finish(Ok(Step::Send(exchange))), Err(refusal));
        assert_eq!(desk.sound.pending_count(), Ok(0));
        assert_eq!(places.end().ok(), Some(vec![0; 16 * 8]));
    }
}

#[test]
fn under_the_guard_12_comes_after_the_range_and_before_the_parameters() {
    let mut lent = Lent::guarded();
    assert_eq!(submit(&mut lent), 0);
    // stream 1 was neither prepared nor set
    (lent.numbers[0], lent.payload) = (1, vec![]);
    assert_eq!(refused(&lent), 12);
    lent.numbers[0] = 2;
    assert_eq!(refused(&lent), 1);
}

#[test]
fn a_payload_is_one_whole_period() {
    let mut lent = Lent::idle();
    for length in [0, 1, 3, 5, 8, 40] {
        lent.payload = vec![7; length];
        assert_eq!(refused(&lent), 1, "{length} bytes");
    }
    // also where the places are too short
    lent.places.clear();
    assert_eq!(refused(&lent), 1);
}

#[test]
fn a_place_has_room_for_a_period_and_4() {
    let mut lent = Lent::idle();
    for length in (0..=16).chain([16 * 7, 16 * 8 - 1]) {
        lent.places = vec![0xa4; length];
        assert_eq!(refused(&lent), 10, "{length} bytes");
    }
    for length in [16 * 8, 16 * 8 + 1, 16 * 8 + 15, 16 * 9] {
        let mut lent = Lent::idle();
        lent.places = vec![0xa4; length];
        assert_eq!(submit(&mut lent), 0, "{length} bytes");
        assert_eq!(lent.places[..9], *b"\0\0\0\0four\xa4"[..].get(..9).unwrap());
    }
}

/// Every place is written once, in order, and nothing else of the store: neither the rest of a place nor what is left over.
#[test]
fn every_token_has_its_place_and_no_other_byte_changes() {
    let mut lent = Lent::idle();
    lent.numbers[0] = 0;
    let mut expected = lent.places.clone();
    let size = lent.places.len() / PLACES;
    assert_eq!((size, lent.places.len() % PLACES), (9, 7));
    for token in 0..PLACES {
        lent.payload = vec![token as u8; 4];
        lent.result.fill(0xa2);
        assert_eq!(submit(&mut lent), 0);
        assert_eq!(lent.result[..8], (token as u64).to_le_bytes());
        assert!(lent.result[8..].iter().all(|byte| *byte == 0xa2));
        assert!(lent.message.iter().all(|byte| *byte == 0xa1));
        expected[token * size..][..4].fill(0);
        expected[token * size + 4..][..4].fill(token as u8);
        assert!(lent.places == expected, "token {token}");
        assert_eq!(ffi::snd_pending_count(&lent.state, &mut lent.result), 0);
        assert_eq!(lent.result[..8], (token as u64 + 1).to_le_bytes());
    }
    lent.payload = vec![99; 4];
    assert_eq!(refused(&lent), 15);
}

#[test]
fn tokens_are_finished_in_any_order_and_the_lowest_is_taken_again() {
    let mut random = Random(0x5eed_0061);
    let mut desk = Desk::with_params();
    let mut places = Places::new(vec![0; PLACES * 11 + 5]);
    // what is pending by its submissions and finishes: the payload
    let mut pending: [Option<[u8; 4]>; PLACES] = [None; PLACES];
    let mut marked = [None; PLACES];
    for round in 0..20_000u32 {
        let token = random.below(PLACES + 2);
        let known = pending.get(token).copied().flatten();
        match random.below(3) {
            0 => {
                let payload = round.to_le_bytes();
                let lowest = pending.iter().position(Option::is_none);
                let out = desk.sound.pcm_xfer_nb(&desk.ring, 0, &payload, &mut places);
                match lowest {
                    None => assert_eq!(out, Err(Refusal::Full)),
                    Some(lowest) => {
                        assert_eq!(out, Ok(Submitted::Token(lowest as u32)));
                        pending[lowest] = Some(payload);
                    }
                }
            }
            1 => {
                let status = [STATUS_OK, STATUS_OK, 0x8003, round][random.below(4)];
                let said = desk.sound.pcm_xfer_mark(completed(token as u32, status));
                if known.is_some() && marked[token].is_none() {
                    assert_eq!(said, Ok(()));
                    marked[token] = Some(status);
                } else {
                    assert_eq!(said, Err(Refusal::WrongToken));
                }
            }
            _ => {
                let said = desk.sound.pcm_xfer_ok(&mut places, token as u32);
                match (known, marked.get_mut(token).and_then(Option::take)) {
                    (None, _) => assert_eq!(said, Err(Refusal::WrongToken)),
                    (Some(_), None) => assert_eq!(said, Err(Refusal::NotYet)),
                    (Some(_), Some(status)) => {
                        let cause = Status::of(status);
                        assert_eq!(said, cause.map_or(Ok(()), |cause| Err(Refusal::IoError(Some(cause)))));
                        pending[token] = None;
                    }
                }
            }
        }
        // over any sequence, what is pending is what was submitted and not finished, with its bytes
        assert_eq!(desk.sound.pending_count(), Ok(pending.iter().flatten().count() as u64));
        for (token, payload) in pending.iter().enumerate() {
            let request = payload.map(|payload| [&[0; 4][..], &payload].concat());
            assert_eq!(places.request(token as u32), request.as_deref());
            let told = match (payload, marked[token]) {
                (None, _) => Pending::Free,
                (Some(_), None) => Pending::Waits,
                (Some(_), Some(status)) => Pending::Marked { status },
            };
            assert_eq!(desk.sound.pending_token(token as u32), Ok(told));
        }
    }
}

#[test]
fn wrong_tokens_are_6_and_change_nothing() {
    let mut desk = Desk::with_params();
    let mut places = Places::new(vec![0; 128]);
    let out = desk.sound.pcm_xfer_nb(&desk.ring, 0, b"four", &mut places);
    assert_eq!(out, Ok(Submitted::Token(0)));
    let before = desk.sound.clone();
    for token in [1, 15, 16, 17, 31, 32, 33, 99, 256, 1 << 31, u32::MAX] {
        for status in [STATUS_OK, 0x8003] {
            let said = desk.sound.pcm_xfer_mark(completed(token, status));
            assert_eq!(said, Err(Refusal::WrongToken), "{token}");
        }
        assert_eq!(
            desk.sound.pcm_xfer_ok(&mut places, token),
            Err(Refusal::WrongToken),
            "{token}"
        );
        let read = desk.sound.pending_token(token);
        let there = if token < 32 {
            Ok(Pending::Free)
        } else {
            Err(Refusal::InvalidParam)
        };
        assert_eq!(read, there, "{token}");
    }
    assert!(desk.sound == before);
    assert_eq!(places.request(0), Some(&b"\0\0\0\0four"[..]));
}

#[test]
fn completed_twice_is_6_and_the_first_status_stays() {
    let mut desk = Desk::with_params();
    let mut places = Places::new(vec![0; 128]);
    let out = desk.sound.pcm_xfer_nb(&desk.ring, 0, b"four", &mut places);
    assert_eq!(out, Ok(Submitted::Token(0)));
    assert_eq!(desk.sound.pcm_xfer_mark(Reading::Quiet), Ok(()));
    assert_eq!(desk.sound.pending_token(0), Ok(Pending::Waits));
    assert_eq!(desk.sound.pcm_xfer_mark(completed(0, 0)), Ok(()));
    assert_eq!(
        desk.sound.pcm_xfer_mark(completed(0, STATUS_OK)),
        Err(Refusal::WrongToken)
    );
    assert_eq!(desk.sound.pending_token(0), Ok(Pending::Marked { status: 0 }));
    let said = desk.sound.pcm_xfer_ok(&mut places, 0);
    assert_eq!(said, Err(Refusal::IoError(Some(Status::Other(0)))));
    // 2 frees the place too
    assert_eq!(
        (desk.sound.pending_token(0), places.request(0)),
        (Ok(Pending::Free), None)
    );
    assert_eq!(desk.sound.pcm_xfer_ok(&mut places, 0), Err(Refusal::WrongToken));
    assert!(places.end().is_ok());
}

#[test]
fn of_2_alone_the_high_half_is_the_status() {
    let mut lent = Lent::pending();
    for status in [0x8001, 0x8002, 0x8003, 0, 1, u32::MAX] {
        let mut state = lent.state.clone();
        assert_eq!(ffi::snd_pcm_xfer_mark(&mut state, u32::MAX, 0, status), 0);
        assert_eq!(ffi::snd_pcm_xfer_mark(&mut state, 1, 0, status), 6);
        assert_eq!(ffi::snd_pcm_xfer_ok(&mut state, 2), 16);
        assert_eq!(ffi::snd_pcm_xfer_ok(&mut state, 0), u64::from(status) << 32 | 2);
        assert_eq!(ffi::snd_pcm_xfer_ok(&mut state, 0), 6);
    }
    assert_eq!(ffi::snd_pcm_xfer_mark(&mut lent.state, 2, 2, STATUS_OK), 0);
    assert_eq!(ffi::snd_pcm_xfer_ok(&mut lent.state, 2), 0);
}

#[test]
fn marks_and_finishes_are_never_busy() {
    let mut desk = Desk::with_params();
    let mut places = Places::new(vec![0; 128]);
    let out = desk.sound.pcm_xfer_nb(&desk.ring, 0, b"four", &mut places);
    assert_eq!(out, Ok(Submitted::Token(0)));
    let stop = sent(desk.sound.pcm_stop(&desk.ring, 0));
    assert_eq!(desk.sound.pcm_xfer_mark(completed(0, STATUS_OK)), Ok(()));
    assert_eq!(desk.sound.pcm_xfer_ok(&mut places, 0), Ok(()));
    // and the exchange goes on
    desk.device.control(stop.bytes(), &mut desk.page).unwrap();
    assert_eq!(desk.sound.feed(stop, &desk.page), Ok(Step::Done(())));
}

/// Control calls go on; a transfer does not start, marked or not; what was submitted keeps its period.
#[test]
fn while_a_token_is_pending() {
    let mut desk = Desk::with_params();
    let mut places = Places::new(vec![0; 16 * 12]);
    let out = desk.sound.pcm_xfer_nb(&desk.ring, 0, b"four", &mut places);
    assert_eq!(out, Ok(Submitted::Token(0)));
    for call in [Sound::pcm_prepare, Sound::pcm_start] {
        let step = call(&mut desk.sound, &desk.ring, 0);
        assert_eq!(desk.finish(step), Ok(()));
    }
    let to = Params { period: 8, ..PARAMS };
    let step = desk.sound.pcm_set_params(&desk.ring, 0, to);
    assert_eq!(desk.finish(step), Ok(()));
    let out = desk.sound.pcm_xfer_nb(&desk.ring, 0, b"four", &mut places);
    assert_eq!(out, Err(Refusal::InvalidParam));
    let out = desk.sound.pcm_xfer_nb(&desk.ring, 0, b"8 bytes.", &mut places);
    assert_eq!(out, Ok(Submitted::Token(1)));
    let requests = (places.request(0), places.request(1));
    assert_eq!(requests, (Some(&b"\0\0\0\0four"[..]), Some(&b"\0\0\0\08 bytes."[..])));
    for token in [1, 0] {
        let Started::Refused(refusal, _) = desk.sound.transfer(&mut desk.ring, 0, b"frames", 9) else {
            panic!("a token is pending")
        };
        assert_eq!(refusal, Refusal::Busy);
        desk.sound.pcm_xfer_mark(completed(token, STATUS_OK)).unwrap();
        let start = desk.sound.pcm_xfer_start(&mut desk.ring, 9, b"", 0);
        assert_eq!(start, Err(Refusal::Busy));
        desk.sound.pcm_xfer_ok(&mut places, token).unwrap();
    }
    let start = desk.sound.pcm_xfer_start(&mut desk.ring, 0, b"frames", 9);
    assert_eq!(start, Ok(Step::Done(())));
    let out = desk.sound.pcm_xfer_nb(&desk.ring, 0, b"8 bytes.", &mut places);
    assert_eq!(out, Err(Refusal::Busy));
}

/// Two states cannot share places, in which the one would overwrite what the other has out.
#[test]
fn places_go_with_one_state() {
    let (mut one, mut other) = (Desk::with_params(), Desk::with_params());
    let mut places = Places::new(vec![0; 128]);
    let out = one.sound.pcm_xfer_nb(&one.ring, 0, b"mine", &mut places);
    assert_eq!(out, Ok(Submitted::Token(0)));
    let out = other.sound.pcm_xfer_nb(&other.ring, 0, b"your", &mut places);
    assert_eq!(out, Err(Refusal::InvalidParam));
    assert_eq!(other.sound.pcm_xfer_ok(&mut places, 0), Err(Refusal::InvalidParam));
    let mut empty = Places::new(vec![0; 128]);
    let out = one.sound.pcm_xfer_nb(&one.ring, 0, b"more", &mut empty);
    assert_eq!(out, Err(Refusal::InvalidParam));
    assert_eq!(places.request(0), Some(&b"\0\0\0\0mine"[..]));
    assert_eq!(other.sound.pending_count(), Ok(0));
}

#[test]
fn garbage_is_1() {
    let mut sound = Sound::over([0xff; STATE_SIZE]);
    assert_eq!(sound.pcm_xfer_mark(Reading::Quiet), Err(Refusal::InvalidParam));
    assert_eq!(sound.pcm_xfer_mark(completed(0, 0)), Err(Refusal::InvalidParam));
    assert_eq!(sound.pending_count(), Err(Refusal::InvalidParam));
    assert_eq!(sound.pending_token(0), Err(Refusal::InvalidParam));
    assert_eq!(ffi::snd_pcm_xfer_ok(&mut [0xff; STATE_SIZE], 0), 1);
    assert!(sound.store().iter().all(|byte| *byte == 0xff));
    // any tokens at all are tokens: above 2 they are marked
    let mut store = *Desk::with_params().sound.store();
    store[STATE_SIZE - 256..].fill(0xff);
    let mut sound = Sound::over(store);
    assert_eq!(sound.pending_count(), Ok(32));
    assert_eq!(sound.pending_token(31), Ok(Pending::Marked { status: u32::MAX }));
    assert_eq!(sound.pcm_xfer_mark(completed(31, 0)), Err(Refusal::WrongToken));
    let mut store = *sound.store();
    assert_eq!(ffi::snd_pcm_xfer_ok(&mut store, 31), 0xffff_ffff_0000_0002);
    assert_eq!(store[STATE_SIZE - 8..], [0; 8]);
    let ring = Ring::new();
    let full = ffi::snd_pcm_xfer_nb(
        &mut store,
        ring.store(),
        0,
        b"four",
        &mut [0; 128],
        &mut [0; 24],
        &mut [0; 512],
    );
    assert_eq!(full, 15);
}
