//! Rings for indirect descriptors: 32 in flight, head equal to tail when empty and when full, 32 places, the judge's mode; and that a direct ring is as
//! it was.
mod common;
use common::{Desk, PARAMS};
use snd::trace::{self, DIRECT, INDIRECT, Judged};
use snd::{
    Captured, PLACES, PLACES_INDIRECT, Places, RING_SIZE, Reading, Refusal, Ring, STATUS_OK, Step, Submitted, Turn, ffi,
};

const fn completed(slot: u32) -> Reading {
    Reading::Completed {
        slot,
        status: STATUS_OK,
    }
}

/// Desks whose stream 0 has parameters, with a ring of each mode, and how many periods it has in flight at most.
fn desks() -> [(Desk, u32); 2] {
    let indirect = Desk {
        ring: Ring::new_indirect(),
        ..Desk::with_params()
    };
    [(Desk::with_params(), 10), (indirect, 32)]
}

#[test]
fn as_many_are_in_flight_as_have_room() {
    for (mut desk, most) in desks() {
        for n in [0, 1, 10, 11, 31, 32, 33, 70] {
            let frames = vec![7; 4 * n as usize];
            let started = desk.sound.pcm_xfer_start(&mut desk.ring, 0, &frames, 500);
            assert_eq!(started, Ok(Step::Done(())));
            let (mut sent, mut back) = (0, 0);
            // nothing comes back in the first 40 turns
            for turn in 1..=500 {
                let offered = desk.ring.offered(&frames).unwrap();
                if let Some(offer) = offered {
                    assert_eq!((offer.slot, offer.offset), (sent % 32, 4 * sent as usize));
                    sent += 1;
                }
                let reading = if turn <= 40 {
                    Reading::Quiet
                } else {
                    completed(back % 32)
                };
                let said = desk.ring.turn(&frames, reading);
                if said == Ok(Turn::Done) {
                    break;
                }
                assert_eq!(said, Ok(Turn::Going));
                back += u32::from(turn > 40);
                let out = sent - back;
                assert!(
                    out <= most && (turn > 40 || out == turn.min(n).min(most)),
                    "{turn} {out}"
                );
                assert_eq!(desk.ring.in_flight(), Ok(out.into()));
                let per = if most == 10 { 3 } else { 1 };
                assert_eq!(desk.ring.free_descriptors(), Ok(u64::from(32 - per * out)));
            }
            assert_eq!((sent, back), (n, n));
            assert_eq!(desk.ring.accepted(), Ok(n.into()));
            assert_eq!(desk.ring.indirect(), most == 32);
        }
    }
}

/// "Head equals tail when empty and when full": with all 32 out and no period left it is not done.
#[test]
fn full_is_not_done() {
    let [_, (mut desk, _)] = desks();
    let frames = [7; 4 * 32];
    assert!(desk.sound.pcm_xfer_start(&mut desk.ring, 0, &frames, 99).is_ok());
    for _ in 0..40 {
        assert_eq!(desk.ring.turn(&frames, Reading::Quiet), Ok(Turn::Going));
    }
    assert_eq!((desk.ring.in_flight(), desk.ring.oldest()), (Ok(32), Ok(Some(0))));
    assert_eq!(
        format!("{:?}", desk.ring),
        "Ring { indirect: true, running: true, in_flight: 32, stream: 0, turns_run: 40 }"
    );
    for slot in 0..32 {
        assert_eq!(desk.ring.turn(&frames, completed(slot)), Ok(Turn::Going));
    }
    assert_eq!(desk.ring.turn(&frames, Reading::Quiet), Ok(Turn::Done));
}

#[test]
fn captures_and_drains_keep_the_mode() {
    let mut desk = Desk {
        ring: Ring::new_indirect(),
        ..Desk::with_input()
    };
    let mut recording = [0; 4 * 33];
    let started = desk.sound.pcm_capture_start(&mut desk.ring, 1, 33, &recording, 40);
    assert_eq!(started, Ok(Step::Done(())));
    for _ in 0..39 {
        assert_eq!(desk.ring.capture_turn(&mut recording, Captured::Quiet), Ok(Turn::Going));
    }
    let last = desk.ring.capture_turn(&mut recording, Captured::Quiet);
    assert_eq!((last, desk.ring.in_flight()), (Err(Refusal::OutOfTurns), Ok(32)));
    for slot in 0..32 {
        assert_eq!(desk.ring.drain_turn(completed(slot)), Ok(()));
        assert!(desk.ring.indirect());
    }
    assert_eq!(desk.ring.drain_turn(completed(0)), Err(Refusal::WrongToken));
}

#[test]
fn another_number_of_descriptors_is_inconsistent() {
    for per in 0..=255 {
        let mut store = *Ring::new().store();
        store[0] = per;
        let known = per == 1 || per == 3;
        let refused = if known { Ok(false) } else { Err(Refusal::InvalidParam) };
        assert_eq!(Ring::over(store).running(), refused, "{per}");
    }
    // 32 in flight are too many for a direct ring
    let [_, (mut desk, _)] = desks();
    let frames = [7; 4 * 32];
    assert!(desk.sound.pcm_xfer_start(&mut desk.ring, 0, &frames, 99).is_ok());
    for _ in 0..11 {
        assert_eq!(desk.ring.turn(&frames, Reading::Quiet), Ok(Turn::Going));
    }
    let mut store: [u8; RING_SIZE] = *desk.ring.store();
    store[0] = 3;
    assert_eq!(Ring::over(store).in_flight(), Err(Refusal::InvalidParam));
}

#[test]
fn places_of_each_mode() {
    for ((mut desk, _), count) in desks().into_iter().zip([PLACES, PLACES_INDIRECT]) {
        // a period and 4 bytes in each, and some that belong to none
        let store = vec![0xee; count * 8 + 7];
        let mut places = if count == PLACES {
            Places::new(store)
        } else {
            Places::new_indirect(store)
        };
        assert_eq!(places.size(), 8);
        for token in 0..count as u32 {
            let period = token.to_le_bytes();
            let said = desk.sound.pcm_xfer_nb(&desk.ring, 0, &period, &mut places);
            assert_eq!(said, Ok(Submitted::Token(token)));
            assert_eq!(places.request(token), Some(&[[0; 4], period].concat()[..]));
        }
        let full = desk.sound.pcm_xfer_nb(&desk.ring, 0, b"four", &mut places);
        assert_eq!(
            (full, desk.sound.pending_count()),
            (Err(Refusal::Full), Ok(count as u64))
        );
        for token in (0..count as u32).rev() {
            assert_eq!(places.request(token).map(|request| request[4]), Some(token as u8));
            assert_eq!(desk.sound.pcm_xfer_mark(completed(token)), Ok(()));
            assert_eq!(desk.sound.pcm_xfer_ok(&mut places, token), Ok(()));
            assert_eq!(places.request(token), None);
        }
        let store = places.end().unwrap();
        assert_eq!(store[count * 8..], [0xee; 7]);
    }
}

/// With places of another mode a submission would stand where another does: they are refused, and nothing changes.
#[test]
fn places_of_another_mode_are_refused() {
    let [(mut direct, _), (mut indirect, _)] = desks();
    let mut few = Places::new(vec![0; 32 * 8]);
    let mut many = Places::new_indirect(vec![0; 32 * 8]);
    assert_eq!((few.size(), many.size()), (16, 8));
    let said = direct.sound.pcm_xfer_nb(&direct.ring, 0, b"four", &mut many);
    assert_eq!(said, Err(Refusal::InvalidParam));
    let said = indirect.sound.pcm_xfer_nb(&indirect.ring, 0, b"four", &mut few);
    assert_eq!(said, Err(Refusal::InvalidParam));
    // at the entry the ring alone tells it: a place has a 32nd of the store
    let (mut message, mut result) = ([0; 24], [0; 512]);
    for (ring, len, answer) in [
        (Ring::new(), 16 * 8, 0),
        (Ring::new_indirect(), 32 * 8 - 1, 10),
        (Ring::new_indirect(), 32 * 8, 0),
    ] {
        let mut state = *direct.sound.store();
        let mut places = vec![0; len];
        let said = ffi::snd_pcm_xfer_nb(
            &mut state,
            ring.store(),
            0,
            b"four",
            &mut places,
            &mut message,
            &mut result,
        );
        assert_eq!(said, answer, "{len}");
    }
}

/// A transfer of eleven periods of which none comes back before all are out.
#[test]
fn the_judge_takes_the_mode() {
    let [_, (mut desk, _)] = desks();
    let frames = [7; 4 * 11];
    let mut room = vec![0; trace::room_len(frames.len(), PARAMS.period)];
    let started = desk.sound.pcm_xfer_start_traced(&mut desk.ring, 0, &frames, 99, &room);
    assert_eq!(started, Ok(Step::Done(())));
    for _ in 0..11 {
        assert_eq!(
            desk.ring.turn_traced(&frames, &mut room, Reading::Quiet),
            Ok(Turn::Going)
        );
    }
    for slot in 0..11 {
        assert_eq!(
            desk.ring.turn_traced(&frames, &mut room, completed(slot)),
            Ok(Turn::Going)
        );
    }
    assert_eq!(
        desk.ring.turn_traced(&frames, &mut room, Reading::Quiet),
        Ok(Turn::Done)
    );
    let trace = &room[..desk.ring.trace_length().unwrap()];
    assert_eq!(trace::judge(INDIRECT, trace), Ok(()));
    // the eleventh submission is none of a direct ring's
    let judged = Judged {
        number: Refusal::NotARun,
        at: 15 + 10 * 12,
    };
    assert_eq!(trace::judge(DIRECT, trace), Err(judged));
    for mode in [0, 2, 4, 257, u32::MAX] {
        let refused = trace::judge(mode, trace).unwrap_err();
        assert_eq!((refused.number, refused.at), (Refusal::InvalidParam, 0));
    }
}
