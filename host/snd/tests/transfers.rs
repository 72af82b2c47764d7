//! Transfers that own their frames, of every kind that frames may be. What a dropped one does with them is tested in src/transfer.rs.
mod common;
use common::Desk;
use snd::{Frames, Offer, RING_SIZE, Reading, Refusal, Ring, STATUS_OK, Started, Transfer, Turn};

fn runs<'r, F: Frames>(desk: &mut Desk, ring: &'r mut Ring, frames: F, budget: u64) -> Transfer<'r, F> {
    match desk.sound.transfer(ring, 0, frames, budget) {
        Started::Runs(transfer) => transfer,
        other => panic!("{other:?}"),
    }
}

const fn completed(slot: u32) -> Reading {
    Reading::Completed {
        slot,
        status: STATUS_OK,
    }
}

/// Takes every turn, each period completed in its own, and gives the frames back.
fn spoken<F: Frames>(desk: &mut Desk, ring: &mut Ring, frames: F) -> F {
    let mut transfer = runs(desk, ring, frames, 100);
    let mut heard: Vec<u8> = vec![];
    loop {
        let mut reading = Reading::Quiet;
        if let Some(offer) = transfer.offered().unwrap() {
            heard.extend(offer.period);
            reading = completed(offer.slot);
        }
        if transfer.turn(reading).unwrap() == Turn::Done {
            break;
        }
    }
    assert_eq!(heard, transfer.frames());
    transfer.end().unwrap()
}

#[test]
fn frames_of_every_kind_come_back_as_they_were() {
    let (mut desk, mut ring) = (Desk::with_params(), Ring::new());
    let words = b"feeder one four";
    assert_eq!(spoken(&mut desk, &mut ring, words), words);
    assert_eq!(spoken(&mut desk, &mut ring, &words[..7]), b"feeder ");
    assert_eq!(spoken(&mut desk, &mut ring, &[][..]), b"");
    let given = words.to_vec();
    let place = given.as_ptr();
    let back = spoken(&mut desk, &mut ring, given);
    assert_eq!((back.as_ptr(), back.as_slice()), (place, &words[..]));
    let back = spoken(&mut desk, &mut ring, back.into_boxed_slice());
    assert_eq!(back[..], words[..]);
    // a buffer that is written again for the next announcement
    let buffer: &'static mut [u8] = Box::leak(back);
    let buffer = spoken(&mut desk, &mut ring, buffer);
    buffer.fill(7);
    assert_eq!(spoken(&mut desk, &mut ring, buffer), [7; 15]);
}

#[test]
fn a_moved_transfer_offers_the_same_bytes() {
    let (mut desk, mut ring) = (Desk::with_params(), Ring::new());
    let frames = b"ten bytes.".to_vec();
    let place = frames.as_ptr();
    let transfer = Box::new(runs(&mut desk, &mut ring, frames, 9));
    let offer = transfer.offered().unwrap().unwrap();
    let wanted = Offer {
        slot: 0,
        offset: 0,
        period: b"ten ",
    };
    assert_eq!((offer, offer.period.as_ptr()), (wanted, place));
    let moved = *transfer;
    assert_eq!(moved.offered().unwrap().unwrap().period.as_ptr(), place);
}

#[test]
fn a_ring_may_be_lent() {
    let mut store = [0xff; RING_SIZE];
    let mut desk = Desk::with_params();
    let mut ring = Ring::new_in(&mut store);
    let Started::Runs(mut transfer) = desk.sound.transfer(&mut ring, 0, b"4 by", 9) else {
        panic!("it runs")
    };
    assert_eq!(transfer.turn(completed(0)), Ok(Turn::Going));
    assert_eq!(transfer.turn(Reading::Quiet), Ok(Turn::Done));
    assert_eq!(transfer.end().unwrap(), b"4 by");
}

#[test]
fn calls_are_busy_while_a_transfer_is_there_or_owes() {
    let (mut desk, mut ring) = (Desk::with_params(), Ring::new());
    let mut transfer = runs(&mut desk, &mut ring, b"4 by", 1);
    assert_eq!(desk.sound.pcm_stop(transfer.ring(), 0), Err(Refusal::Busy));
    assert_eq!(transfer.turn(Reading::Quiet), Err(Refusal::OutOfTurns));
    assert_eq!(transfer.turn(Reading::Quiet), Err(Refusal::InvalidParam));
    assert_eq!(desk.sound.pcm_stop(transfer.ring(), 0), Err(Refusal::Busy));
    let mut same = Ring::over(*transfer.ring().store());
    let again = desk.sound.transfer(&mut same, 0, b"", 1);
    assert!(matches!(again, Started::Refused(Refusal::Busy, b"")));
    assert_eq!(transfer.drain_turn(completed(1)), Err(Refusal::WrongToken));
    assert_eq!(transfer.drain_turn(completed(0)), Ok(()));
    assert_eq!(transfer.end().unwrap(), b"4 by");
    assert!(desk.sound.pcm_stop(&ring, 0).is_ok());
}

/// Every end of a transfer of four periods, at every place: the accepted payloads are its first, the failing one is the next, and what is owed follows.
#[test]
fn what_was_heard_before_a_failure() {
    let (mut desk, mut ring, frames) = (Desk::with_params(), Ring::new(), b"feeder one four");
    let failed = |slot| Reading::Completed { slot, status: 0x8003 };
    for good in 0..=4u32 {
        for (budget, last, failing) in [
            (99, failed(good), 1),
            (99, completed(good + 1), 0),
            (5 + good, Reading::Quiet, 0),
        ] {
            let mut transfer = runs(&mut desk, &mut ring, frames, budget.into());
            // four go out before the first comes back
            for _ in 0..4 {
                assert_eq!(transfer.turn(Reading::Quiet), Ok(Turn::Going));
            }
            for slot in 0..good {
                assert_eq!(
                    (transfer.ring().accepted(), transfer.turn(completed(slot))),
                    (Ok(slot.into()), Ok(Turn::Going))
                );
            }
            let said = transfer.turn(last);
            assert_eq!(said.is_ok(), good == 4, "{last:?}");
            let spoken = (4 * good as usize).min(frames.len());
            for owed in (good + failing).min(4)..4 {
                assert_eq!(transfer.ring().oldest(), Ok(Some(owed)));
                assert_eq!(transfer.ring().carried(owed).unwrap().offset, 4 * owed as usize);
                assert_eq!(transfer.drain_turn(failed(owed)), Ok(()));
                assert_eq!(transfer.ring().accepted(), Ok(good.into()));
            }
            assert_eq!(transfer.ring().spoken_bytes(4, frames.len()), Ok(spoken));
            assert_eq!(transfer.end().unwrap(), frames);
            // one that runs no turn keeps the count of the last that did
            let refused = desk.sound.transfer(&mut ring, 0, frames, 0);
            assert!(matches!(refused, Started::Refused(Refusal::OutOfTurns, _)));
            drop(refused);
            assert_eq!(ring.accepted(), Ok(good.into()));
        }
    }
    let mut bad = *ring.store();
    bad.fill(0xff);
    assert_eq!(Ring::over(bad).accepted(), Err(Refusal::InvalidParam));
    assert_eq!(Ring::over(bad).spoken_bytes(4, 8), Err(Refusal::InvalidParam));
}

#[test]
fn what_came_of_a_start_is_shown_in_short() {
    let (mut desk, mut ring) = (Desk::with_params(), Ring::new());
    let frames = vec![0; 10_000];
    let Started::Refused(refusal, frames) = desk.sound.transfer(&mut ring, 9, frames, 1) else {
        panic!("there is no stream 9")
    };
    let refused: Started<'_, Vec<u8>> = Started::Refused(refusal, frames);
    assert_eq!(format!("{refused:?}"), "Refused(InvalidParam, 10000 bytes)");
    let started = desk.sound.transfer(&mut ring, 0, b"ten bytes.", 1);
    assert_eq!(
        format!("{started:?}"),
        "Runs(Transfer { ring: Ring { running: true, in_flight: 0, stream: 0, turns_run: 0 }, bytes: 10 })"
    );
    let mut other = Ring::new();
    let begins = Desk::new().sound.transfer(&mut other, 0, b"frames", 1);
    assert_eq!(
        format!("{begins:?}"),
        "SetUp(Exchange([1, 0, 0, 0, 0, 0, 0, 0, 2, 0, 0, 0, 24, 0, 0, 0]), 6 bytes)"
    );
}
