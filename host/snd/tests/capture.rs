//! A capture: what a microphone heard is joined into the recording, and each way in which it is refused leaves all but the accepted bytes as it was.
mod common;
use common::lent::Lent;
use common::{Desk, PARAMS, captured, sent};
use snd::{
    CAPTURE_STATUS, Captured, Capturing, Page, Places, Reading, Refusal, Ring, STATUS_OK, Sound, Started, Status, Step,
    Submitted, Turn, ffi,
};

/// Bytes of a period, and of the buffer that a device writes.
const PERIOD: usize = PARAMS.period as usize;
const BUFFER: usize = PERIOD + CAPTURE_STATUS;
/// What stands in a recording before.
const MARK: u8 = 0xa5;

fn seen(slot: u32, bytes: &[u8]) -> Captured<'_> {
    claimed(slot, bytes.len() as u32, bytes)
}

fn claimed(slot: u32, written: u32, bytes: &[u8]) -> Captured<'_> {
    Captured::Completed { slot, written, bytes }
}

/// Runs turns with one completion each, all of them good.
fn heard(ring: &mut Ring, recording: &mut [u8], payloads: &[&[u8]]) {
    for (slot, payload) in payloads.iter().enumerate() {
        let bytes = captured(payload, STATUS_OK);
        assert_eq!(ring.capture_turn(recording, seen(slot as u32, &bytes)), Ok(Turn::Going));
    }
}

#[test]
fn short_payloads_leave_no_gap() {
    let payloads: [&[u8]; 6] = [b"feed", b"e", b"", b"r 14", b", o", b"pen."];
    let (whole, mut recording) = (payloads.concat(), [MARK; 6 * PERIOD + 3]);
    let mut desk = Desk::with_capture(6, &recording, 7);
    let mut kept = 0;
    for (slot, payload) in payloads.iter().enumerate() {
        let room = desk.ring.capture_offered(&recording).unwrap().unwrap();
        assert_eq!((room.slot, room.length), (slot as u32, PERIOD));
        let bytes = captured(payload, STATUS_OK);
        let turn = desk.ring.capture_turn(&mut recording, seen(room.slot, &bytes));
        assert_eq!(turn, Ok(Turn::Going));
        kept += payload.len();
        assert_eq!(desk.ring.kept(), Ok(kept));
        assert_eq!(recording[..kept], whole[..kept]);
        assert!(recording[kept..].iter().all(|byte| *byte == MARK));
    }
    assert_eq!(desk.ring.capture_offered(&recording), Ok(None));
    assert_eq!(desk.ring.capture_turn(&mut recording, Captured::Quiet), Ok(Turn::Done));
    assert_eq!((desk.ring.turns_run(), desk.ring.kept()), (Ok(7), Ok(whole.len())));
    assert_eq!((desk.ring.running(), desk.ring.in_flight()), (Ok(false), Ok(0)));
    // the ring is free for the next, whose recording begins anew
    let step = desk.sound.pcm_capture_start(&mut desk.ring, 1, 1, &recording, 2);
    assert_eq!((step, desk.ring.kept()), (Ok(Step::Done(())), Ok(0)));
}

/// One completion in any three turns: ten are in flight, and n·g + 1 turns are enough.
#[test]
fn a_slow_microphone() {
    let (periods, slow) = (25u64, 3);
    let mut recording = vec![MARK; 25 * PERIOD];
    let mut desk = Desk::with_capture(periods, &recording, periods * slow + 1);
    let (mut out, mut most) = (vec![], 0);
    let mut turns = 0;
    let done = loop {
        turns += 1;
        out.extend(desk.ring.capture_offered(&recording).unwrap().map(|room| room.slot));
        let due = desk.ring.oldest().unwrap().or(out.last().copied());
        let bytes = captured(&[turns as u8; PERIOD], STATUS_OK);
        let reading = match due {
            Some(slot) if turns % slow == 0 => seen(slot, &bytes),
            _ => Captured::Quiet,
        };
        match desk.ring.capture_turn(&mut recording, reading) {
            Ok(Turn::Going) => most = most.max(desk.ring.in_flight().unwrap()),
            said => break said,
        }
    };
    assert_eq!((done, turns, most), (Ok(Turn::Done), periods * slow + 1, 10));
    let slots: Vec<u32> = (0..25).collect();
    assert_eq!((out, desk.ring.kept()), (slots, Ok(25 * PERIOD)));
    let whole: Vec<u8> = (1..=25).flat_map(|n| [n * 3; PERIOD]).collect();
    assert_eq!(recording, whole);
}

#[test]
fn no_periods_are_done_at_once() {
    let mut desk = Desk::with_capture(0, b"", 1);
    assert_eq!(desk.ring.capture_offered(b""), Ok(None));
    assert_eq!(desk.ring.capture_turn(&mut [], Captured::Quiet), Ok(Turn::Done));
    assert_eq!(desk.ring.kept(), Ok(0));
}

#[test]
fn the_safe_capture() {
    let mut recording = [MARK; 2 * PERIOD];
    let mut desk = Desk::with_input();
    let started = desk.sound.capture(&mut desk.ring, 1, 2, &mut recording, 9);
    let Ok(Capturing::Runs(mut capture)) = started else {
        panic!("{started:?}")
    };
    assert_eq!(
        format!("{capture:?}"),
        "Capture { ring: Ring { running: true, in_flight: 0, stream: 1, turns_run: 0 }, room: 8 }"
    );
    for payload in [&b"mik"[..], b"e"] {
        let room = capture.offered().unwrap().unwrap();
        let bytes = captured(payload, STATUS_OK);
        assert_eq!(capture.turn(seen(room.slot, &bytes)), Ok(Turn::Going));
    }
    assert_eq!((capture.recorded(), capture.kept()), (Ok(&b"mike"[..]), Ok(4)));
    assert_eq!(capture.turn(Captured::Quiet), Ok(Turn::Done));
    assert_eq!(capture.ring().turns_run(), Ok(3));
    assert_eq!(recording, *b"mike\xa5\xa5\xa5\xa5");
    // one that fails: what is owed is drained with the capture or, once it is dropped, with the ring
    let started = desk.sound.capture(&mut desk.ring, 1, 2, &mut recording, 2);
    let Ok(Capturing::Runs(mut capture)) = started else {
        panic!("{started:?}")
    };
    assert_eq!(capture.turn(Captured::Quiet), Ok(Turn::Going));
    assert_eq!(capture.turn(Captured::Quiet), Err(Refusal::OutOfTurns));
    let late = captured(b"late", STATUS_OK);
    assert_eq!(capture.drain_turn(seen(1, &late)), Err(Refusal::WrongToken));
    assert_eq!(capture.drain_turn(claimed(0, 3, b"")), Ok(()));
    assert_eq!(capture.recorded(), Ok(&b""[..]));
    let second = Reading::Completed {
        slot: 1,
        status: STATUS_OK,
    };
    assert_eq!(desk.ring.drain_turn(second), Ok(()));
    assert_eq!((desk.ring.in_flight(), desk.ring.kept()), (Ok(0), Ok(0)));
    assert_eq!(recording, *b"mike\xa5\xa5\xa5\xa5");
}

/// What a drain turn is handed of a completion: the status that stands behind the payload, if there is one.
#[test]
fn a_completion_as_a_drain_turn_takes_it() {
    let bytes = captured(b"mike", 0x8003);
    let status = |written, bytes: &[u8]| match Reading::from(claimed(7, written, bytes)) {
        Reading::Completed { slot: 7, status } => status,
        other => panic!("{other:?}"),
    };
    assert_eq!((status(12, &bytes), status(8, &bytes[4..])), (0x8003, 0x8003));
    assert_eq!(
        (status(7, &bytes), status(13, &bytes), status(u32::MAX, &bytes)),
        (0, 0, 0)
    );
    assert_eq!(Reading::from(Captured::Quiet), Reading::Quiet);
}

/// A device that has heard two periods and a half, and what its third turn is handed; what the turn says, and the bytes that are kept.
fn third(reading: Captured<'_>) -> (Result<Turn, Refusal>, Desk, Vec<u8>) {
    let mut recording = vec![MARK; 5 * PERIOD];
    let mut desk = Desk::with_capture(5, &recording, 100);
    heard(&mut desk.ring, &mut recording, &[b"feed", b"er"]);
    let said = desk.ring.capture_turn(&mut recording, reading);
    let kept = desk.ring.kept().unwrap();
    assert!(recording.starts_with(b"feeder"));
    assert!(
        recording[kept..].iter().all(|byte| *byte == MARK),
        "what was not accepted"
    );
    (said, desk, recording[..kept].to_vec())
}

/// Lengths at the edges, each in a buffer that a device was given: 8 and a period and 8 are good, all others free the slot and accept nothing.
#[test]
fn written_lengths() {
    let buffer = |written: u32| {
        let payload = (written as usize).saturating_sub(CAPTURE_STATUS).min(PERIOD);
        let mut bytes = captured(&b"14op"[..payload], STATUS_OK);
        bytes.resize(BUFFER, 0xdd);
        bytes
    };
    let edge = BUFFER as u32;
    for (written, kept) in [
        (8, &b"feeder"[..]),
        (9, b"feeder1"),
        (11, b"feeder14o"),
        (edge, b"feeder14op"),
    ] {
        let bytes = buffer(written);
        // the whole buffer, or just what was written
        for bytes in [&bytes[..], &bytes[..written as usize]] {
            let (said, desk, recorded) = third(claimed(2, written, bytes));
            assert_eq!((said, &recorded[..]), (Ok(Turn::Going), kept), "{written}");
            assert_eq!((desk.ring.running(), desk.ring.in_flight()), (Ok(true), Ok(0)));
        }
    }
    for written in [0, 1, 4, 7, edge + 1, edge + 8, 0x8000, 1 << 31, u32::MAX - 7, u32::MAX] {
        let bytes = buffer(written);
        let (said, desk, recorded) = third(claimed(2, written, &bytes));
        assert_eq!(
            (said, &recorded[..]),
            (Err(Refusal::BadCapture), &b"feeder"[..]),
            "{written}"
        );
        assert_eq!((desk.ring.running(), desk.ring.in_flight()), (Ok(false), Ok(0)));
        assert_eq!(desk.ring.turns_run(), Ok(3));
    }
    // under 8 no byte is needed, and none is looked at
    assert_eq!(third(claimed(2, 0, b"")).0, Err(Refusal::BadCapture));
}

/// The status stands behind the payload that was written, not at the buffer's front or end.
#[test]
fn the_status_stands_behind_the_payload() {
    let good = STATUS_OK.to_le_bytes();
    for (payload, status) in [
        (0, 0x8001),
        (1, 0x8002),
        (4, 0x8003),
        (4, 0),
        (2, u32::MAX),
        (3, 0x1_8000),
    ] {
        let mut bytes = captured(&b"14op"[..payload], status);
        let written = bytes.len() as u32;
        // behind it another, which is ok
        bytes.extend(good);
        bytes.resize(BUFFER.max(bytes.len()), 0);
        let (said, desk, recorded) = third(claimed(2, written, &bytes));
        let refused = Refusal::IoError(Status::of(status));
        assert_eq!((said, &recorded[..]), (Err(refused), &b"feeder"[..]), "{status:#x}");
        assert_eq!((desk.ring.running(), desk.ring.in_flight()), (Ok(false), Ok(0)));
    }
    // a payload that looks like a status that is not ok
    let bytes = captured(&0x8003u32.to_le_bytes(), STATUS_OK);
    let (said, _, recorded) = third(seen(2, &bytes));
    assert_eq!((said, &recorded[..]), (Ok(Turn::Going), &b"feeder\x03\x80\0\0"[..]));
}

/// 6 first, then 17, then 2.
#[test]
fn the_order_at_a_completion() {
    let bad = captured(b"14op", 0x8003);
    for (slot, written, refusal) in [
        (3, 7, Refusal::WrongToken),
        (1, 12, Refusal::WrongToken),
        (u32::MAX, u32::MAX, Refusal::WrongToken),
        (2, 7, Refusal::BadCapture),
        (2, 13, Refusal::BadCapture),
        (2, 12, Refusal::IoError(Some(Status::IoError))),
    ] {
        let (said, desk, recorded) = third(claimed(slot, written, &bad));
        assert_eq!(
            (said, &recorded[..]),
            (Err(refusal), &b"feeder"[..]),
            "{slot} {written}"
        );
        // 6 frees nothing
        let owed = u64::from(refusal == Refusal::WrongToken);
        assert_eq!((desk.ring.running(), desk.ring.in_flight()), (Ok(false), Ok(owed)));
    }
}

/// After a fault the others in flight are owed; a drain looks at the slot and at nothing else.
#[test]
fn what_is_owed_is_drained() {
    let mut recording = [MARK; 5 * PERIOD];
    let mut desk = Desk::with_capture(5, &recording, 100);
    for _ in 0..3 {
        assert_eq!(desk.ring.capture_turn(&mut recording, Captured::Quiet), Ok(Turn::Going));
    }
    let bytes = captured(b"mike", STATUS_OK);
    assert_eq!(
        desk.ring.capture_turn(&mut recording, claimed(0, 13, &bytes)),
        Err(Refusal::BadCapture)
    );
    assert_eq!(desk.ring.in_flight(), Ok(3));
    assert_eq!(desk.sound.pcm_stop(&desk.ring, 1), Err(Refusal::Busy));
    for slot in 1..4 {
        let wrong = Reading::Completed {
            slot: slot + 1,
            status: STATUS_OK,
        };
        assert_eq!(desk.ring.drain_turn(wrong), Err(Refusal::WrongToken));
        assert_eq!(desk.ring.drain_turn(Reading::Quiet), Ok(()));
        assert_eq!(desk.ring.drain_turn(Reading::Completed { slot, status: 0 }), Ok(()));
    }
    assert_eq!((desk.ring.in_flight(), desk.ring.kept()), (Ok(0), Ok(0)));
    assert_eq!(recording, [MARK; 5 * PERIOD]);
    assert!(matches!(desk.sound.pcm_stop(&desk.ring, 1), Ok(Step::Send(_))));
}

/// The last turn of a budget accepts what it is handed, and answers 9.
#[test]
fn out_of_turns_keeps_what_was_accepted() {
    let mut recording = [MARK; 2 * PERIOD];
    let mut desk = Desk::with_capture(2, &recording, 2);
    heard(&mut desk.ring, &mut recording, &[b"fee"]);
    let bytes = captured(b"d", STATUS_OK);
    assert_eq!(
        desk.ring.capture_turn(&mut recording, seen(1, &bytes)),
        Err(Refusal::OutOfTurns)
    );
    assert_eq!((desk.ring.kept(), desk.ring.in_flight()), (Ok(4), Ok(0)));
    assert_eq!(recording, *b"feed\xa5\xa5\xa5\xa5");
}

/// 10 at a turn comes before all else, counts nothing, and the capture goes on.
#[test]
fn lengths_at_a_turn() {
    let bytes = captured(b"mike", STATUS_OK);
    let mut recording = vec![MARK; 2 * PERIOD];
    let mut desk = Desk::with_capture(2, &recording, 9);
    let before = *desk.ring.store();
    for length in [0, 1, 2 * PERIOD - 1, 2 * PERIOD + 1, 99] {
        let mut other = vec![MARK; length];
        assert_eq!(desk.ring.capture_offered(&other), Err(Refusal::BadLength));
        for reading in [Captured::Quiet, seen(0, &bytes), claimed(9, 0, b"")] {
            assert_eq!(desk.ring.capture_turn(&mut other, reading), Err(Refusal::BadLength));
        }
        assert!(other.iter().all(|byte| *byte == MARK));
    }
    // fewer bytes than were written, as far as a period and 8 go; also of a slot that is not due
    let short: [(u32, usize); 7] = [(1, 0), (7, 6), (8, 7), (12, 11), (13, 11), (100, 11), (u32::MAX, 11)];
    for (written, length) in short {
        for slot in [0, 5] {
            let said = desk
                .ring
                .capture_turn(&mut recording, claimed(slot, written, &bytes[..length]));
            assert_eq!(said, Err(Refusal::BadLength), "{written} {length}");
        }
    }
    assert_eq!((desk.ring.store(), &recording), (&before, &vec![MARK; 2 * PERIOD]));
    heard(&mut desk.ring, &mut recording, &[b"mike"]);
}

/// A playback's turn on a capture's ring, and the other way round: 1, and nothing is changed.
#[test]
fn a_capture_and_a_playback_never_mix() {
    let (mut frames, bytes) = ([MARK; 2 * PERIOD], captured(b"mike", STATUS_OK));
    let completed = Reading::Completed {
        slot: 0,
        status: STATUS_OK,
    };
    let mut desk = Desk::with_capture(2, &frames, 9);
    let before = *desk.ring.store();
    for reading in [Reading::Quiet, completed] {
        assert_eq!(desk.ring.turn(&frames, reading), Err(Refusal::InvalidParam));
    }
    assert_eq!(desk.ring.offered(&frames), Err(Refusal::InvalidParam));
    assert_eq!(desk.ring.store(), &before);
    let mut desk = Desk::with_transfer(&frames, 9);
    let before = *desk.ring.store();
    for reading in [Captured::Quiet, seen(0, &bytes)] {
        assert_eq!(desk.ring.capture_turn(&mut frames, reading), Err(Refusal::InvalidParam));
    }
    assert_eq!(desk.ring.capture_offered(&frames), Err(Refusal::InvalidParam));
    assert_eq!((desk.ring.store(), frames), (&before, [MARK; 2 * PERIOD]));
    assert_eq!(desk.ring.kept(), Ok(0));
    // on a ring that runs nothing both are 1
    let mut ring = Ring::new();
    assert_eq!(ring.capture_turn(&mut [], Captured::Quiet), Err(Refusal::InvalidParam));
    assert_eq!(ring.capture_offered(b""), Err(Refusal::InvalidParam));
}

/// A ring serves one after the other.
#[test]
fn a_playback_after_a_capture() {
    let mut recording = [MARK; PERIOD];
    let mut desk = Desk::with_params();
    let step = desk.sound.pcm_set_params(&desk.ring, 1, PARAMS);
    desk.finish(step).unwrap();
    let step = desk.sound.pcm_capture_start(&mut desk.ring, 1, 1, &recording, 9);
    assert_eq!(step, Ok(Step::Done(())));
    heard(&mut desk.ring, &mut recording, &[b"mike"]);
    assert_eq!(desk.ring.capture_turn(&mut recording, Captured::Quiet), Ok(Turn::Done));
    let Started::Runs(mut transfer) = desk.sound.transfer(&mut desk.ring, 0, b"four", 9) else {
        panic!("it was set")
    };
    let offer = transfer.offered().unwrap().unwrap();
    assert_eq!(offer.period, b"four");
    let completed = Reading::Completed {
        slot: offer.slot,
        status: STATUS_OK,
    };
    assert_eq!(transfer.turn(completed), Ok(Turn::Going));
    assert_eq!(transfer.turn(Reading::Quiet), Ok(Turn::Done));
    assert_eq!(transfer.ring().kept(), Ok(0));
}

/// The start's refusals, each before those that follow it, and the ring as it was.
#[test]
fn the_order_of_the_start() {
    let mut desk = Desk::with_input();
    let start = |desk: &mut Desk, stream, periods, length, budget| {
        let before = (*desk.sound.store(), *desk.ring.store());
        let said = desk
            .sound
            .pcm_capture_start(&mut desk.ring, stream, periods, &vec![MARK; length], budget);
        if said.is_err() {
            assert_eq!((*desk.sound.store(), *desk.ring.store()), before);
        }
        said
    };
    // range; an output, with parameters or without; budget; the recording
    assert_eq!(start(&mut desk, 2, 3, 0, 0), Err(Refusal::InvalidParam));
    assert_eq!(start(&mut desk, 0, 3, 0, 0), Err(Refusal::InvalidParam));
    let step = desk.sound.pcm_set_params(&desk.ring, 0, PARAMS);
    desk.finish(step).unwrap();
    assert_eq!(start(&mut desk, 0, 3, 99, 9), Err(Refusal::InvalidParam));
    assert_eq!(start(&mut desk, 1, 3, 0, 0), Err(Refusal::OutOfTurns));
    for (periods, length) in [(1, 3), (3, 11), (3, 0), (1 << 62, 99), (u64::MAX, 99)] {
        assert_eq!(start(&mut desk, 1, periods, length, 9), Err(Refusal::BadLength));
    }
    assert_eq!(start(&mut desk, 1, 3, 12, 9), Ok(Step::Done(())));
    assert_eq!(start(&mut desk, 9, 3, 0, 0), Err(Refusal::Busy));
    // an input without parameters: 2, and before that an output is 1
    let mut desk = Desk::with_params();
    assert_eq!(start(&mut desk, 1, 3, 0, 0), Err(Refusal::IoError(None)));
    // Busy while an exchange is open, and while a token is pending
    let prepare = sent(desk.sound.pcm_prepare(&desk.ring, 0));
    assert_eq!(start(&mut desk, 9, 3, 0, 0), Err(Refusal::Busy));
    assert_eq!(desk.sound.feed_failure(prepare), Err(Refusal::QueueFailed));
    let mut places = Places::new(vec![0; snd::PLACES * (4 + PERIOD)]);
    let out = desk.sound.pcm_xfer_nb(&desk.ring, 0, b"four", &mut places);
    assert_eq!(out, Ok(Submitted::Token(0)));
    assert_eq!(start(&mut desk, 9, 3, 0, 0), Err(Refusal::Busy));
}

/// Under the guard 12 stands right after the range, before the direction.
#[test]
fn the_guard() {
    let mut desk = Desk {
        sound: Sound::new_guarded(2, 2, 0),
        ..Desk::new()
    };
    for stream in [0, 1] {
        let step = desk.sound.pcm_set_params(&desk.ring, stream, PARAMS);
        desk.finish(step).unwrap();
    }
    let start = |desk: &mut Desk, stream| desk.sound.pcm_capture_start(&mut desk.ring, stream, 1, b"", 0);
    assert_eq!(start(&mut desk, 2), Err(Refusal::InvalidParam));
    assert_eq!(start(&mut desk, 0), Err(Refusal::BadState));
    assert_eq!(start(&mut desk, 1), Err(Refusal::BadState));
    for stream in [0, 1] {
        let step = desk.sound.pcm_prepare(&desk.ring, stream);
        desk.finish(step).unwrap();
    }
    assert_eq!(start(&mut desk, 0), Err(Refusal::InvalidParam));
    assert_eq!(start(&mut desk, 1), Err(Refusal::OutOfTurns));
}

/// A capture that begins set-up never runs: range 1, 12 under the guard, direction 1, else 2; and what the queries themselves are refused with.
#[test]
fn a_capture_that_begins_set_up() {
    let ends = |mut desk: Desk, stream| {
        let mut recording = [MARK; PERIOD];
        let step = match desk.sound.capture(&mut desk.ring, stream, 1, &mut recording, 9) {
            Ok(Capturing::SetUp(exchange)) => Ok(Step::Send(exchange)),
            other => panic!("{other:?}"),
        };
        let said = desk.finish(step);
        assert_eq!((desk.ring.running(), recording), (Ok(false), [MARK; PERIOD]));
        said
    };
    assert_eq!(ends(Desk::new(), 0), Err(Refusal::InvalidParam));
    assert_eq!(ends(Desk::new(), 1), Err(Refusal::IoError(None)));
    assert_eq!(ends(Desk::new(), 2), Err(Refusal::InvalidParam));
    let guarded = || Desk {
        sound: Sound::new_guarded(2, 2, 0),
        ..Desk::new()
    };
    assert_eq!(ends(guarded(), 0), Err(Refusal::BadState));
    assert_eq!(ends(guarded(), 1), Err(Refusal::BadState));
    assert_eq!(ends(guarded(), 2), Err(Refusal::InvalidParam));
    let mut desk = Desk::new();
    let jacks = sent(desk.sound.pcm_capture_start(&mut desk.ring, 1, 1, b"", 0));
    let streams = sent(desk.sound.feed(jacks, &Page::new()));
    assert_eq!(desk.sound.feed_failure(streams), Err(Refusal::QueueFailed));
}

/// Of every lent byte but the recording's accepted ones; by the entries themselves.
#[test]
fn a_turn_writes_the_ring_and_what_it_accepts() {
    let turn = common::entries::entry("snd_capture_turn");
    let mut lent = Lent::capturing();
    let mut want = lent.clone();
    assert_eq!((turn.call)(&mut lent), 512);
    want.ring.clone_from(&lent.ring);
    want.recording[..4].copy_from_slice(b"mike");
    assert_eq!(lent, want);
    // a quiet reading, a wrong slot, a bad length, a bad status: the ring alone
    for (kind, slot, written, status, answer) in [
        (0, 0, 0, 0, 512),
        (1, 9, 12, STATUS_OK, 6),
        (1, 1, 3, STATUS_OK, 17),
        (1, 1, 12, 0x8002, 0x8002_0000_0002),
    ] {
        let mut lent = lent.clone();
        lent.numbers = [slot, written, 0, kind];
        lent.bytes = captured(b"ours", status);
        let mut want = lent.clone();
        assert_eq!((turn.call)(&mut lent), answer);
        want.ring.clone_from(&lent.ring);
        assert_eq!(lent, want);
    }
    let offered = common::entries::entry("snd_capture_offered");
    let mut want = lent.clone();
    assert_eq!((offered.call)(&mut lent), 0);
    want.result[..24].copy_from_slice(
        &[
            [1, 0, 0, 0, 0, 0, 0, 0],
            [1, 0, 0, 0, 0, 0, 0, 0],
            [4, 0, 0, 0, 0, 0, 0, 0],
        ]
        .concat(),
    );
    assert_eq!(lent, want);
    assert_eq!(ffi::snd_ring_kept(&lent.ring, &mut lent.result), 0);
    want.result[..8].copy_from_slice(&4u64.to_le_bytes());
    assert_eq!(lent, want);
}

/// An inconsistent store is 1, or 10 for a turn that is lent another length than at its start; a recording is then left as it was.
#[test]
fn garbage_is_refused() {
    let mut ring = Ring::over([0xff; snd::RING_SIZE]);
    let (before, mut recording) = (*ring.store(), vec![MARK; 8]);
    assert_eq!(ring.kept(), Err(Refusal::InvalidParam));
    // that it runs and was lent another length is tested before its consistency
    let said = ring.capture_turn(&mut recording, Captured::Quiet);
    assert_eq!(said.err(), Some(Refusal::BadLength));
    assert_eq!((ring.store(), recording), (&before, vec![MARK; 8]));
    let mut sound = Sound::over([0xff; snd::STATE_SIZE]);
    let said = sound.pcm_capture_start(&mut Ring::new(), 1, 1, b"four", 9);
    assert_eq!(said, Err(Refusal::InvalidParam));
}
