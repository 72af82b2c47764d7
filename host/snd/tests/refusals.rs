//! Every refusal but 10, each way to it.
mod common;
use common::{Desk, PARAMS, captured, sent};
use snd::{
    Captured, Cause, Model, PLACES, Page, Params, PcmInfo, Places, Reading, Refusal, Ring, STATUS_OK, Sound, Status,
    Step, Submitted, Unfed, Value,
};

const OK: Reading = Reading::Completed {
    slot: 0,
    status: STATUS_OK,
};

#[test]
fn invalid_param_1_for_bad_numbers() {
    let mut desk = Desk::with_params();
    for (buffer, period) in [(8, 3), (8, 0), (4, 8), (0, 0)] {
        let to = Params {
            buffer,
            period,
            ..PARAMS
        };
        assert_eq!(desk.sound.pcm_set_params(&desk.ring, 0, to), Err(Refusal::InvalidParam));
    }
    assert_eq!(
        desk.sound.pcm_set_params(&desk.ring, 2, PARAMS),
        Err(Refusal::InvalidParam)
    );
    assert_eq!(desk.sound.jack_remap(&desk.ring, 2, 0, 0), Err(Refusal::InvalidParam));
    assert_eq!(desk.sound.rates_supported(&desk.ring, 2), Err(Refusal::InvalidParam));
    assert_eq!(desk.sound.formats_supported(&desk.ring, 2), Err(Refusal::InvalidParam));
    assert_eq!(
        desk.sound.channel_range_supported(&desk.ring, 2),
        Err(Refusal::InvalidParam)
    );
    assert_eq!(
        desk.sound.features_supported(&desk.ring, u32::MAX),
        Err(Refusal::InvalidParam)
    );
    assert_eq!(
        desk.sound.pcm_xfer_start(&mut desk.ring, 2, b"", 1),
        Err(Refusal::InvalidParam)
    );
    assert_eq!(desk.ring.carried(32), Err(Refusal::InvalidParam));
    assert_eq!(desk.device.played(2), Err(Refusal::InvalidParam));
    assert_eq!(desk.device.params(2), Err(Refusal::InvalidParam));
}

#[test]
fn invalid_param_1_for_format_and_rate_before_anything_is_sent() {
    let mut lent = common::lent::Lent::idle();
    assert_eq!(snd::ffi::snd_new(&mut lent.state, 2, 2, 0), 0);
    let before = lent.clone();
    for narrow in [[2, 25, 7], [2, 5, 14], [2, 255, 255]] {
        lent.narrow = narrow;
        assert_eq!((common::entries::entry("snd_pcm_set_params").call)(&mut lent), 1);
        assert!(lent.state == before.state && lent.message == before.message);
    }
}

#[test]
fn invalid_param_1_where_nothing_is_open() {
    let mut desk = Desk::with_params();
    let mut asking = common::lent::Lent::idle();
    assert_eq!((common::entries::entry("snd_feed").call)(&mut asking), 1);
    assert_eq!((common::entries::entry("snd_feed_written").call)(&mut asking), 1);
    assert_eq!((common::entries::entry("snd_feed_failure").call)(&mut asking), 1);
    assert_eq!(desk.ring.turn(b"", Reading::Quiet), Err(Refusal::InvalidParam));
    assert_eq!(desk.ring.offered(b""), Err(Refusal::InvalidParam));
    let mut desk = Desk::with_transfer(b"frames", 9);
    assert_eq!(desk.ring.drain_turn(Reading::Quiet), Err(Refusal::InvalidParam));
}

#[test]
fn invalid_param_1_for_garbage() {
    let (mut sound, mut ring) = (Sound::over([0xff; snd::STATE_SIZE]), Ring::over([0xff; snd::RING_SIZE]));
    let good = Ring::new();
    assert_eq!(sound.pcm_prepare(&good, 0), Err(Refusal::InvalidParam));
    assert_eq!(sound.abandon(), Err(Refusal::InvalidParam));
    let elsewhere = sent(Sound::new(0, 0, 0).pcm_prepare(&good, 0));
    assert_eq!(sound.feed(elsewhere, &Page::new()), Err(Refusal::InvalidParam));
    assert_eq!(sound.store(), &[0xff; snd::STATE_SIZE]);
    assert_eq!(Sound::new(0, 0, 0).pcm_prepare(&ring, 0), Err(Refusal::InvalidParam));
    // lengths come first: these bytes say that a transfer of other frames runs
    assert_eq!(ring.turn(b"", OK), Err(Refusal::BadLength));
    assert_eq!(ring.drain_turn(OK), Err(Refusal::InvalidParam));
    assert_eq!(ring.in_flight(), Err(Refusal::InvalidParam));
    assert_eq!(ring.store(), &[0xff; snd::RING_SIZE]);
    let mut device = Model::over([0xff; snd::MODEL_SIZE]);
    assert_eq!(device.control(b"", &mut Page::new()), Err(Refusal::InvalidParam));
    assert_eq!(device.transfer(b""), Err(Refusal::InvalidParam));
}

#[test]
fn invalid_param_1_for_a_reserved_byte() {
    let good = Desk::with_transfer(b"frames", 9);
    for at in 0..16 {
        let mut state = *good.sound.store();
        // the guard's word, which is 0 or 1, and the reserved one after it
        state[48 + at] = 1 << ((at + 1) % 8);
        let mut sound = Sound::over(state);
        assert_eq!(sound.pcm_stop(&Ring::new(), 0), Err(Refusal::InvalidParam));
        assert_eq!(sound.jacks(), Err(Refusal::InvalidParam));
        assert_eq!(sound.store(), &state);
    }
}

/// No transfer had more good completions than turns.
#[test]
fn invalid_param_1_for_completions_that_no_turn_had() {
    let good = Desk::with_transfer(b"frames", 9);
    for at in 0..8 {
        let mut store = *good.ring.store();
        store[88 + at] = 1 << at;
        let mut ring = Ring::over(store);
        assert_eq!(ring.offered(b"frames"), Err(Refusal::InvalidParam));
        assert_eq!(ring.turn(b"frames", OK), Err(Refusal::InvalidParam));
        assert_eq!(ring.turn(b"", OK), Err(Refusal::BadLength));
        assert_eq!(ring.running(), Err(Refusal::InvalidParam));
        assert_eq!(ring.store(), &store);
    }
}

/// Words that a device may say where it refuses: the standard's three, numbers that it does not name, and that of a page of zeros.
const REFUSING: [(u32, Status); 7] = [
    (0x8001, Status::BadMessage),
    (0x8002, Status::NotSupported),
    (0x8003, Status::IoError),
    (0x8004, Status::Other(0x8004)),
    (0, Status::Other(0)),
    (0x1_8000, Status::Other(0x1_8000)),
    (u32::MAX, Status::Other(u32::MAX)),
];

#[test]
fn io_error_2_carries_what_the_device_said() {
    let mut desk = Desk::with_params();
    for (word, status) in REFUSING {
        let said: Result<(), Refusal> = Err(Refusal::IoError(Some(status)));
        let step = desk.sound.pcm_set_params(&desk.ring, 0, PARAMS);
        assert_eq!(desk.finish_with_status(step, word), said);
        let step = desk.sound.pcm_prepare(&desk.ring, 0);
        assert_eq!(desk.finish_with_status(step, word), said);
        let step = desk.sound.pcm_start(&desk.ring, 0);
        assert_eq!(desk.finish_with_status(step, word), said);
        let step = desk.sound.pcm_stop(&desk.ring, 0);
        assert_eq!(desk.finish_with_status(step, word), said);
        let step = desk.sound.pcm_release(&desk.ring, 0);
        assert_eq!(desk.finish_with_status(step, word), said);
        // the query of streams fails, those of jacks too: set-up is cut short, and begins again
        let mut new = Desk::new();
        let step = new.sound.pcm_prepare(&new.ring, 0);
        assert_eq!(new.finish_with_status(step, word), said);
        let step = new.sound.pcm_prepare(&new.ring, 0);
        assert_eq!(new.finish(step), Ok(()));
    }
}

/// What a call says where the queries of its set-up are answered with these statuses, and nothing else but zeros.
fn after<T: Value>(
    call: impl FnOnce(&mut Desk) -> Result<Step<T>, Refusal>,
    statuses: [u32; 3],
) -> Result<Step<T>, Refusal> {
    let mut desk = Desk::new();
    let mut step = call(&mut desk)?;
    for status in statuses {
        let Step::Send(exchange) = step else { break };
        let asked = exchange.bytes().first_chunk() == Some(&[1, 0]);
        if asked && status == STATUS_OK {
            desk.device.control(exchange.bytes(), &mut desk.page)?;
        }
        desk.page.bytes_mut()[..4].copy_from_slice(&status.to_le_bytes());
        step = desk.sound.feed(exchange, &desk.page)?;
    }
    Ok(step)
}

/// A status of jacks or of channel maps is handed on by nobody: set-up goes on.
#[test]
fn a_status_that_did_not_cause_the_refusal_is_not_carried() {
    let prepare = |desk: &mut Desk| desk.sound.pcm_prepare(&desk.ring, 0);
    let refused = Err(Refusal::IoError(Some(Status::NotSupported)));
    assert_eq!(after(prepare, [0x8003, 0x8002, 0]), refused);
    // maps fail, and then the call's own test
    let transfer = |desk: &mut Desk| desk.sound.pcm_xfer_start(&mut desk.ring, 0, b"", 1);
    let remap = |desk: &mut Desk| desk.sound.jack_remap(&desk.ring, 1, 0, 0);
    for status in [STATUS_OK, 0x8001, 0x8002, 0x8003, 0] {
        assert_eq!(
            after(transfer, [STATUS_OK, STATUS_OK, status]),
            Err(Refusal::IoError(None))
        );
        assert_eq!(
            after(remap, [STATUS_OK, STATUS_OK, status]),
            Err(Refusal::Unsupported(None))
        );
        assert_eq!(after(remap, [0x8003, STATUS_OK, status]), Err(Refusal::NoInfo));
    }
}

#[test]
fn io_error_2_without_a_status() {
    let none = Refusal::IoError(None);
    let mut desk = Desk::with_params();
    assert_eq!(desk.sound.pcm_xfer_start(&mut desk.ring, 1, b"", 1), Err(none));
    assert_eq!(snd::latest_notification(&[2, 16, 0, 0, 0, 0, 0, 0]), Err(none));
    // after a set-up that the transfer began: no stream has parameters
    let mut desk = Desk::new();
    let step = desk.sound.pcm_xfer_start(&mut desk.ring, 0, b"", 1);
    assert_eq!(desk.finish(step), Err(none));
}

#[test]
fn io_error_2_ends_a_transfer_and_frees_the_slot() {
    for (word, status) in REFUSING {
        let mut desk = Desk::with_transfer(b"frames", 9);
        let slot = desk.ring.offered(b"frames").unwrap().unwrap().slot;
        let failed = Reading::Completed { slot, status: word };
        let refused = Err(Refusal::IoError(Some(status)));
        assert_eq!(desk.ring.turn(b"frames", failed), refused);
        assert_eq!((desk.ring.running(), desk.ring.in_flight()), (Ok(false), Ok(0)));
    }
}

#[test]
fn unsupported_3() {
    let mut desk = Desk::with_params();
    // it lacks REMAP, and nothing is sent
    let lacks = desk.sound.jack_remap(&desk.ring, 1, 0, 0);
    assert_eq!(lacks, Err(Refusal::Unsupported(None)));
    for (word, status) in REFUSING {
        let step = desk.sound.jack_remap(&desk.ring, 0, 0, 0);
        let refused = Err(Refusal::Unsupported(Some(status)));
        assert_eq!(desk.finish_with_status(step, word), refused);
    }
}

/// Status 0 and none differ, and so do any two words, in what is compared and in what is read.
#[test]
fn two_causes_are_two_refusals() {
    let causes: Vec<Cause> = REFUSING
        .iter()
        .map(|(word, _)| Status::of(*word))
        .chain([None])
        .collect();
    let refusals = causes
        .iter()
        .flat_map(|cause| [Refusal::IoError(*cause), Refusal::Unsupported(*cause)]);
    let refusals: Vec<Refusal> = refusals.collect();
    for (at, one) in refusals.iter().enumerate() {
        for other in &refusals[..at] {
            assert_ne!(one, other);
            assert_ne!(one.to_string(), other.to_string());
        }
    }
}

/// Where a status was the cause, and where none was; of every other answer the high half is 0.
#[test]
fn the_high_half_of_an_answer() {
    use snd::ffi::{snd_drain_turn, snd_latest_notification, snd_turn};
    let mut store = *Desk::with_transfer(b"frames", 9).ring.store();
    let mut result = [0; snd::RESULT_SIZE];
    assert_eq!(snd_drain_turn(&mut store, 1, 0, 0x8003), 1);
    assert_eq!(snd_turn(&mut store, b"frames", 0, 0, 0x8003), 512);
    assert_eq!(snd_turn(&mut store.clone(), b"frames", 1, 31, 0x8003), 6);
    assert_eq!(snd_turn(&mut store.clone(), b"frames", 1, 0, 0x8003), 0x8003_0000_0002);
    assert_eq!(snd_turn(&mut store, b"frames", 1, 0, 0), 2);
    assert_eq!(snd_drain_turn(&mut store, 1, 1, 0x8003), 0);
    let event = [2, 16, 0, 0, 0, 0, 0, 0];
    assert_eq!(snd_latest_notification(&event, &mut result), 0x8000_0000_0002);
}

#[test]
fn no_info_4() {
    let mut desk = Desk::new();
    let jacks = sent(desk.sound.jack_remap(&desk.ring, 0, 0, 0));
    let step = desk.sound.feed_failure(jacks);
    assert_eq!(desk.finish(step), Err(Refusal::NoInfo));
}

#[test]
fn too_many_5() {
    let mut sound = Sound::new(0, 128, 0);
    let (ring, mut page) = (Ring::new(), Page::new());
    page.bytes_mut()[1] = 0x80;
    let jacks = sent(sound.pcm_prepare(&ring, 0));
    let streams = sent(sound.feed(jacks, &page));
    assert_eq!(sound.feed(streams, &page), Err(Refusal::TooMany));
    // a refused query of as many jacks is an empty table
    let mut sound = Sound::new(171, 0, 0);
    let jacks = sent(sound.pcm_prepare(&ring, 0));
    assert!(matches!(sound.feed(jacks, &Page::new()), Ok(Step::Send(_))));
}

#[test]
fn wrong_token_6() {
    let mut desk = Desk::with_transfer(b"frames", 9);
    let slot = desk.ring.offered(b"frames").unwrap().unwrap().slot;
    let wrong = Reading::Completed {
        slot: slot + 1,
        status: STATUS_OK,
    };
    assert_eq!(desk.ring.turn(b"frames", wrong), Err(Refusal::WrongToken));
    assert_eq!(desk.ring.in_flight(), Ok(1));
    assert_eq!(desk.ring.drain_turn(wrong), Err(Refusal::WrongToken));
    assert_eq!(desk.ring.drain_turn(Reading::Quiet), Ok(()));
    assert_eq!(desk.ring.drain_turn(Reading::Completed { slot, status: 0 }), Ok(()));
    assert_eq!(
        desk.ring.drain_turn(Reading::Completed { slot, status: 0 }),
        Err(Refusal::WrongToken)
    );
    assert_eq!(desk.ring.in_flight(), Ok(0));
}

#[test]
fn queue_failed_7() {
    let mut desk = Desk::with_params();
    let prepare = sent(desk.sound.pcm_prepare(&desk.ring, 0));
    assert_eq!(desk.sound.feed_failure(prepare), Err(Refusal::QueueFailed));
}

#[test]
fn busy_8_while_an_exchange_is_open() {
    let mut desk = Desk::new();
    assert!(matches!(desk.sound.pcm_prepare(&desk.ring, 0), Ok(Step::Send(_))));
    assert_eq!(desk.sound.pcm_stop(&desk.ring, 0), Err(Refusal::Busy));
    assert_eq!(desk.sound.output_streams(&desk.ring), Err(Refusal::Busy));
    assert_eq!(desk.sound.pcm_xfer_start(&mut desk.ring, 0, b"", 1), Err(Refusal::Busy));
    assert_eq!(desk.sound.jacks(), Ok(2));
}

#[test]
fn busy_8_while_a_transfer_runs_or_a_slot_is_owed() {
    let mut desk = Desk::with_transfer(b"frames", 1);
    assert_eq!(desk.sound.pcm_stop(&desk.ring, 0), Err(Refusal::Busy));
    let slot = desk.ring.offered(b"frames").unwrap().unwrap().slot;
    assert_eq!(desk.ring.turn(b"frames", Reading::Quiet), Err(Refusal::OutOfTurns));
    assert_eq!(desk.sound.pcm_stop(&desk.ring, 0), Err(Refusal::Busy));
    assert_eq!(desk.sound.pcm_xfer_start(&mut desk.ring, 0, b"", 1), Err(Refusal::Busy));
    assert_eq!(
        desk.ring.drain_turn(Reading::Completed {
            slot,
            status: STATUS_OK
        }),
        Ok(())
    );
    assert!(matches!(desk.sound.pcm_stop(&desk.ring, 0), Ok(Step::Send(_))));
}

#[test]
fn out_of_turns_9() {
    let mut desk = Desk::with_params();
    assert_eq!(
        desk.sound.pcm_xfer_start(&mut desk.ring, 0, b"frames", 0),
        Err(Refusal::OutOfTurns)
    );
    assert_eq!((desk.ring.running(), desk.ring.in_flight()), (Ok(false), Ok(0)));
    // eleven periods, all quiet, twelve turns: ten are in flight
    let frames = [7; 44];
    let mut desk = Desk::with_transfer(&frames, 12);
    for _ in 0..11 {
        assert_eq!(desk.ring.turn(&frames, Reading::Quiet), Ok(snd::Turn::Going));
    }
    assert_eq!(desk.ring.turn(&frames, Reading::Quiet), Err(Refusal::OutOfTurns));
    assert_eq!((desk.ring.in_flight(), desk.ring.turns_run()), (Ok(10), Ok(12)));
}

#[test]
fn short_11() {
    // of the call's own answer, and of the query of streams, under 4 bytes and under 4 + count * size
    for written in 0..4 {
        let mut desk = Desk::with_params();
        let prepare = sent(desk.sound.pcm_prepare(&desk.ring, 0));
        let fed = desk.sound.feed_written(prepare, &desk.page, written);
        assert_eq!(fed, Err(Unfed::Refused(Refusal::Short)));
    }
    for written in [0, 3, 4, 4 + 2 * 32 - 1] {
        let mut desk = Desk::new();
        let jacks = sent(desk.sound.pcm_prepare(&desk.ring, 0));
        let streams = sent(desk.sound.feed_failure(jacks));
        desk.device.control(streams.bytes(), &mut desk.page).unwrap();
        let fed = desk.sound.feed_written(streams, &desk.page, written);
        assert_eq!(fed, Err(Unfed::Refused(Refusal::Short)));
    }
}

/// Each way to them, and to 1, 2, 6, 8, 10 and 12 of what does not wait: tests/pending.rs.
#[test]
fn full_15_and_not_yet_16() {
    let mut desk = Desk::with_params();
    let mut places = Places::new(vec![0; PLACES * 8]);
    for token in 0..PLACES as u32 {
        let out = desk.sound.pcm_xfer_nb(&desk.ring, 0, b"four", &mut places);
        assert_eq!(out, Ok(Submitted::Token(token)));
    }
    let out = desk.sound.pcm_xfer_nb(&desk.ring, 0, b"four", &mut places);
    assert_eq!(out, Err(Refusal::Full));
    assert_eq!(desk.sound.pcm_xfer_ok(&mut places, 0), Err(Refusal::NotYet));
}

/// Each way to it, and to 1, 2, 6, 8, 9, 10 and 12 of a capture: tests/capture.rs.
#[test]
fn bad_capture_17() {
    let mut recording = [0; 4];
    let mut desk = Desk::with_capture(1, &recording, 9);
    let bytes = captured(b"", STATUS_OK);
    let seen = Captured::Completed {
        slot: 0,
        written: 7,
        bytes: &bytes,
    };
    assert_eq!(desk.ring.capture_turn(&mut recording, seen), Err(Refusal::BadCapture));
    assert_eq!((desk.ring.running(), desk.ring.in_flight()), (Ok(false), Ok(0)));
}

/// Each way to them: tests/wav.rs.
#[test]
fn not_wave_13_and_bad_sound_14() {
    let mut lent = common::lent::Lent::good();
    assert!(snd::wav::read(&lent.file).is_ok());
    lent.file[20] = 3;
    assert_eq!(snd::wav::read(&lent.file), Err(Refusal::BadSound));
    lent.file[0] = b'r';
    assert_eq!(snd::wav::read(&lent.file), Err(Refusal::NotWave));
    lent.narrow[1] = 6;
    assert_eq!((common::entries::entry("snd_wav_write").call)(&mut lent), 14);
}

#[test]
fn bad_state_12() {
    // each call that a stream's state may bar; tests/lifecycle.rs has every state
    let mut desk = Desk {
        sound: Sound::new_guarded(2, 2, 0),
        ..Desk::new()
    };
    for call in [Sound::pcm_release, Sound::pcm_start, Sound::pcm_stop] {
        let step = call(&mut desk.sound, &desk.ring, 0);
        assert_eq!(desk.finish(step), Err(Refusal::BadState));
    }
    let step = desk.sound.pcm_xfer_start(&mut desk.ring, 0, b"", 9);
    assert_eq!(desk.finish(step), Err(Refusal::BadState));
    for call in [Sound::pcm_prepare, Sound::pcm_start] {
        let step = call(&mut desk.sound, &desk.ring, 0);
        assert_eq!(desk.finish(step), Ok(()));
    }
    let step = desk.sound.pcm_set_params(&desk.ring, 0, PARAMS);
    assert_eq!(desk.finish(step), Err(Refusal::BadState));
    let step = desk.sound.pcm_prepare(&desk.ring, 0);
    assert_eq!(desk.finish(step), Err(Refusal::BadState));
}

#[test]
fn a_model_with_too_many_records_is_refused() {
    assert!(Model::new(&[[0; 24]; 171], &[], &[]).is_err());
    assert!(Model::new(&[], &[PcmInfo::output(1, 1).to_bytes(); 128], &[]).is_err());
    assert!(Model::new(&[], &[], &[[0; 24]; 171]).is_err());
    assert!(Model::new(&[[0; 24]; 170], &[[0; 32]; 127], &[[0; 24]; 170]).is_ok());
}

#[test]
fn answers_have_the_documents_numbers() {
    let names = [
        (1, "InvalidParam"),
        (2, "IoError"),
        (3, "Unsupported"),
        (4, "NoInfo"),
        (5, "TooMany"),
        (6, "WrongToken"),
        (7, "QueueFailed"),
        (8, "Busy"),
        (9, "OutOfTurns"),
        (10, "BadLength"),
        (11, "Short"),
        (12, "BadState"),
        (13, "NotWave"),
        (14, "BadSound"),
        (15, "Full"),
        (16, "NotYet"),
        (17, "BadCapture"),
        (18, "BadTrace"),
        (19, "NotARun"),
        (20, "ListFull"),
    ];
    for (number, name) in names {
        let refusal = Refusal::of(u64::from(number) | 0x8002 << 32);
        assert_eq!((refusal.number(), refusal.name()), (number, name));
        let answer = snd::Answer::from(refusal);
        let carries = [2, 3].contains(&number);
        let cause = carries.then_some(Some(Status::NotSupported));
        assert_eq!((refusal.cause(), answer.cause()), (cause, cause));
        let said = if carries {
            ": the device said 0x8002, not supported"
        } else {
            ""
        };
        assert_eq!(
            (answer.number(), answer.name(), answer.to_string()),
            (number, name, format!("{number} {name}{said}"))
        );
    }
    assert_eq!((snd::Answer::Ok.number(), snd::Answer::Ok.name()), (0, "Ok"));
    assert_eq!(Refusal::of(21), Refusal::Unknown);
    assert_eq!(
        Refusal::of(0x8000_0000_0003).to_string(),
        "3 Unsupported: no status caused it"
    );
    assert_eq!(
        Refusal::of(2).to_string(),
        "2 IoError: the device said 0x00000000, no status that the standard names"
    );
}
