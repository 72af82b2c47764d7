//! The guard: what a stream's state permits, every pair of a state and a command, through the entries.
mod common;
use common::lent::Lent;
use snd::{STATE_SIZE, ffi};

/// Commands, and the state after each: the request's code less 0x0101.
const SET: usize = 0;
const PREPARE: usize = 1;
const RELEASE: usize = 2;
const START: usize = 3;
const STOP: usize = 4;
const COMMANDS: [usize; 5] = [SET, PREPARE, RELEASE, START, STOP];

/// VirtIO 1.2, "PCM Command Lifecycle": the valid transitions that it names of each command.
const TRANSITIONS: [&[usize]; 5] = [
    &[SET, PREPARE],
    &[SET, PREPARE, START, RELEASE],
    &[SET, PREPARE],
    &[STOP],
    &[START, RELEASE],
];
/// There: an output stream takes frames after prepare, "for pre-buffering", and any stream between start and stop.
const TAKES: [bool; 5] = [false, true, false, true, false];

/// Ok commands that lead to each state.
const WAYS: [&[usize]; 5] = [
    &[SET],
    &[SET, PREPARE],
    &[SET, PREPARE, RELEASE],
    &[SET, PREPARE, START],
    &[SET, PREPARE, START, STOP],
];

const STREAMS: u32 = 2;
/// docs/STATE.md has these places.
const GUARD: usize = 48;
const LIVES: usize = 14_320;

const OK: u32 = 0x8000;
const DONE: u64 = 0;
const SEND: u64 = 256;
const GOING: u64 = 512;
const BAD_STATE: u64 = 12;
/// 2 by no status: the stream has no parameters.
const NOT_SET: u64 = io_error(OK);

/// 2, and what the device said.
const fn io_error(status: u32) -> u64 {
    (status as u64) << 32 | 2
}

/// Everything that is lent, with a new state of one jack, two streams and one map.
fn new(guard: bool) -> Lent {
    let mut lent = Lent::idle();
    let entry = if guard { ffi::snd_new_guarded } else { ffi::snd_new };
    assert_eq!(entry(&mut lent.state, 1, STREAMS, 1), DONE);
    lent
}

fn ask(lent: &mut Lent, command: usize, stream: u32) -> u64 {
    let Lent {
        state,
        ring,
        message,
        result,
        ..
    } = lent;
    let entry = match command {
        SET => return ffi::snd_pcm_set_params(state, ring, stream, 8, 4, 0, 2, 5, 7, message, result),
        PREPARE => ffi::snd_pcm_prepare,
        RELEASE => ffi::snd_pcm_release,
        START => ffi::snd_pcm_start,
        _ => ffi::snd_pcm_stop,
    };
    entry(state, ring, stream, message, result)
}

fn transfer(lent: &mut Lent, stream: u32, budget: u64) -> u64 {
    let Lent {
        state,
        ring,
        message,
        frames,
        ..
    } = lent;
    ffi::snd_pcm_xfer_start(state, ring, stream, frames, budget, message)
}

/// Feeds a page of this status and zeros.
fn feed(lent: &mut Lent, status: u32) -> u64 {
    lent.page[..4].copy_from_slice(&status.to_le_bytes());
    ffi::snd_feed(&mut lent.state, &lent.page, &mut lent.message, &mut lent.result)
}

fn feed_written(lent: &mut Lent, written: u64) -> u64 {
    lent.page[..4].copy_from_slice(&OK.to_le_bytes());
    ffi::snd_feed_written(
        &mut lent.state,
        &lent.page,
        written,
        &mut lent.message,
        &mut lent.result,
    )
}

fn fail(lent: &mut Lent) -> u64 {
    ffi::snd_feed_failure(&mut lent.state, &mut lent.message, &mut lent.result)
}

fn outputs(lent: &mut Lent) -> u64 {
    ffi::snd_output_streams(&mut lent.state, &lent.ring, &mut lent.message, &mut lent.result)
}

fn length(command: usize) -> u64 {
    if command == SET { 24 } else { 8 }
}

/// A command of stream 0 that goes out and is answered ok.
fn goes(lent: &mut Lent, command: usize) {
    assert_eq!(ask(lent, command, 0), SEND + length(command));
    assert_eq!(feed(lent, OK), DONE);
}

/// A state that is set up, with stream 0 led through these ok commands.
fn led(guard: bool, way: &[usize]) -> Lent {
    let mut lent = new(guard);
    assert_eq!(outputs(&mut lent), SEND + 16);
    assert_eq!(
        [OK; 3].map(|status| feed(&mut lent, status)),
        [SEND + 16, SEND + 16, DONE]
    );
    for command in way {
        goes(&mut lent, *command);
    }
    lent
}

/// Every state, as a store that calls left in it.
fn states() -> impl Iterator<Item = (usize, Lent)> {
    WAYS.iter().map(|way| led(true, way)).enumerate()
}

#[test]
fn all_25_pairs_of_a_state_and_a_command() {
    for (from, left) in states() {
        assert_eq!(usize::from(left.state[LIVES]), from);
        for command in COMMANDS {
            let mut lent = left.clone();
            let said = ask(&mut lent, command, 0);
            if !TRANSITIONS[from].contains(&command) {
                assert_eq!(said, BAD_STATE, "{command} from {from}");
                assert!(lent == left, "{command} from {from} changed a byte");
                continue;
            }
            assert_eq!(said, SEND + length(command), "{command} from {from}");
            let code = 0x0101 + command as u32;
            assert_eq!(lent.message[..8], [code.to_le_bytes(), [0; 4]].concat());
            assert_eq!(
                usize::from(lent.state[LIVES]),
                from,
                "{command} from {from} moved when sent"
            );
            assert_eq!(feed(&mut lent, OK), DONE);
            assert_eq!(usize::from(lent.state[LIVES]), command, "{command} from {from}");
            assert_eq!(
                lent.state[LIVES + 1..][..126],
                [0; 126],
                "{command} from {from} moved another stream"
            );
        }
    }
}

#[test]
fn a_transfer_from_each_state() {
    for (from, left) in states() {
        let mut lent = left.clone();
        let said = transfer(&mut lent, 0, 9);
        if TAKES[from] {
            assert_eq!(said, GOING, "from {from}");
            assert!(lent.state == left.state, "a transfer from {from} moved the state");
        } else {
            assert_eq!(said, BAD_STATE, "from {from}");
            assert!(lent == left, "a transfer from {from} changed a byte");
        }
    }
}

#[test]
fn an_answer_that_is_not_ok_leaves_the_stream_where_it_was() {
    type Feed = fn(&mut Lent) -> u64;
    let feeds: [(Feed, u64); 8] = [
        (|lent| feed(lent, 0x8001), io_error(0x8001)),
        (|lent| feed(lent, 0x8002), io_error(0x8002)),
        (|lent| feed(lent, 0x8003), io_error(0x8003)),
        (|lent| feed(lent, 0), io_error(0)),
        (|lent| feed(lent, u32::MAX), io_error(u32::MAX)),
        (|lent| feed_written(lent, 0), 11),
        (|lent| feed_written(lent, 3), 11),
        (fail, 7),
    ];
    for (from, left) in states() {
        for &command in TRANSITIONS[from] {
            for (feed, refusal) in feeds {
                let mut lent = left.clone();
                assert_eq!(ask(&mut lent, command, 0), SEND + length(command));
                assert_eq!(feed(&mut lent), refusal);
                assert!(lent.state == left.state, "{refusal} to {command} from {from} moved it");
            }
            let mut lent = left.clone();
            assert_eq!(ask(&mut lent, command, 0), SEND + length(command));
            assert_eq!(feed_written(&mut lent, 4), DONE);
            assert_eq!(usize::from(lent.state[LIVES]), command);
        }
    }
}

#[test]
fn what_has_no_place_in_the_lifecycle_is_not_guarded() {
    for (_, left) in states() {
        let mut lent = left.clone();
        assert_eq!(outputs(&mut lent), DONE);
        let Lent {
            state,
            ring,
            message,
            result,
            ..
        } = &mut lent;
        assert_eq!(ffi::snd_rates_supported(state, ring, 0, message, result), DONE);
        assert!(lent.state == left.state);
    }
}

#[test]
fn each_stream_has_a_state_of_its_own() {
    let mut lent = led(true, WAYS[START]);
    assert_eq!(ask(&mut lent, START, 1), BAD_STATE);
    assert_eq!(ask(&mut lent, PREPARE, 1), SEND + 8);
    assert_eq!(feed(&mut lent, OK), DONE);
    assert_eq!(lent.state[LIVES..LIVES + 3], [3, 1, 0]);
    assert_eq!(lent.state.len(), STATE_SIZE);
}

#[test]
fn the_range_comes_before_the_state() {
    for (from, left) in states() {
        for stream in [STREAMS, 127, 128, u32::MAX] {
            for command in COMMANDS {
                let mut lent = left.clone();
                assert_eq!(ask(&mut lent, command, stream), 1, "{command} from {from}");
                assert!(lent == left);
            }
            let mut lent = left.clone();
            assert_eq!(transfer(&mut lent, stream, 9), 1);
            assert!(lent == left);
        }
    }
}

#[test]
fn the_state_comes_after_busy_and_the_numbers_and_before_parameters_and_budget() {
    // set parameters is barred from start, but a bad format, then a bad period, shows first
    let mut lent = led(true, WAYS[START]);
    let Lent {
        state,
        ring,
        message,
        result,
        ..
    } = &mut lent;
    assert_eq!(
        ffi::snd_pcm_set_params(state, ring, 0, 8, 4, 0, 2, 25, 7, message, result),
        1
    );
    assert_eq!(
        ffi::snd_pcm_set_params(state, ring, 0, 8, 3, 0, 2, 5, 7, message, result),
        1
    );
    assert_eq!(ask(&mut lent, STOP, 0), SEND + 8);
    assert_eq!(ask(&mut lent, PREPARE, 0), 8);
    // stream 1 has no parameters
    let mut lent = led(true, WAYS[PREPARE]);
    assert_eq!(transfer(&mut lent, 1, 0), BAD_STATE);
    assert_eq!(ask(&mut lent, PREPARE, 1), SEND + 8);
    assert_eq!(feed(&mut lent, OK), DONE);
    assert_eq!(transfer(&mut lent, 1, 0), NOT_SET);
    assert_eq!(transfer(&mut lent, 0, 0), 9);
    // parameters alone are not enough
    assert_eq!(transfer(&mut led(true, WAYS[SET]), 0, 0), BAD_STATE);
}

#[test]
fn parameters_outlive_a_release_and_a_prepared_stream_is_prepared_again_once_they_are_set() {
    let mut lent = led(true, WAYS[RELEASE]);
    goes(&mut lent, PREPARE);
    assert_eq!(transfer(&mut lent.clone(), 0, 9), GOING);
    goes(&mut lent, SET);
    assert_eq!(transfer(&mut lent.clone(), 0, 9), BAD_STATE);
    assert_eq!(ask(&mut lent.clone(), START, 0), BAD_STATE);
    goes(&mut lent, PREPARE);
    assert_eq!(transfer(&mut lent, 0, 9), GOING);
}

#[test]
fn without_the_guard_everything_is_sent() {
    for way in WAYS {
        let left = led(false, way);
        assert_eq!(left.state[LIVES..][..127], [0; 127]);
        for command in COMMANDS {
            let mut lent = left.clone();
            goes(&mut lent, command);
            assert_eq!(lent.state[LIVES..][..127], [0; 127]);
            if command != SET {
                assert_eq!(ask(&mut lent, command, u32::MAX), SEND + 8);
            }
        }
        assert_eq!(transfer(&mut left.clone(), 0, 9), GOING);
        assert_eq!(transfer(&mut left.clone(), 1, 9), NOT_SET);
    }
}

#[test]
fn a_set_up_that_ends_in_12_stays_done() {
    for command in [RELEASE, START, STOP] {
        let mut lent = new(true);
        assert_eq!(ask(&mut lent, command, 0), SEND + 16);
        assert_eq!(
            [OK; 3].map(|status| feed(&mut lent, status)),
            [SEND + 16, SEND + 16, BAD_STATE]
        );
        assert!(lent.state == led(true, &[]).state);
        assert_eq!(outputs(&mut lent), DONE);
        goes(&mut lent, PREPARE);
    }
    // a set-up cut short keeps the guard
    let mut lent = new(true);
    assert_eq!(ask(&mut lent, START, 0), SEND + 16);
    assert_eq!([feed(&mut lent, OK), fail(&mut lent)], [SEND + 16, 7]);
    assert!(lent.state == new(true).state);
    // a transfer that had to begin set-up
    for (guard, stream, refusal) in [
        (true, 0, BAD_STATE),
        (true, STREAMS, 1),
        (false, 0, NOT_SET),
        (false, STREAMS, 1),
    ] {
        let mut lent = new(guard);
        assert_eq!(transfer(&mut lent, stream, 9), SEND + 16);
        assert_eq!(
            [OK; 3].map(|status| feed(&mut lent, status)),
            [SEND + 16, SEND + 16, refusal]
        );
        assert!(lent.state == led(guard, &[]).state);
    }
}

#[test]
fn a_damaged_guard_is_1_and_a_damaged_state_permits_nothing() {
    let left = led(true, WAYS[START]);
    for at in GUARD..GUARD + 16 {
        for bits in [1, 2, 0x80, 0xff] {
            let mut lent = left.clone();
            lent.state[at] |= bits;
            if lent == left {
                continue;
            }
            let damaged = lent.clone();
            assert_eq!(ask(&mut lent, STOP, 0), 1);
            assert_eq!(ffi::snd_jacks(&lent.state, &mut lent.result), 1);
            assert!(lent == damaged);
        }
    }
    for life in [5, 6, 127, 128, 255] {
        let mut lent = left.clone();
        lent.state[LIVES] = life;
        let damaged = lent.clone();
        for command in COMMANDS {
            assert_eq!(ask(&mut lent, command, 0), BAD_STATE, "{command} from {life}");
        }
        assert_eq!(transfer(&mut lent, 0, 9), BAD_STATE, "from {life}");
        assert!(lent == damaged);
        assert_eq!(ask(&mut lent, PREPARE, 1), SEND + 8);
    }
}

#[test]
fn a_command_past_the_streams_can_be_out_without_the_guard_only() {
    let mut lent = led(false, &[]);
    assert_eq!(ask(&mut lent, PREPARE, STREAMS), SEND + 8);
    lent.state[GUARD] = 1;
    let damaged = lent.clone();
    assert_eq!(feed(&mut lent, OK), 1);
    assert!(lent.state == damaged.state);
}
