//! An exchange is fed once, to the state that gave it; one that is lost is abandoned.
mod common;
use common::{Desk, PARAMS, Random, sent};
use snd::{Page, Refusal, Ring, STATE_SIZE, Sound, Step, Value};

#[test]
fn an_exchange_that_is_not_the_open_one_is_1_and_leaves_the_state() {
    let mut desk = Desk::with_params();
    let stale = sent(desk.sound.pcm_prepare(&desk.ring, 0));
    assert_eq!(desk.sound.abandon(), Ok(()));
    let before = desk.sound.clone();
    assert_eq!(desk.sound.feed(stale, &desk.page), Err(Refusal::InvalidParam));
    assert!(desk.sound == before, "nothing was open");
    let open = sent(desk.sound.pcm_prepare(&desk.ring, 1));
    let before = desk.sound.clone();
    let others = [
        Desk::with_params().sound.pcm_prepare(&desk.ring, 0), // of another stream
        Desk::with_params().sound.pcm_stop(&desk.ring, 1),    // of another command
        Desk::with_params().sound.pcm_set_params(&desk.ring, 1, PARAMS),
        Desk::new().sound.pcm_prepare(&desk.ring, 1), // at another stage
    ];
    for other in others {
        assert_eq!(desk.sound.feed_failure(sent(other)), Err(Refusal::InvalidParam));
        assert!(desk.sound == before, "the open one stays open");
    }
    assert_eq!(desk.finish(Ok(Step::Send(open))), Ok(()));
}

#[test]
fn lists_of_two_states_are_told_apart() {
    let ring = Ring::new();
    let (mut outputs, mut inputs) = (Sound::new(0, 1, 0), Sound::new(0, 1, 0));
    let output = sent(outputs.output_streams(&ring));
    let input = sent(inputs.input_streams(&ring));
    assert_eq!(outputs.feed(input, &Page::new()), Err(Refusal::InvalidParam));
    assert!(matches!(outputs.feed(output, &Page::new()), Ok(Step::Send(_))));
}

#[test]
fn an_exchange_stays_good_when_the_state_is_found_again() {
    let mut desk = Desk::with_params();
    let exchange = sent(desk.sound.pcm_prepare(&desk.ring, 0));
    let mut found = Sound::over(*desk.sound.store());
    desk.device.control(exchange.bytes(), &mut desk.page).unwrap();
    assert_eq!(found.feed(exchange, &desk.page), Ok(Step::Done(())));
}

/// Feeds so many good answers to a call, and loses its exchange.
fn lose<T: Value>(desk: &mut Desk, mut step: Result<Step<T>, Refusal>, answers: usize) {
    for _ in 0..answers {
        let exchange = sent(step);
        desk.device.control(exchange.bytes(), &mut desk.page).unwrap();
        step = desk.sound.feed(exchange, &desk.page);
    }
    drop(sent(step));
}

/// A lost exchange: after 0 to 2 answers within set-up, after 3 with the call's own request out.
fn lost(answers: usize) -> Desk {
    let mut desk = Desk::new();
    let step = desk.sound.pcm_set_params(&desk.ring, 0, PARAMS);
    lose(&mut desk, step, answers);
    desk
}

#[test]
fn a_lost_exchange_is_abandoned_at_every_stage() {
    for answers in 0..4 {
        let mut desk = lost(answers);
        assert_eq!(desk.sound.pcm_prepare(&desk.ring, 0), Err(Refusal::Busy));
        assert_eq!(desk.sound.abandon(), Ok(()));
        // no parameters were set, and the next call goes its way
        let step = desk.sound.pcm_prepare(&desk.ring, 0);
        assert_eq!(desk.finish(step), Ok(()), "after {answers} answers");
        assert_eq!(desk.device.params(0), Ok(None));
        assert_eq!(
            desk.sound.pcm_xfer_start(&mut desk.ring, 0, b"", 1),
            Err(Refusal::IoError(None))
        );
    }
}

#[test]
fn a_call_that_ends_otherwise_than_by_the_failure_is_abandoned_too() {
    // at the query of channel maps, whose failure ends set-up; then a list, 1 for a stream too high, 4 for jacks that are not known
    let mut desk = Desk::new();
    let step = desk.sound.output_streams(&desk.ring);
    lose(&mut desk, step, 2);
    assert_eq!(desk.sound.abandon(), Ok(()));
    assert!(format!("{:?}", desk.sound).ends_with("set_up: true, open: nothing }"));
    let mut desk = Desk::new();
    let step = desk.sound.rates_supported(&desk.ring, 2);
    lose(&mut desk, step, 2);
    assert_eq!(desk.sound.abandon(), Ok(()));
    assert!(format!("{:?}", desk.sound).ends_with("set_up: true, open: nothing }"));
    let mut desk = Desk::new();
    let jacks = sent(desk.sound.jack_remap(&desk.ring, 0, 0, 0));
    let step = desk.sound.feed_failure(jacks);
    lose(&mut desk, step, 1);
    assert_eq!(desk.sound.abandon(), Ok(()));
    assert!(format!("{:?}", desk.sound).ends_with("set_up: true, open: nothing }"));
}

#[test]
fn nothing_open_is_nothing_to_abandon() {
    let mut desk = Desk::with_params();
    let before = desk.sound.clone();
    assert_eq!(desk.sound.abandon(), Ok(()));
    assert!(desk.sound == before);
}

#[test]
fn an_inconsistent_store_is_not_abandoned() {
    let mut sound = Sound::over([0xff; STATE_SIZE]);
    assert_eq!(sound.abandon(), Err(Refusal::InvalidParam));
    assert_eq!(sound.store(), &[0xff; STATE_SIZE]);
    // a state that calls left, with a few bytes of its head spoilt: either it is refused as it is, or nothing is open afterwards
    let mut random = Random(0x5eed_0004);
    let mut refused = 0;
    for round in 0..4000 {
        let mut store = *lost(round % 4).sound.store();
        random.spoil(&mut store[..64]);
        let mut sound = Sound::over(store);
        match sound.abandon() {
            Ok(()) => assert!(format!("{sound:?}").contains("open: nothing")),
            Err(refusal) => {
                assert_eq!((refusal, sound.store()), (Refusal::InvalidParam, &store));
                refused += 1;
            }
        }
    }
    assert!((1000..4000).contains(&refused), "{refused}");
}
