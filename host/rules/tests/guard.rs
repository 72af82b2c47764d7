//! Request 2026-02, "PCM lifecycle": each test names the rulings on it by their numbers.
use rules::life::{self, permits, takes_transfers};
use rules::ring::Ring;
use rules::sound::{Awaits, Call, Fed, Params, Say, Sound, Value};
use rules::wire::{self, STATUS_BAD, STATUS_OK};

const DONE: Say = Say::Done(Value::Nothing);
/// Set parameters, then the four commands.
const COMMANDS: [u32; 5] = [wire::SET_PARAMS, wire::PREPARE, wire::RELEASE, wire::START, wire::STOP];

fn command(code: u32, stream: u32) -> Call {
    let params = Params { buffer: 8, period: 4, features: 0, channels: 2, format: 5, rate: 7 };
    if code == wire::SET_PARAMS { Call::SetParams { stream, params } } else { Call::Command { code, stream } }
}

fn page(status: u32) -> Vec<u8> {
    let mut page = wire::words(&[status]);
    page.resize(4096, 0);
    page
}

/// A state and the message buffer lent to it.
#[derive(Clone, Debug, PartialEq)]
struct Desk {
    sound: Sound,
    message: [u8; 24],
}

impl Desk {
    fn new(guard: bool) -> Self {
        let sound = if guard { Sound::new_guarded([1, 2, 1]) } else { Sound::new([1, 2, 1]) };
        Desk { sound, message: [0; 24] }
    }

    /// Set-up is done, by a call that sends nothing of its own.
    fn ready(guard: bool) -> Self {
        let mut desk = Desk::new(guard);
        assert_eq!(desk.call(Call::OutputStreams, &[STATUS_OK; 3]), Say::Done(Value::Streams(vec![0, 1])));
        desk
    }

    /// A call, with pages of these statuses fed while it sends.
    fn call(&mut self, call: Call, statuses: &[u32]) -> Say {
        let mut say = self.sound.call(&Ring::default(), call, &mut self.message);
        for status in statuses {
            assert!(matches!(say, Say::Send(_)), "{call:?} says {say:?}");
            say = self.feed(Fed::Page(&page(*status)));
        }
        say
    }

    fn feed(&mut self, fed: Fed) -> Say {
        self.sound.feed(fed, &mut self.message)
    }

    fn transfer(&mut self, stream: u32) -> Say {
        self.sound.xfer_start(&mut Ring::default(), stream, 8, 9, &mut self.message)
    }

    /// These commands for a stream, each ok.
    fn ok(mut self, codes: &[u32], stream: u32) -> Self {
        for code in codes {
            assert_eq!(self.call(command(*code, stream), &[STATUS_OK]), DONE);
        }
        self
    }
}

/// The commands that bring a stream from its beginning to each state.
const WAYS: [&[u32]; 5] = [
    &[wire::SET_PARAMS],
    &[wire::SET_PARAMS, wire::PREPARE],
    &[wire::SET_PARAMS, wire::PREPARE, wire::RELEASE],
    &[wire::SET_PARAMS, wire::PREPARE, wire::START],
    &[wire::SET_PARAMS, wire::PREPARE, wire::START, wire::STOP],
];

#[test]
fn rulings_3_and_4_the_table() {
    // set, prepare, release, start, stop: a line a state
    let table = [[1, 1, 0, 0, 0], [1, 1, 1, 1, 0], [1, 1, 0, 0, 0], [0, 0, 0, 0, 1], [0, 0, 1, 1, 0]];
    for (life, line) in (0..).zip(table) {
        assert_eq!(COMMANDS.map(|code| permits(life, code) as u8), line, "from {life}");
        assert_eq!(takes_transfers(life), matches!(life, 1 | 3));
    }
    assert_eq!(COMMANDS.map(life::after), [0, 1, 2, 3, 4]);
    // 15: what is no state permits nothing
    assert!((5..=255).all(|life| !takes_transfers(life) && COMMANDS.iter().all(|code| !permits(life, *code))));
}

#[test]
fn rulings_2_3_5_and_11_each_state_and_each_command() {
    for (life, way) in (0..).zip(WAYS) {
        let desk = Desk::ready(true).ok(way, 1);
        assert_eq!((desk.sound.lives[0], desk.sound.lives[1]), (0, life));
        for code in COMMANDS {
            let mut tried = desk.clone();
            if !permits(life, code) {
                assert_eq!(tried.call(command(code, 1), &[]), Say::refused(12));
                // 10: nothing is written and nothing changes
                assert_eq!(tried, desk);
                continue;
            }
            assert!(matches!(tried.call(command(code, 1), &[]), Say::Send(_)));
            assert_eq!(tried.sound.lives, desk.sound.lives, "it is sent, and has not moved yet");
            assert_eq!(tried.feed(Fed::Page(&page(STATUS_OK))), DONE);
            assert_eq!(tried.sound.lives[1], life::after(code));
            let bad = (Fed::Page(&page(STATUS_BAD)[..]), Say::refused_by(2, STATUS_BAD));
            for (fed, said) in [bad, (Fed::Failure, Say::refused(7))] {
                let mut refused = desk.clone();
                refused.call(command(code, 1), &[]);
                assert_eq!(refused.feed(fed), said);
                assert_eq!(refused.sound, desk.sound);
            }
            let mut short = desk.clone();
            short.call(command(code, 1), &[]);
            assert_eq!(short.feed(Fed::Written(&page(STATUS_OK), 3)), Say::refused(11));
            assert_eq!(short.sound, desk.sound);
        }
        let mut played = desk.clone();
        let said = if takes_transfers(life) { Say::Going } else { Say::refused(12) };
        assert_eq!(played.transfer(1), said);
        // 13: a transfer does not move the state
        assert_eq!(played.sound, desk.sound);
    }
}

#[test]
fn rulings_5_and_6_the_order_of_refusals() {
    let mut desk = Desk::ready(true).ok(WAYS[3], 0);
    for code in COMMANDS {
        assert_eq!(desk.call(command(code, 2), &[]), Say::refused(1), "the range comes first");
    }
    // set parameters: its period rule, its range, then 12
    let Call::SetParams { params, .. } = command(wire::SET_PARAMS, 0) else { unreachable!() };
    let odd = Params { buffer: 9, ..params };
    assert_eq!(desk.call(Call::SetParams { stream: 0, params: odd }, &[]), Say::refused(1));
    assert_eq!(desk.call(Call::SetParams { stream: 0, params }, &[]), Say::refused(12));
    // off, any id is sent
    let mut free = Desk::ready(false);
    for code in &COMMANDS[1..] {
        assert_eq!(free.call(command(*code, 9), &[STATUS_OK]), DONE);
    }
}

#[test]
fn rulings_7_8_and_12_transfers() {
    let mut desk = Desk::ready(true);
    assert_eq!(desk.transfer(2), Say::refused(1));
    assert_eq!(desk.transfer(0), Say::refused(12));
    // 8: prepare straight away, though no parameters are known
    assert_eq!(desk.call(command(wire::PREPARE, 0), &[STATUS_OK]), DONE);
    assert_eq!(desk.transfer(0), Say::refused(2));
    assert_eq!(desk.call(command(wire::SET_PARAMS, 0), &[STATUS_OK]), DONE);
    assert_eq!(desk.transfer(0), Say::refused(12), "a prepared stream must be prepared again");
    // 12: release keeps the parameters
    let mut desk = desk.ok(&[wire::PREPARE, wire::RELEASE, wire::PREPARE], 0);
    assert_eq!(desk.transfer(0), Say::Going);
}

#[test]
fn rulings_1_9_and_10_set_up() {
    // 12 at the third feed; set-up stays done
    let mut desk = Desk::new(true);
    assert_eq!(desk.call(command(wire::START, 0), &[STATUS_OK; 3]), Say::refused(12));
    assert!(desk.sound.set_up && desk.sound.guard && desk.sound.open.is_none());
    let mut desk = Desk::new(true);
    assert_eq!(desk.transfer(1), Say::Send(16));
    for said in [Say::Send(16), Say::Send(16), Say::refused(12)] {
        assert_eq!(desk.feed(Fed::Page(&page(STATUS_OK))), said);
    }
    let mut desk = Desk::new(true);
    assert_eq!(desk.call(command(wire::START, 2), &[STATUS_OK; 3]), Say::refused(1));
    // a set-up cut short keeps the guard
    let mut desk = Desk::new(true);
    assert_eq!(desk.call(command(wire::START, 0), &[STATUS_OK, STATUS_BAD]), Say::refused_by(2, STATUS_BAD));
    assert_eq!(desk.sound, Sound::new_guarded([1, 2, 1]));
}

#[test]
fn ruling_14_no_guard_no_lives() {
    let mut desk = Desk::ready(false);
    desk.sound.lives = [200; 127];
    for code in COMMANDS.into_iter().rev() {
        assert_eq!(desk.call(command(code, 0), &[STATUS_OK]), DONE);
    }
    assert_eq!(desk.transfer(0), Say::Going);
    assert_eq!(desk.sound.lives, [200; 127]);
}

#[test]
fn ruling_15_a_life_above_4_permits_nothing() {
    let desk = Desk::ready(true).ok(WAYS[1], 0);
    for life in 5..=255 {
        let mut desk = desk.clone();
        desk.sound.lives[0] = life;
        for code in COMMANDS {
            assert_eq!(desk.call(command(code, 0), &[]), Say::refused(12));
        }
        assert_eq!(desk.transfer(0), Say::refused(12));
        // no part of the consistency test: another stream is as before
        assert_eq!(desk.call(command(wire::PREPARE, 1), &[STATUS_OK]), DONE);
    }
}

#[test]
fn ruling_16_a_command_that_is_out_is_in_range_under_the_guard() {
    let mut desk = Desk::ready(false);
    assert!(matches!(desk.call(command(wire::START, 2), &[]), Say::Send(8)));
    assert!(matches!(desk.sound.open, Some((Awaits::Own, _))));
    desk.sound.guard = true;
    assert_eq!(desk.feed(Fed::Failure), Say::refused(1));
    desk.sound.open = Some((Awaits::Own, command(wire::START, 1)));
    // that the table does not permit it is not asked
    assert_eq!(desk.feed(Fed::Page(&page(STATUS_OK))), DONE);
    assert_eq!(desk.sound.lives[1], life::STARTED);
}
