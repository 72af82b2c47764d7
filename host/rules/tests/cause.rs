//! Request 2026-05, "Name the device's refusal": each test names the rulings on it by their numbers.
use rules::entries::{self, RESULT_SIZE, RING_SIZE, STATE_SIZE, Store, number};
use rules::ring::{Reading, Ring, Turn};
use rules::sound::{Call, Fed, Params, Say, Sound, Value};
use rules::status::{Status, Verdict};
use rules::wire::{self, STATUS_OK};

/// Words that are not ok: the three codes, a page that nobody wrote, and numbers that no code has.
const WORDS: [u32; 9] = [0x8001, 0x8002, 0x8003, 0, 2, 0x8004, 0x7fff, 0x1_8000, u32::MAX];
const DONE: Say = Say::Done(Value::Nothing);
const REMAP: Call = Call::Remap { jack: 0, association: 5, sequence: 6 };

fn set(stream: u32) -> Call {
    let params = Params { buffer: 8, period: 4, features: 0, channels: 2, format: 5, rate: 7 };
    Call::SetParams { stream, params }
}

/// A header over records of ones: jacks with REMAP.
fn page(status: u32) -> Vec<u8> {
    let mut page = wire::words(&[status]);
    page.resize(4096, 1);
    page
}

/// Makes a call and feeds these statuses while it sends.
fn says(sound: &mut Sound, call: Call, statuses: &[u32]) -> Say {
    let mut message = [0; 24];
    let mut say = sound.call(&Ring::default(), call, &mut message);
    for status in statuses {
        assert!(matches!(say, Say::Send(_)), "{call:?} says {say:?}");
        say = sound.feed(Fed::Page(&page(*status)), &mut message);
    }
    say
}

fn ready(counts: [u32; 3]) -> Sound {
    let mut sound = Sound::new(counts);
    assert!(matches!(says(&mut sound, Call::InputStreams, &[STATUS_OK; 3]), Say::Done(_)));
    sound
}

#[test]
fn rulings_1_and_2_the_status_reader() {
    let known =
        [(0x8000, Status::Ok), (0x8001, Status::BadMessage), (0x8002, Status::NotSupported), (0x8003, Status::IoError)];
    for (word, status) in known {
        assert_eq!((Status::read(word), status.word(), status.says()), (status, word, rules::OK.into()));
    }
    for word in [0, 1, 2, 3, 0x7fff, 0x8004, 0x1_8001, u32::MAX] {
        assert_eq!(Status::read(word), Status::Unknown(word));
        assert_eq!(Status::read(word).says(), Verdict::by(2, word));
    }
    assert_eq!(Status::Ok.judged(), Ok(()));
    for word in WORDS {
        assert_eq!(Status::read(word).word(), word);
        assert_eq!(Status::read(word).judged(), Err(Verdict::by(2, word)));
    }
}

#[test]
fn ruling_3_a_control_request_hands_its_word_on() {
    for word in WORDS {
        let before = ready([1, 1, 1]);
        let calls =
            [wire::PREPARE, wire::RELEASE, wire::START, wire::STOP].map(|code| Call::Command { code, stream: 9 });
        for call in calls.into_iter().chain([set(0)]) {
            let mut sound = before.clone();
            assert_eq!(says(&mut sound, call, &[word]), Say::refused_by(2, word));
            // 6: and nothing else is another
            assert_eq!(sound, before);
        }
        // the query of streams, whatever waits for it
        for call in [Call::OutputStreams, set(0), REMAP, Call::Rates(7)] {
            let mut sound = Sound::new([1, 1, 1]);
            assert_eq!(says(&mut sound, call, &[STATUS_OK, word]), Say::refused_by(2, word));
            assert_eq!(sound, Sound::new([1, 1, 1]));
        }
        let (mut sound, mut message) = (Sound::new([1, 1, 1]), [0; 24]);
        assert_eq!(sound.xfer_start(&mut Ring::default(), 0, 8, 9, &mut message), Say::Send(16));
        assert_eq!(sound.feed(Fed::Page(&page(STATUS_OK)), &mut message), Say::Send(16));
        assert_eq!(sound.feed(Fed::Written(&page(word), 4), &mut message), Say::refused_by(2, word));
    }
}

#[test]
fn ruling_3_a_turn_hands_its_status_on() {
    for status in WORDS {
        let mut ring = Ring::default();
        assert_eq!(ring.start(0, 8, 4, 9), Turn::Going);
        assert_eq!(ring.turn(8, Reading::Completed { slot: 0, status }), Turn::Ended(Verdict::by(2, status)));
        assert_eq!((ring.running, ring.in_flight, ring.turns), (false, 0, 1));
        // a wrong slot comes first, and carries none
        let mut ring = Ring::default();
        ring.start(0, 8, 4, 9);
        assert_eq!(ring.turn(8, Reading::Completed { slot: 1, status }), Turn::ended(6));
        // 5: drain turns ignore it
        assert_eq!(ring.drain_turn(Reading::Completed { slot: 0, status }), 0);
    }
}

#[test]
fn ruling_3_no_parameters_and_no_event_are_caused_by_none() {
    let mut message = [0; 24];
    assert_eq!(ready([1, 1, 1]).xfer_start(&mut Ring::default(), 0, 8, 9, &mut message), Say::refused(2));
    // a transfer that waited for set-up, also where the tables before and after were refused
    for statuses in [[STATUS_OK; 3], [0x8002, STATUS_OK, 0x8003]] {
        let mut sound = Sound::new([1, 1, 1]);
        let mut say = sound.xfer_start(&mut Ring::default(), 0, 8, 9, &mut message);
        for status in statuses {
            assert_eq!(say, Say::Send(16));
            say = sound.feed(Fed::Page(&page(status)), &mut message);
        }
        assert_eq!(say, Say::refused(2));
    }
    for code in [0x1002, 0x1200, 0x8001, 0] {
        let event = rules::event::latest_notification(&wire::words(&[code, 0x8002]));
        assert_eq!(event, rules::event::Event::Refused(rules::IO_ERROR.into()));
    }
}

#[test]
fn ruling_4_the_two_ways_to_3() {
    for word in WORDS {
        assert_eq!(says(&mut ready([1, 1, 1]), REMAP, &[word]), Say::refused_by(3, word));
    }
    // jack 0 has no REMAP
    let mut sound = ready([1, 1, 1]);
    sound.tables[0][0][4] &= !1;
    assert_eq!(says(&mut sound, REMAP, &[]), Say::refused(3));
}

#[test]
fn ruling_5_what_is_not_handed_on() {
    let strict = |sound: &mut Sound, call: Call, status: u32, written: u64| {
        let mut message = [0; 24];
        assert!(matches!(sound.call(&Ring::default(), call, &mut message), Say::Send(_)));
        sound.feed(Fed::Written(&page(status), written), &mut message)
    };
    for word in WORDS {
        // jacks and maps: set-up goes on, and a later 4 carries none
        let mut sound = Sound::new([1, 1, 1]);
        assert_eq!(says(&mut sound, REMAP, &[word, STATUS_OK, word]), Say::refused(4));
        let mut sound = Sound::new([1, 1, 1]);
        assert_eq!(says(&mut sound, set(0), &[word, STATUS_OK, word, STATUS_OK]), DONE);
        // 11 comes before the header
        assert_eq!(strict(&mut ready([1, 1, 1]), REMAP, word, 3), Say::refused(11));
        // 12 and a range at the feed that ends set-up
        let mut sound = Sound::new_guarded([1, 1, 1]);
        let start = |stream| Call::Command { code: wire::START, stream };
        assert_eq!(says(&mut sound, start(0), &[word, STATUS_OK, word]), Say::refused(12));
        assert_eq!(says(&mut sound, start(1), &[]), Say::refused(1));
    }
    assert_eq!(says(&mut Sound::new([171, 1, 1]), REMAP, &[STATUS_OK]), Say::refused(5));
    let (mut sound, mut message) = (ready([1, 1, 1]), [0; 24]);
    assert_eq!(sound.call(&Ring::default(), REMAP, &mut message), Say::Send(16));
    assert_eq!(sound.feed(Fed::Failure, &mut message), Say::refused(7));
}

#[test]
fn ruling_7_the_high_half() {
    for number in 0..=20 {
        let high = if matches!(number, 2 | 3) { 0x8000 } else { 0u64 };
        assert_eq!(Verdict::from(number).answer(), high << 32 | u64::from(number));
    }
    for word in WORDS {
        for number in [2, 3] {
            let answer = Verdict::by(number, word).answer();
            assert_eq!((answer as u32, (answer >> 32) as u32), (number.into(), word));
            assert_ne!(answer, Verdict::from(number).answer(), "a word differs from none");
        }
    }
}

/// A state and a ring at the C boundary: what each entry answers.
struct Entered {
    sound: Sound,
    ring: Ring,
    message: [u8; 24],
    result: [u8; RESULT_SIZE],
}

impl Entered {
    fn new(sound: Sound) -> Self {
        Entered { sound, ring: Ring::default(), message: [0; 24], result: [0; RESULT_SIZE] }
    }

    fn call(&mut self, call: Call) -> u64 {
        let state = Store { len: STATE_SIZE, value: Some(&mut self.sound) };
        let ring = Store { len: RING_SIZE, value: Some(&self.ring) };
        number(entries::call(state, ring, call, &mut self.message, &mut self.result))
    }

    fn feed(&mut self, fed: Fed) -> u64 {
        let state = Store { len: STATE_SIZE, value: Some(&mut self.sound) };
        number(entries::feed(state, fed, &mut self.message, &mut self.result))
    }

    fn start(&mut self, stream: u32) -> u64 {
        let state = Store { len: STATE_SIZE, value: Some(&mut self.sound) };
        let ring = Store { len: RING_SIZE, value: Some(&mut self.ring) };
        number(entries::xfer_start(state, ring, stream, 8, 9, &mut self.message))
    }

    fn turn(&mut self, slot: u32, status: u32) -> u64 {
        let ring = Store { len: RING_SIZE, value: Some(&mut self.ring) };
        number(entries::turn(ring, 8, Reading::Completed { slot, status }))
    }
}

#[test]
fn ruling_7_at_the_entries() {
    for word in WORDS {
        let of = |number: u64| u64::from(word) << 32 | number;
        let mut at = Entered::new(ready([1, 1, 1]));
        assert_eq!((at.call(set(0)), at.feed(Fed::Page(&page(word)))), (256 + 24, of(2)));
        assert_eq!((at.call(REMAP), at.feed(Fed::Page(&page(word)))), (256 + 16, of(3)));
        assert_eq!((at.call(REMAP), at.feed(Fed::Failure)), (256 + 16, 7));
        assert_eq!(at.start(0), 0x8000_0000_0002);
        assert_eq!((at.call(set(0)), at.feed(Fed::Page(&page(STATUS_OK)))), (256 + 24, 0));
        assert_eq!((at.start(0), at.turn(0, word)), (512, of(2)));
        assert_eq!((at.start(0), at.turn(1, word)), (512, 6));
        let ring = Store { len: RING_SIZE, value: Some(&mut at.ring) };
        assert_eq!(number(entries::drain_turn(ring, Reading::Completed { slot: 0, status: word })), 0);
        // no REMAP
        at.sound.tables[0][0][4] = 0;
        assert_eq!(at.call(REMAP), 0x8000_0000_0003);
        let mut at = Entered::new(Sound::new([1, 1, 1]));
        assert_eq!((at.call(Call::OutputStreams), at.feed(Fed::Page(&page(word)))), (256 + 16, 256 + 16));
        assert_eq!(at.feed(Fed::Page(&page(word))), of(2));
    }
    let event = |bytes: &[u8], room: usize| number(entries::notification(bytes, &mut vec![0; room]));
    assert_eq!(event(&wire::words(&[0x1002, 0x8001]), RESULT_SIZE), 0x8000_0000_0002);
    assert_eq!(event(&wire::words(&[0x1000, 0x8001]), RESULT_SIZE), 0);
    assert_eq!(event(&[1; 7], RESULT_SIZE), 513);
    assert_eq!(event(&wire::words(&[0x1002, 0x8001]), RESULT_SIZE - 1), 10);
}
