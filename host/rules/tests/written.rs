//! Request 2026-01, "Trust only what was written": each test names the rulings on it by their numbers.
use rules::entries::{self, RESULT_SIZE, STATE_SIZE, Store, number};
use rules::model::Model;
use rules::ring::Ring;
use rules::sound::{Awaits, Call, Fed, Params, Say, Sound, Value};
use rules::wire::{self, STATUS_BAD, STATUS_OK};
use std::collections::BTreeSet;

const FULL: u64 = 4096;
const OUTPUTS: Call = Call::OutputStreams;
const REMAP: Call = Call::Remap { jack: 0, association: 5, sequence: 6 };
const START: Call = Call::Command { code: wire::START, stream: 0 };
const DONE: Say = Say::Done(Value::Nothing);

fn set(period: u32) -> Call {
    let params = Params { buffer: 4 * period, period, features: 0, channels: 2, format: 5, rate: 7 };
    Call::SetParams { stream: 0, params }
}

/// A header over what stood in the page from before: jacks with REMAP, streams of direction 1.
fn page(status: u32) -> Vec<u8> {
    let mut page = wire::words(&[status]);
    page.resize(4096, 1);
    page
}

/// A state and the message buffer lent to it.
#[derive(Clone, Debug, PartialEq)]
struct Desk {
    sound: Sound,
    message: [u8; 24],
}

impl Desk {
    fn new(counts: [u32; 3]) -> Self {
        Desk { sound: Sound::new(counts), message: [0; 24] }
    }

    fn call(&mut self, call: Call) -> Say {
        self.sound.call(&Ring::default(), call, &mut self.message)
    }

    fn feed(&mut self, fed: Fed) -> Say {
        self.sound.feed(fed, &mut self.message)
    }

    fn strict(&mut self, status: u32, written: u64) -> Say {
        self.feed(Fed::Written(&page(status), written))
    }

    /// This call's query of the table is out; the queries before it were answered in full.
    fn awaiting(counts: [u32; 3], table: usize, call: Call) -> Self {
        let mut desk = Desk::new(counts);
        assert_eq!(desk.call(call), Say::Send(16));
        for _ in 0..table {
            assert_eq!(desk.strict(STATUS_OK, FULL), Say::Send(16));
        }
        assert_eq!(desk.sound.open, Some((Awaits::Table(table), call)));
        desk
    }

    /// This call's own request is out.
    fn own(call: Call) -> Self {
        let mut desk = Desk::awaiting([1, 1, 1], 2, call);
        assert!(matches!(desk.strict(STATUS_OK, FULL), Say::Send(_)));
        assert_eq!(desk.sound.open, Some((Awaits::Own, call)));
        desk
    }

    fn tables(&self) -> [usize; 3] {
        [0, 1, 2].map(|t| self.sound.tables[t].len())
    }

    /// What is said of this feed, and what stands afterwards.
    fn outcome(&self, fed: Fed) -> (Say, Desk) {
        let mut desk = self.clone();
        (desk.feed(fed), desk)
    }
}

#[test]
fn ruling_1_feeds_of_both_kinds_may_be_mixed() {
    let mut desk = Desk::new([2, 1, 2]);
    desk.call(OUTPUTS);
    assert_eq!(desk.feed(Fed::Page(&page(STATUS_OK))), Say::Send(16));
    assert_eq!(desk.strict(STATUS_OK, 36), Say::Send(16));
    assert_eq!(desk.feed(Fed::Page(&page(STATUS_OK))), Say::Done(Value::Streams(vec![])));
    assert_eq!(desk.tables(), [2, 1, 2]);
}

#[test]
fn ruling_2_a_queue_failure_carries_no_length() {
    let mut desk = Desk::awaiting([1, 1, 1], 0, OUTPUTS);
    assert_eq!(desk.feed(Fed::Failure), Say::Send(16));
    assert_eq!(desk.feed(Fed::Failure), Say::refused(7));
    for call in [set(4), START, REMAP] {
        assert_eq!(Desk::own(call).feed(Fed::Failure), Say::refused(7));
    }
}

#[test]
fn rulings_3_4_and_14_a_wrong_length_changes_nothing() {
    for desk in [Desk::awaiting([1, 1, 1], 0, OUTPUTS), Desk::awaiting([1, 1, 1], 1, OUTPUTS), Desk::own(set(4))] {
        for written in [4097, 1 << 32, (1 << 32) + 4, u64::MAX] {
            let refused = (Say::refused(10), desk.clone());
            assert_eq!(desk.outcome(Fed::Written(&page(STATUS_OK), written)), refused);
        }
        for length in [0, 4, 4095, 4097] {
            let wrong = vec![0; length];
            assert_eq!(desk.outcome(Fed::Written(&wrong, 4)), (Say::refused(10), desk.clone()));
        }
        // the same feed, given again with a length that can be
        let (say, _) = desk.outcome(Fed::Written(&page(STATUS_OK), 4096));
        assert!(matches!(say, Say::Send(_) | DONE));
    }
}

#[test]
fn ruling_4_lengths_come_before_the_state_is_looked_at() {
    let mut closed = Desk::new([1, 1, 1]);
    assert_eq!(closed.strict(STATUS_OK, 4097), Say::refused(10));
    assert_eq!(closed.strict(STATUS_OK, 4096), Say::refused(1));
    // not 11: no exchange is open to which anything could be short
    assert_eq!(closed.strict(STATUS_OK, 0), Say::refused(1));
    let mut spoilt = Desk::awaiting([1, 1, 1], 1, OUTPUTS);
    spoilt.sound.reserved[3] = 1;
    assert_eq!(spoilt.strict(STATUS_OK, 4097), Say::refused(10));
    assert_eq!(spoilt.strict(STATUS_OK, 0), Say::refused(1));
}

#[test]
fn ruling_5_a_length_under_4_comes_before_the_header() {
    for status in [STATUS_OK, STATUS_BAD, 0x8002, 0x8003, 0] {
        for written in 0..4 {
            assert_eq!(Desk::awaiting([1, 1, 1], 1, OUTPUTS).strict(status, written), Say::refused(11));
            for call in [set(4), START, REMAP] {
                assert_eq!(Desk::own(call).strict(status, written), Say::refused(11));
            }
        }
    }
    // four bytes are a header, and it is judged
    assert_eq!(Desk::awaiting([1, 1, 1], 1, OUTPUTS).strict(STATUS_BAD, 4), Say::refused_by(2, STATUS_BAD));
    assert_eq!(Desk::own(START).strict(STATUS_BAD, 4), Say::refused_by(2, STATUS_BAD));
    assert_eq!(Desk::own(REMAP).strict(STATUS_BAD, 4), Say::refused_by(3, STATUS_BAD));
}

#[test]
fn ruling_6_too_many_comes_before_a_short_table() {
    let streams = |status, written| Desk::awaiting([0, 128, 0], 1, OUTPUTS).strict(status, written);
    assert_eq!(streams(STATUS_BAD, 4), Say::refused_by(2, STATUS_BAD));
    assert_eq!(streams(STATUS_OK, 4), Say::refused(5));
    assert_eq!(streams(STATUS_OK, 3), Say::refused(11));
    for (counts, table) in [([171, 1, 1], 0), ([u32::MAX, 1, 1], 0), ([1, 1, 171], 2), ([1, 1, u32::MAX], 2)] {
        let mut desk = Desk::awaiting(counts, table, OUTPUTS);
        assert_eq!(desk.strict(STATUS_OK, 4), Say::refused(5));
        assert_eq!((desk.tables(), desk.sound.set_up, desk.sound.open), ([0, 0, 0], false, None));
        let mut desk = Desk::awaiting(counts, table, OUTPUTS);
        let goes_on = if table == 0 { Say::Send(16) } else { Say::Done(Value::Streams(vec![])) };
        assert_eq!((desk.strict(STATUS_OK, 3), desk.tables()[table]), (goes_on, 0));
    }
}

#[test]
fn ruling_7_just_the_table_suffices() {
    for (table, size, most) in [(0, 24, 170), (1, 32, 127), (2, 24, 170)] {
        for count in [0, 1, 3, most] {
            let mut counts = [1, 1, 1];
            counts[table] = count;
            let enough = 4 + count as u64 * size;
            let mut whole = Desk::awaiting(counts, table, OUTPUTS);
            let mut short = whole.clone();
            assert!(!matches!(whole.strict(STATUS_OK, enough), Say::Refused(_)));
            assert_eq!(whole.tables()[table], count as usize);
            let said_11 = short.strict(STATUS_OK, enough - 1) == Say::refused(11);
            assert_eq!((said_11, short.tables()[table]), (table == 1, 0));
        }
    }
}

#[test]
fn ruling_8_own_requests_need_four_bytes_and_no_more() {
    for call in [set(4), START, REMAP] {
        for status in [STATUS_OK, STATUS_BAD] {
            let (desk, page) = (Desk::own(call), page(status));
            let old = desk.outcome(Fed::Page(&page));
            assert_eq!(old.0 == DONE, status == STATUS_OK);
            for written in (4..100).chain([4095, 4096]) {
                assert_eq!(desk.outcome(Fed::Written(&page, written)), old);
            }
        }
    }
}

#[test]
fn ruling_9_short_jacks_and_maps_are_silent_and_empty() {
    // the hypervisor's fault: only the header, over jacks left in the page from before
    for written in [3, 4, 75] {
        let mut desk = Desk::awaiting([3, 1, 3], 0, REMAP);
        assert_eq!(desk.strict(STATUS_OK, written), Say::Send(16));
        assert_eq!(desk.message[..16], wire::query(1, 1));
        assert_eq!(desk.strict(STATUS_OK, 36), Say::Send(16));
        assert_eq!(desk.strict(STATUS_OK, written), Say::refused(4));
        assert_eq!((desk.tables(), desk.sound.set_up, desk.sound.open), ([0, 1, 0], true, None));
        assert_eq!(desk.call(REMAP), Say::refused(4));
    }
}

#[test]
fn ruling_10_short_streams_cut_set_up_short() {
    for written in [0, 3, 4, 67] {
        let mut desk = Desk::awaiting([1, 2, 1], 1, OUTPUTS);
        let (say, failed) = desk.outcome(Fed::Failure);
        assert_eq!((say, desk.strict(STATUS_OK, written)), (Say::refused(7), Say::refused(11)));
        assert_eq!(desk, failed);
        assert_eq!((desk.tables(), desk.sound.set_up, desk.sound.open), ([0, 0, 0], false, None));
        assert_eq!(desk.call(OUTPUTS), Say::Send(16));
        assert_eq!(desk.message[..16], wire::query(0, 1));
    }
}

#[test]
fn ruling_10_a_short_answer_leaves_the_old_parameters() {
    let mut desk = Desk::own(set(4));
    assert_eq!(desk.strict(STATUS_OK, 4), DONE);
    let before = desk.sound.clone();
    for call in [set(8), START, REMAP] {
        assert!(matches!(desk.call(call), Say::Send(_)));
        assert_eq!(desk.strict(STATUS_OK, 3), Say::refused(11));
        assert_eq!(desk.sound, before);
    }
}

#[test]
fn ruling_11_whatever_waits_for_set_up_can_end_with_11() {
    let reads = [OUTPUTS, Call::InputStreams, Call::Rates(0), Call::Formats(0), Call::ChannelRange(0)];
    for call in reads.into_iter().chain([Call::Features(0), REMAP, set(4), START]) {
        assert_eq!(Desk::awaiting([1, 1, 1], 1, call).strict(STATUS_OK, 4), Say::refused(11));
    }
    let (mut desk, mut ring) = (Desk::new([1, 1, 1]), Ring::default());
    assert_eq!(desk.sound.xfer_start(&mut ring, 0, 8, 9, &mut desk.message), Say::Send(16));
    assert_eq!(desk.strict(STATUS_OK, 4), Say::Send(16));
    assert_eq!(desk.strict(STATUS_OK, 4), Say::refused(11));
    assert_eq!((desk.sound, ring), (Sound::new([1, 1, 1]), Ring::default()));
}

/// The entry, with lengths of its own: state, page, written, message, result.
fn entry(sound: &mut Sound, lengths: (usize, usize, u64, usize, usize)) -> u64 {
    let (state, page_len, written, message, result) = lengths;
    let (mut page, mut message, mut result) = (page(STATUS_OK), vec![7; message], vec![7; result]);
    page.resize(page_len, 1);
    let store = Store { len: state, value: Some(sound) };
    let said = number(entries::feed_written(store, &page, written, &mut message, &mut result));
    if said < entries::SEND {
        assert!(message.iter().chain(&result).all(|&b| b == 7));
    }
    said
}

#[test]
fn rulings_3_4_and_14_at_the_entry() {
    let good = (STATE_SIZE, 4096, 4096, 24, RESULT_SIZE);
    let (state, page, written, message, result) = good;
    let wrong = [
        (state - 1, page, written, message, result),
        (state, page - 1, written, message, result),
        (state, page + 1, written, message, result),
        (state, page, 4097, message, result),
        (state, page, (1 << 32) + 4, message, result),
        (state, page, written, message - 1, result),
        (state, page, written, message, result - 1),
    ];
    let open = Desk::awaiting([1, 1, 1], 1, OUTPUTS).sound;
    let mut spoilt = open.clone();
    spoilt.reserved[0] = 1;
    for (before, said) in [(open, 256 + 16), (Sound::new([1, 1, 1]), 1), (spoilt, 1)] {
        let mut sound = before.clone();
        for lengths in wrong {
            assert_eq!(entry(&mut sound, lengths), 10);
            assert_eq!(sound, before);
        }
        assert_eq!(entry(&mut sound, good), said);
    }
}

#[test]
fn the_entry_says_11_and_writes_nothing() {
    let mut sound = Desk::awaiting([1, 1, 1], 1, OUTPUTS).sound;
    assert_eq!(entry(&mut sound, (STATE_SIZE, 4096, 35, 24, RESULT_SIZE)), 11);
    assert_eq!(sound, Sound::new([1, 1, 1]));
    let nobody = Store { len: STATE_SIZE, value: None };
    let said = entries::feed_written(nobody, &page(STATUS_OK), 0, &mut [0; 24], &mut [0; RESULT_SIZE]);
    assert_eq!(number(said), 1);
}

/// A small generator (splitmix64), so that every run is the same.
struct Dice(u64);

impl Dice {
    fn next(&mut self) -> u64 {
        self.0 = self.0.wrapping_add(0x9E37_79B9_7F4A_7C15);
        let z = (self.0 ^ (self.0 >> 30)).wrapping_mul(0xBF58_476D_1CE4_E5B9);
        let z = (z ^ (z >> 27)).wrapping_mul(0x94D0_49BB_1331_11EB);
        z ^ (z >> 31)
    }

    fn one_of<T: Copy>(&mut self, all: &[T]) -> T {
        all[self.next() as usize % all.len()]
    }

    fn counts(&mut self) -> [u32; 3] {
        let streams = [0, 1, 1, 2, 3, 127, 128];
        let others = [0, 1, 2, 3, 3, 170, 171, u32::MAX];
        [self.one_of(&others), self.one_of(&streams), self.one_of(&others)]
    }

    fn call(&mut self) -> Call {
        let s = self.one_of(&[0, 0, 0, 1, 2]);
        let code = self.one_of(&[wire::PREPARE, wire::RELEASE, wire::START, wire::STOP]);
        let own = [REMAP, set(4), set(6), set(0), Call::Command { code, stream: s }];
        let reads = [OUTPUTS, Call::InputStreams, Call::Rates(s), Call::Features(s), Call::ChannelRange(s)];
        if self.next().is_multiple_of(4) { self.one_of(&reads) } else { self.one_of(&own) }
    }

    fn page(&mut self) -> Vec<u8> {
        let mut page: Vec<u8> = (0..512).flat_map(|_| self.next().to_le_bytes()).collect();
        let any = self.next() as u32;
        let status = self.one_of(&[STATUS_OK, STATUS_OK, STATUS_OK, STATUS_OK, STATUS_OK, STATUS_BAD, any]);
        page[..4].copy_from_slice(&status.to_le_bytes());
        page
    }

    /// A length the device may have written: often at an edge.
    fn written(&mut self, enough: u64) -> u64 {
        let any = self.next() % (FULL + 1);
        let few = self.next() % 6;
        self.one_of(&[enough - 1, enough, enough, enough + 1, FULL, any, few]).min(FULL)
    }
}

/// What the answer that is awaited takes, if it is ok.
fn enough(sound: &Sound) -> u64 {
    match sound.open {
        Some((Awaits::Table(t), _)) => 4 + sound.counts[t] as u64 * [24, 32, 24][t],
        _ => 4,
    }
}

/// Makes calls by chance and answers them by `feed`: the numbers that were said at feeds.
fn walk(feed: impl Fn(&mut Dice, &Desk) -> (Say, Desk)) -> BTreeSet<u8> {
    let (mut dice, mut seen) = (Dice(202601), BTreeSet::new());
    for _ in 0..600 {
        let mut desk = Desk::new(dice.counts());
        for _ in 0..8 {
            let call = dice.call();
            let mut say = desk.call(call);
            while let Say::Send(_) = say {
                (say, desk) = feed(&mut dice, &desk);
                seen.insert(match &say {
                    Say::Refused(why) => why.number,
                    _ => 0,
                });
            }
        }
    }
    seen
}

#[test]
fn ruling_13_what_stands_after_the_written_bytes_plays_no_part() {
    let seen = walk(|dice, desk| {
        let (page, written) = (dice.page(), dice.written(enough(&desk.sound)));
        let mut other = dice.page();
        other[..written as usize].copy_from_slice(&page[..written as usize]);
        let outcome = desk.outcome(Fed::Written(&page, written));
        assert_eq!(desk.outcome(Fed::Written(&other, written)), outcome);
        outcome
    });
    assert_eq!(seen, BTreeSet::from([0, 1, 2, 3, 4, 5, 11]));
}

#[test]
fn ruling_12_a_page_written_in_full_is_the_old_feed() {
    let seen = walk(|dice, desk| {
        let page = dice.page();
        let old = desk.outcome(Fed::Page(&page));
        assert_eq!(desk.outcome(Fed::Written(&page, FULL)), old);
        old
    });
    assert_eq!(seen, BTreeSet::from([0, 1, 2, 3, 4, 5]));
}

#[test]
fn ruling_12_holds_with_the_lengths_the_model_device_tells() {
    let (jacks, streams, maps) = ([1; 2 * 24], [0; 32], [9; 3 * 24]);
    let mut model = Model::new([&jacks, &streams, &maps]).unwrap();
    let mut desk = Desk::new([2, 1, 3]);
    let calls = [
        (set(4), DONE),
        (START, DONE),
        (REMAP, Say::refused_by(3, STATUS_BAD)),
        (OUTPUTS, Say::Done(Value::Streams(vec![0]))),
    ];
    for (call, last) in calls {
        let mut say = desk.call(call);
        while let Say::Send(n) = say {
            let mut page = [0xEE; 4096];
            let written = model.control(&desk.message[..n], &mut page).unwrap();
            let old = desk.outcome(Fed::Page(&page));
            (say, desk) = desk.outcome(Fed::Written(&page, written as u64));
            assert_eq!((&say, &desk), (&old.0, &old.1));
        }
        assert_eq!(say, last);
    }
    assert_eq!(desk.tables(), [2, 1, 3]);
}

#[test]
fn rulings_9_10_and_12_covered_is_the_old_feed_and_short_is_a_failure_that_says_11() {
    let seen = walk(|dice, desk| {
        let (page, enough) = (dice.page(), enough(&desk.sound));
        let written = dice.written(enough);
        let ok = page[..4] == STATUS_OK.to_le_bytes();
        let covered = written >= 4 && (!ok || enough > FULL || written >= enough);
        let expected = match desk.outcome(Fed::Failure) {
            _ if covered => desk.outcome(Fed::Page(&page)),
            (say, failed) if say == Say::refused(7) => (Say::refused(11), failed),
            silent => silent,
        };
        assert_eq!(desk.outcome(Fed::Written(&page, written)), expected);
        expected
    });
    assert_eq!(seen, BTreeSet::from([0, 1, 2, 3, 4, 5, 11]));
}
