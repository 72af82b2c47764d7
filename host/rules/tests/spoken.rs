//! Request 2026-13, "What was heard before a failure": each test names the rulings on it by their numbers.
use rules::capture::Heard;
use rules::entries::{Asked, RESULT_SIZE, RING_SIZE, Store, number, ring_read};
use rules::ring::{Reading, Ring, Turn};
use rules::spoken::Spoken;
use rules::wire::{self, STATUS_OK, u64_at};
use rules::{BAD_CAPTURE, BAD_LENGTH, INVALID_PARAM, IO_ERROR, OK, OUT_OF_TURNS, WRONG_TOKEN};

const PERIOD: u64 = 4;

/// The frames' periods: offset and length of each.
fn cut(frames_len: u64) -> Vec<(u64, u64)> {
    let offsets = (0..frames_len).step_by(PERIOD as usize);
    offsets.map(|offset| (offset, PERIOD.min(frames_len - offset))).collect()
}

/// What a turn is told: kinds that are told apart by the rules.
#[derive(Copy, Clone, Debug, PartialEq)]
enum Told {
    Quiet,
    Good,
    Bad,
    Wrong,
}

/// What a host sees of a transfer without asking how much was accepted.
#[derive(Default)]
struct Log {
    /// in the order of submission: slot, and which part of the frames
    sent: Vec<(u64, (u64, u64))>,
    /// those that came back from their oldest slot, in that order, with the status
    back: Vec<((u64, u64), u32)>,
}

impl Log {
    fn oldest(&self) -> Option<(u64, (u64, u64))> {
        self.sent.get(self.back.len()).copied()
    }

    fn good(&self) -> Vec<(u64, u64)> {
        self.back.iter().filter(|(_, status)| *status == STATUS_OK).map(|(part, _)| *part).collect()
    }
}

fn turn(ring: &mut Ring, log: &mut Log, frames_len: u64, told: Told) -> Turn {
    let offer = ring.offered(frames_len).unwrap();
    log.sent.extend(offer.map(|offer| (offer.slot, (offer.offset, offer.length))));
    let oldest = log.oldest();
    let slot = oldest.map_or(99, |(slot, _)| slot) as u32;
    let reading = match told {
        Told::Quiet => Reading::Quiet,
        Told::Good => Reading::Completed { slot, status: STATUS_OK },
        Told::Bad => Reading::Completed { slot, status: 0x8003 },
        Told::Wrong => Reading::Completed { slot: slot + 1, status: STATUS_OK },
    };
    let said = ring.turn(frames_len, reading);
    if let (Some((_, part)), Told::Good | Told::Bad) = (oldest, told) {
        log.back.push((part, if told == Told::Good { STATUS_OK } else { 0x8003 }));
    }
    said
}

/// What the request says of an ended transfer, by the log alone.
fn held(ring: &Ring, log: &Log, frames_len: u64, answer: u8) {
    let all = cut(frames_len);
    let k = log.good().len();
    let Spoken { accepted, failing, owed, bytes } = ring.spoken(answer);
    // "the accepted payloads are exactly the first k periods"
    assert_eq!((log.good(), accepted), (all[..k].to_vec(), 0..k as u64));
    assert_eq!(bytes, log.good().iter().map(|(_, length)| length).sum::<u64>());
    // "the failing one is the next"
    let failed = log.back.iter().find(|(_, status)| *status != STATUS_OK).map(|(part, _)| *part);
    assert_eq!(failed, failing.map(|at| all[at as usize]));
    assert_eq!(failing, (answer == IO_ERROR).then_some(k as u64));
    // "and those still owed follow it without a gap"
    let carried = (0..ring.in_flight).map(|j| ring.slots[((ring.tail + j) % 32) as usize]);
    let parts: Vec<(u64, u64)> = carried.collect();
    assert_eq!(parts, all[owed.start as usize..owed.end as usize]);
    assert_eq!(owed.start, k as u64 + u64::from(answer == IO_ERROR));
    // nothing that went out is left over
    assert_eq!(log.sent.iter().map(|(_, part)| *part).collect::<Vec<_>>(), all[..owed.end as usize]);
}

/// Every script of seven turns, of frames around three periods, with small budgets.
#[test]
fn rulings_1_2_5_and_8_every_short_script() {
    let kinds = [Told::Quiet, Told::Good, Told::Bad, Told::Wrong];
    let mut ends = std::collections::BTreeMap::<u8, u32>::new();
    for number in 0..kinds.len().pow(7) {
        for (frames_len, budget) in [(10, 7), (12, 4), (27, 7)] {
            let (mut ring, mut log) = (Ring::default(), Log::default());
            assert_eq!(ring.start(0, frames_len, PERIOD, budget), Turn::Going);
            assert_eq!(ring.accepted(), 0);
            for at in 0..7 {
                let said = turn(&mut ring, &mut log, frames_len, kinds[number / kinds.len().pow(at) % kinds.len()]);
                assert_eq!(ring.accepted(), log.good().len() as u64);
                assert!(ring.consistent() && ring.accepted() <= ring.turns);
                if let Turn::Ended(said) = said {
                    held(&ring, &log, frames_len, said.number);
                    *ends.entry(said.number).or_default() += 1;
                    break;
                }
            }
        }
    }
    assert_eq!(ends.keys().copied().collect::<Vec<_>>(), [OK, IO_ERROR, WRONG_TOKEN, OUT_OF_TURNS]);
}

/// The ring is full, and comes round: 40 periods, each place of a failure, each depth.
#[test]
fn ruling_5_ten_in_flight_and_slots_that_come_round() {
    for quiet in [0, 1, 5, 9, 10, 11] {
        for good in 0..=40 {
            for (last, answer) in [(Told::Bad, IO_ERROR), (Told::Wrong, WRONG_TOKEN), (Told::Quiet, OUT_OF_TURNS)] {
                let (mut ring, mut log) = (Ring::default(), Log::default());
                assert_eq!(ring.start(0, 159, PERIOD, quiet + good + 1), Turn::Going);
                let script = [vec![Told::Quiet; quiet as usize], vec![Told::Good; good as usize], vec![last]].concat();
                for told in &script[..script.len() - 1] {
                    assert_eq!(turn(&mut ring, &mut log, 159, *told), Turn::Going);
                }
                let said = turn(&mut ring, &mut log, 159, last);
                // all 40 came back: that turn is Ok and does not look
                let answer = if good == 40 { OK } else { answer };
                assert!(matches!(said, Turn::Ended(said) if said.number == answer), "{said:?}");
                if answer == OK {
                    log.back.truncate(40);
                }
                held(&ring, &log, 159, answer);
            }
        }
    }
}

/// A transfer of ten bytes that fails at its second period with one owed.
fn failed() -> Ring {
    let (mut ring, mut log) = (Ring::default(), Log::default());
    assert_eq!(ring.start(3, 10, PERIOD, 9), Turn::Going);
    for told in [Told::Quiet, Told::Good] {
        assert_eq!(turn(&mut ring, &mut log, 10, told), Turn::Going);
    }
    assert!(matches!(turn(&mut ring, &mut log, 10, Told::Bad), Turn::Ended(said) if said.number == IO_ERROR));
    held(&ring, &log, 10, IO_ERROR);
    ring
}

#[test]
fn rulings_2_and_4_drains_and_refused_starts_keep_it() {
    let mut ring = failed();
    assert_eq!((ring.accepted(), ring.in_flight), (1, 1));
    // Busy, and a drain turn of a wrong slot, a quiet one, and the right one with any status
    assert_eq!(ring.start(0, 4, PERIOD, 5), Turn::ended(rules::BUSY));
    let readings = [(0, OK), (9, WRONG_TOKEN), (2, OK), (2, WRONG_TOKEN)];
    for (slot, said) in readings {
        let reading = if slot == 0 { Reading::Quiet } else { Reading::Completed { slot, status: STATUS_OK } };
        assert_eq!((ring.drain_turn(reading), ring.accepted()), (said, 1));
    }
    assert_eq!(ring.in_flight, 0);
    // no turn ran of these: the last that ran is told
    assert_eq!((ring.start(0, 4, PERIOD, 0), ring.accepted()), (Turn::ended(OUT_OF_TURNS), 1));
    assert_eq!((ring.capture_start(0, 2, PERIOD, 7, 5), ring.accepted()), (Turn::ended(BAD_LENGTH), 1));
    assert_eq!((ring.start_traced(0, 4, PERIOD, 5, 38), ring.accepted()), (Turn::ended(BAD_LENGTH), 1));
    // one that goes on begins anew
    assert_eq!((ring.start(0, 4, PERIOD, 5), ring.accepted()), (Turn::Going, 0));
}

fn read(ring: &Ring) -> (u64, u64) {
    let mut result = [0xee; RESULT_SIZE];
    let store = Store { len: RING_SIZE, value: Some(ring) };
    let said = number(ring_read(store, Asked::Accepted, &mut result));
    assert!(result[8..].iter().all(|byte| *byte == 0xee), "a read writes 8 bytes");
    (said, u64_at(&result, 0))
}

#[test]
fn ruling_3_the_read() {
    let mut ring = Ring::default();
    assert_eq!(read(&ring), (0, 0));
    assert_eq!(ring.start(0, 10, PERIOD, 9), Turn::Going);
    for slot in 0..3 {
        assert_eq!(read(&ring), (0, slot));
        assert_eq!(ring.turn(10, Reading::Completed { slot: slot as u32, status: STATUS_OK }), Turn::Going);
    }
    // after Ok it is n
    assert_eq!((ring.turn(10, Reading::Quiet), read(&ring)), (Turn::ended(OK), (0, 3)));
    assert_eq!(read(&failed()), (0, 1));
    // 10 before 1
    let (bad, mut result) = (Ring { head: 32, ..failed() }, [0; RESULT_SIZE]);
    for (len, room, said) in [(RING_SIZE, RESULT_SIZE, 1), (RING_SIZE - 1, RESULT_SIZE, 10), (RING_SIZE, 511, 10)] {
        let store = Store { len, value: Some(&bad) };
        assert_eq!(number(ring_read(store, Asked::Accepted, &mut result[..room])), said);
    }
}

#[test]
fn ruling_7_more_good_ones_than_turns_is_inconsistent() {
    let mut ring = Ring::default();
    assert_eq!(ring.start(0, 10, PERIOD, 9), Turn::Going);
    assert_eq!(ring.turn(10, Reading::Quiet), Turn::Going);
    for (good, said) in [(0, Turn::Going), (1, Turn::Going), (2, Turn::ended(INVALID_PARAM))] {
        let mut tried = Ring { good, ..ring.clone() };
        assert_eq!(tried.turn(10, Reading::Quiet), said, "{good}");
        // also of one that does not run
        let tried = Ring { running: false, good, ..ring.clone() };
        assert_eq!(read(&tried).0 == 0, good <= 1, "{good}");
    }
}

#[test]
fn ruling_6_captures() {
    let mut recording = [0; 12];
    let wrote = |length: usize, status: u32| [vec![7; length], wire::words(&[status, 0])].concat();
    for (status, written, answer) in [(0x8003, 12, IO_ERROR), (STATUS_OK, 7, BAD_CAPTURE), (STATUS_OK, 13, BAD_CAPTURE)]
    {
        let mut ring = Ring::default();
        assert_eq!(ring.capture_start(0, 3, PERIOD, 12, 9), Turn::Going);
        let good = wrote(2, STATUS_OK);
        let turns = [Heard::Quiet, Heard::Completed { slot: 0, written: 10, bytes: &good }];
        for (at, heard) in turns.into_iter().enumerate() {
            assert_eq!((ring.capture_turn(&mut recording, heard), ring.accepted()), (Turn::Going, at as u64));
        }
        let bytes = wrote(4, status);
        let said = ring.capture_turn(&mut recording, Heard::Completed { slot: 1, written, bytes: &bytes });
        assert!(matches!(said, Turn::Ended(said) if said.number == answer), "{said:?}");
        // 17 counts as a failing one
        let Spoken { accepted, failing, owed, .. } = ring.spoken(answer);
        assert_eq!((accepted, failing, owed), (0..1, Some(1), 2..3));
        assert_eq!(ring.drain_turn(Reading::Completed { slot: 2, status: STATUS_OK }), OK);
        assert_eq!(ring.accepted(), 1);
    }
}
