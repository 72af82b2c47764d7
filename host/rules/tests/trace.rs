//! Request 2026-11, "Judge a foreign trace": each test names the rulings on it by their numbers. Judged are all short runs, each byte of
//! them changed, each cut, each field doubled, taken away, exchanged and put in: against all runs of that start, written by the turns.
use rules::ring::{Reading, Ring, Turn};
use rules::sound::{Call, Fed, Params, Say, Sound, Value};
use rules::trace::{Fault, Field, bytes, judge, judge_in, room_for, scan};
use rules::wire::{self, STATUS_OK};
use rules::{BAD_LENGTH, BAD_TRACE, BUSY, INVALID_PARAM, IO_ERROR, NOT_A_RUN, OK, OUT_OF_TURNS, WRONG_TOKEN};
use std::collections::{BTreeSet, HashMap};

const FILL: u8 = 0xb7;
const STREAM: u32 = 0x0403_0201;

type Start = (u32, u32, u32);

fn start((stream, length, period): Start) -> Field {
    Field::Start { stream, length, period }
}
fn submitted(slot: u8, offset: u32, length: u32) -> Field {
    Field::Submitted { slot, offset, length }
}
fn completed(slot: u8, status: u32) -> Field {
    Field::Completed { slot, status }
}
fn good(slot: u8) -> Field {
    completed(slot, STATUS_OK)
}
fn end(answer: u8) -> Field {
    Field::End { answer }
}
fn not_a_run(at: usize) -> Result<(), Fault> {
    Err(Fault { number: NOT_A_RUN, at })
}
fn bad_trace(at: usize) -> Result<(), Fault> {
    Err(Fault { number: BAD_TRACE, at })
}

/// A ring that writes a trace, and its room.
#[derive(Clone)]
struct Desk {
    ring: Ring,
    room: Vec<u8>,
}

impl Desk {
    fn started((stream, length, period): Start, budget: u64) -> Self {
        let room = vec![FILL; room_for(length.into(), period.into()) as usize + 3];
        let mut ring = Ring::default();
        let said = ring.start_traced(stream, length.into(), period.into(), budget, room.len() as u64);
        assert_eq!(said, Turn::Going);
        Desk { ring, room }
    }

    fn turn(&mut self, reading: Reading) -> Turn {
        self.ring.turn_traced(self.ring.frames_len, &mut self.room, reading)
    }

    /// The trace so far; nothing stands behind it.
    fn trace(&self) -> &[u8] {
        let (trace, rest) = self.room.split_at(self.ring.traced as usize);
        assert!(rest.iter().all(|byte| *byte == FILL));
        trace
    }
}

/// Every run's trace with these statuses.
fn runs(of: Start, statuses: &BTreeSet<u32>) -> BTreeSet<Vec<u8>> {
    let (mut all, mut paths) = (BTreeSet::new(), vec![Desk::started(of, u64::MAX)]);
    while let Some(desk) = paths.pop() {
        let oldest = desk.ring.tail as u32;
        let mut readings = vec![Reading::Quiet, Reading::Completed { slot: 32, status: STATUS_OK }];
        readings.extend(statuses.iter().map(|status| Reading::Completed { slot: oldest, status: *status }));
        for reading in readings {
            for budget in [u64::MAX, desk.ring.turns + 1] {
                let mut next = desk.clone();
                next.ring.budget = budget;
                match next.turn(reading) {
                    Turn::Ended(_) => _ = all.insert(next.trace().to_vec()),
                    // a turn that does nothing: what follows is what would without it
                    Turn::Going if next.trace() == desk.trace() => {}
                    Turn::Going => paths.push(next),
                }
            }
        }
    }
    all
}

/// All runs, made once for each start and each set of statuses.
#[derive(Default)]
struct Runs(HashMap<(Start, BTreeSet<u32>), BTreeSet<Vec<u8>>>);

impl Runs {
    /// What the judge must say of a trace, by the runs of its own start: those of any other agree no further than it.
    fn expected(&mut self, trace: &[u8]) -> Result<(), Fault> {
        let fields = scan(trace)?;
        let Field::Start { stream, length, period } = fields[0] else {
            return not_a_run(0);
        };
        if period == 0 {
            return not_a_run(14);
        }
        let mut statuses = BTreeSet::from([STATUS_OK]);
        for field in fields {
            if let Field::Completed { status, .. } = field {
                statuses.insert(status);
            }
        }
        let of = (stream, length, period);
        assert!(length.div_ceil(period) <= 5, "too many runs to make");
        let all = self.0.entry((of, statuses)).or_insert_with_key(|(of, statuses)| runs(*of, statuses));
        if all.contains(trace) {
            return Ok(());
        }
        let same = |run: &Vec<u8>| run.iter().zip(trace).take_while(|(a, b)| a == b).count();
        not_a_run(all.iter().map(same).max().expect("there is a run"))
    }

    fn holds(&mut self, trace: &[u8]) {
        assert_eq!(judge(trace), self.expected(trace), "{trace:02x?}");
    }
}

/// The start's numbers are not so large that its runs are too many.
fn small(trace: &[u8]) -> bool {
    match scan(trace).as_deref() {
        Ok([Field::Start { length, period, .. }, ..]) => *period == 0 || length.div_ceil(*period) <= 5,
        _ => true,
    }
}

/// Every way in which a trace is changed.
fn changed(trace: &[u8]) -> Vec<Vec<u8>> {
    let mut all: Vec<Vec<u8>> = (0..trace.len()).map(|length| trace[..length].to_vec()).collect();
    for at in 0..trace.len() {
        let old = trace[at];
        for new in [old ^ 1, old ^ 0x80, old.wrapping_add(1), old.wrapping_sub(1), 0, 1, 2, 3, 6, 9, 255] {
            let mut other = trace.to_vec();
            other[at] = new;
            all.push(other);
        }
    }
    let fields = scan(trace).expect("a run");
    let mut push = |fields: &[Field]| all.push(bytes(fields));
    for at in 0..fields.len() {
        let mut doubled = fields.clone();
        doubled.insert(at, fields[at]);
        push(&doubled);
        let mut fewer = fields.clone();
        fewer.remove(at);
        push(&fewer);
        for other in at + 1..fields.len() {
            let mut swapped = fields.clone();
            swapped.swap(at, other);
            push(&swapped);
        }
        for new in
            [submitted(0, 0, 4), submitted(1, 4, 4), good(0), good(1), completed(0, 7), end(0), end(2), end(6), end(9)]
        {
            let mut more = fields.clone();
            more.insert(at, new);
            push(&more);
            more.remove(at);
            more[at] = new;
            push(&more);
        }
    }
    all.push([trace, &[0]].concat());
    all.push([trace, &end(0).bytes()].concat());
    all.sort();
    all.dedup();
    all.retain(|other| other != trace);
    all
}

#[test]
fn rulings_12_to_17_every_short_run_and_its_changes() {
    let (mut known, mut accepted, mut refused) = (Runs::default(), 0, BTreeSet::new());
    for of in [(STREAM, 0, 4), (0, 3, 4), (1, 4, 4), (STREAM, 7, 4), (2, 8, 4)] {
        let statuses = BTreeSet::from([STATUS_OK, 0x8003]);
        for run in runs(of, &statuses) {
            assert_eq!(judge(&run), Ok(()), "{run:02x?}");
            for trace in changed(&run).iter().filter(|trace| small(trace)) {
                known.holds(trace);
                match judge(trace) {
                    Ok(()) => accepted += 1,
                    Err(fault) => _ = refused.insert((fault.number, fault.at)),
                }
            }
        }
    }
    // a changed stream, status or answer can be another run's
    assert!(accepted > 100 && refused.len() > 40, "{accepted} {refused:?}");
}

#[test]
fn rulings_12_to_17_three_and_four_periods() {
    let (mut known, statuses) = (Runs::default(), BTreeSet::from([STATUS_OK]));
    for of in [(5, 10, 4), (5, 13, 4)] {
        for (at, run) in runs(of, &statuses).iter().enumerate() {
            assert_eq!(judge(run), Ok(()));
            if at % 7 == 0 {
                changed(run).iter().filter(|trace| small(trace)).step_by(5).for_each(|trace| known.holds(trace));
            }
        }
    }
}

#[test]
fn ruling_1_a_whole_run_in_bytes() {
    // 10 bytes, period 4, a right completion every turn
    let mut desk = Desk::started((1, 10, 4), 9);
    for slot in 0..3 {
        assert_eq!(desk.turn(Reading::Completed { slot, status: STATUS_OK }), Turn::Going);
    }
    assert_eq!(desk.turn(Reading::Completed { slot: 9, status: 0 }), Turn::ended(OK));
    #[rustfmt::skip]
    let expected = [
        0, 12, 0, 1, 0, 0, 0, 10, 0, 0, 0, 4, 0, 0, 0,
        1, 9, 0, 0, 0, 0, 0, 0, 4, 0, 0, 0, 2, 5, 0, 0, 0, 0x80, 0, 0,
        1, 9, 0, 1, 4, 0, 0, 0, 4, 0, 0, 0, 2, 5, 0, 1, 0, 0x80, 0, 0,
        1, 9, 0, 2, 8, 0, 0, 0, 2, 0, 0, 0, 2, 5, 0, 2, 0, 0x80, 0, 0,
        3, 1, 0, 0,
    ];
    assert_eq!(desk.trace(), expected);
    assert_eq!((desk.trace().len() as u64, judge(desk.trace())), (room_for(10, 4), Ok(())));
}

/// "What may follow what", with the ring full: after the tenth that is not completed no other goes out.
#[test]
fn ruling_13_no_more_than_ten_in_flight() {
    let of = (0, 12, 1);
    let mut fields = vec![start(of)];
    fields.extend((0..10).map(|slot| submitted(slot, slot.into(), 1)));
    let full = bytes(&fields);
    for (next, said) in [(submitted(10, 10, 1), 0), (good(0), 1), (end(6), 2), (end(9), 2), (end(0), 3), (good(1), 3)] {
        let trace = [full.clone(), next.bytes()].concat();
        let expected = match said {
            0 => not_a_run(full.len()),
            1 => not_a_run(trace.len()),
            2 => Ok(()),
            _ => not_a_run(full.len() + 3),
        };
        assert_eq!(judge(&trace), expected, "{next:?}");
    }
    // the first came back: the eleventh must go out, or the budget is spent
    fields.push(good(0));
    let one = bytes(&fields);
    for (next, expected) in [
        (submitted(10, 10, 1), not_a_run(one.len() + 12)),
        (end(9), Ok(())),
        (end(6), not_a_run(one.len() + 3)),
        (good(1), not_a_run(one.len())),
    ] {
        assert_eq!(judge(&[one.clone(), next.bytes()].concat()), expected, "{next:?}");
    }
}

#[test]
fn ruling_13_where_no_period_remains() {
    let head = bytes(&[start((0, 2, 1)), submitted(0, 0, 1), submitted(1, 1, 1)]);
    let says = |fields: &[Field]| judge(&[head.clone(), bytes(fields)].concat());
    let at = head.len();
    assert_eq!(says(&[good(0), good(1), end(0)]), Ok(()));
    assert_eq!(says(&[good(0), good(1), end(9)]), Ok(()));
    assert_eq!(says(&[good(0), end(6)]), Ok(()));
    assert_eq!(says(&[good(0), end(9)]), Ok(()));
    // that turn does not look
    assert_eq!(says(&[good(0), good(1), end(6)]), not_a_run(at + 19));
    assert_eq!(says(&[good(0), good(1), end(2)]), not_a_run(at + 19));
    assert_eq!(says(&[good(0), end(0)]), not_a_run(at + 11));
    assert_eq!(says(&[end(0)]), not_a_run(at + 3));
    // after a bad one the end with 2 alone
    assert_eq!(says(&[completed(0, 5), end(2)]), Ok(()));
    assert_eq!(says(&[completed(0, 5), end(9)]), not_a_run(at + 11));
    assert_eq!(says(&[completed(0, 5), good(1), end(2)]), not_a_run(at + 8));
    // nothing behind the end
    assert_eq!(says(&[end(6), end(6)]), not_a_run(at + 4));
    assert_eq!(says(&[end(6), good(0)]), not_a_run(at + 4));
}

#[test]
fn ruling_13_after_the_start() {
    for (length, next, expected) in [
        (0, end(0), Ok(())),
        (0, end(9), not_a_run(18)),
        (0, submitted(0, 0, 0), not_a_run(15)),
        (5, end(0), not_a_run(15)),
        (5, end(9), not_a_run(15)),
        (5, end(6), not_a_run(15)),
        (5, good(0), not_a_run(15)),
        (5, submitted(0, 0, 4), not_a_run(27)),
        (5, start((1, 5, 4)), not_a_run(15)),
    ] {
        assert_eq!(judge(&bytes(&[start((1, length, 4)), next])), expected, "{length} {next:?}");
    }
}

#[test]
fn ruling_17_offsets() {
    let trace = bytes(&[start((1, 10, 4)), submitted(0, 0, 4), good(0), end(9)]);
    let says = |at: usize, byte: u8| {
        let mut trace = trace.clone();
        trace[at] = byte;
        judge(&trace)
    };
    assert_eq!(judge(&trace), Ok(()));
    // the first differing byte of slot, offset, length
    for at in (18..27).chain([30]) {
        assert_eq!(says(at, 0x55), not_a_run(at));
    }
    // a status can be any, but then the end is another
    assert_eq!(says(32, 0x81), not_a_run(38));
    assert_eq!(says(38, 0), not_a_run(38));
    // no start at all; period 0, which agrees with one of 2^24 up to its last byte
    assert_eq!(judge(&end(9).bytes()), not_a_run(0));
    assert_eq!(judge(&bytes(&[good(0), start((1, 2, 3))])), not_a_run(0));
    assert_eq!(judge(&bytes(&[start((1, 10, 0)), submitted(0, 0, 4)])), not_a_run(14));
    assert_eq!(judge(&bytes(&[start((1, 0, 0)), end(0)])), not_a_run(14));
    // it only ends early
    assert_eq!(judge(&trace[..35]), not_a_run(35));
    assert_eq!(judge(&trace[..15]), not_a_run(15));
}

#[test]
fn rulings_15_and_16_what_is_no_trace() {
    assert_eq!(judge(&[]), bad_trace(0));
    let run = bytes(&[start((1, 10, 4)), submitted(0, 0, 4), good(0), end(9)]);
    let starts = [0, 15, 27, 35];
    for length in 1..run.len() {
        let whole = starts.contains(&length);
        let field = *starts.iter().rev().find(|at| **at <= length).unwrap();
        assert_eq!(judge(&run[..length]), if whole { not_a_run(length) } else { bad_trace(field) });
    }
    for (field, at) in starts.into_iter().enumerate() {
        for tag in 4..=255 {
            let mut other = run.clone();
            other[at] = tag;
            assert_eq!(judge(&other), bad_trace(at));
        }
        // another length, also one of which the rest would be cut
        for (place, byte) in [(1, 0), (1, 11), (1, 13), (2, 1), (1, 255)] {
            let mut other = run.clone();
            other[at + place] = byte;
            assert_eq!(judge(&other), bad_trace(at), "{field}");
        }
    }
    // the whole of it is looked at before the run
    assert_eq!(judge(&[bytes(&[end(9)]), vec![3, 1]].concat()), bad_trace(4));
    assert_eq!(judge(&[run.clone(), vec![0]].concat()), bad_trace(39));
    assert_eq!(judge(&[run, vec![3, 1, 0, 9]].concat()), not_a_run(39));
}

#[test]
fn ruling_14_long_ones() {
    // one byte a period, nearly 2^32 of them: only what is written costs
    let of = (9, u32::MAX, 1);
    let mut fields = vec![start(of)];
    for at in 0..400u32 {
        fields.extend([submitted((at % 32) as u8, at, 1), good((at % 32) as u8)]);
    }
    fields.push(end(9));
    assert_eq!(judge(&bytes(&fields)), Ok(()));
    *fields.last_mut().unwrap() = end(0);
    assert_eq!(judge(&bytes(&fields)), not_a_run(15 + 400 * 20 + 3));
    // a period above the frames is one period
    assert_eq!(judge(&bytes(&[start((1, 3, u32::MAX)), submitted(0, 0, 3), good(0), end(0)])), Ok(()));
}

#[test]
fn ruling_18_the_mode() {
    let run = bytes(&[start((1, 0, 4)), end(0)]);
    assert_eq!(judge_in(3, &run), Ok(()));
    for mode in [0, 2, 4, u32::MAX] {
        assert_eq!(judge_in(mode, &run).map_err(|fault| fault.number), Err(INVALID_PARAM));
    }
}

#[test]
fn rulings_3_to_6_what_each_turn_writes() {
    // a turn that submits and hears a wrong token
    let mut desk = Desk::started((7, 8, 4), 9);
    assert_eq!(desk.trace(), []);
    assert_eq!(desk.turn(Reading::Completed { slot: 3, status: 0 }), Turn::ended(WRONG_TOKEN));
    assert_eq!(desk.trace(), bytes(&[start((7, 8, 4)), submitted(0, 0, 4), end(6)]));
    // drain turns write nothing
    assert_eq!(desk.ring.drain_turn(Reading::Completed { slot: 0, status: 0 }), OK);
    assert_eq!(desk.trace(), bytes(&[start((7, 8, 4)), submitted(0, 0, 4), end(6)]));
    // a bad status
    let mut desk = Desk::started((7, 8, 4), 9);
    assert!(matches!(desk.turn(Reading::Completed { slot: 0, status: 6 }), Turn::Ended(_)));
    assert_eq!(desk.trace(), bytes(&[start((7, 8, 4)), submitted(0, 0, 4), completed(0, 6), end(2)]));
    // out of turns with nothing submitted
    let mut desk = Desk::started((7, 4, 4), 2);
    assert_eq!((desk.turn(Reading::Quiet), desk.turn(Reading::Quiet)), (Turn::Going, Turn::ended(OUT_OF_TURNS)));
    assert_eq!(desk.trace(), bytes(&[start((7, 4, 4)), submitted(0, 0, 4), end(9)]));
    // on the turn of the last completion: never 0 then
    let mut desk = Desk::started((7, 4, 4), 1);
    assert_eq!(desk.turn(Reading::Completed { slot: 0, status: STATUS_OK }), Turn::ended(OUT_OF_TURNS));
    assert_eq!(desk.trace(), bytes(&[start((7, 4, 4)), submitted(0, 0, 4), good(0), end(9)]));
    assert_eq!(judge(desk.trace()), Ok(()));
}

#[test]
fn rulings_9_and_10_rooms() {
    for (length, period, n) in
        [(0u64, 4u64, 0u64), (1, 4, 1), (4, 4, 1), (5, 4, 2), (u32::MAX.into(), 1, u32::MAX.into())]
    {
        assert_eq!(room_for(length, period), 19 + 20 * n);
        let mut ring = Ring::default();
        assert_eq!(ring.start_traced(1, length, period, 5, 18 + 20 * n), Turn::ended(BAD_LENGTH));
        // budget 0 comes before
        assert_eq!(ring.start_traced(1, length, period, 0, 0), Turn::ended(OUT_OF_TURNS));
        assert_eq!(ring, Ring::default());
        assert_eq!(ring.start_traced(1, length, period, 5, 19 + 20 * n), Turn::Going);
        assert_eq!(ring.start_traced(1, length, period, 0, 0), Turn::ended(BUSY));
    }
    let mut ring = Ring::default();
    assert_eq!(ring.start_traced(1, 1 << 32, u32::MAX.into(), 5, u64::MAX), Turn::ended(BAD_LENGTH));
    assert_eq!(ring.start_traced(1, (1 << 32) - 1, u32::MAX.into(), 5, 39), Turn::Going);
    // at a turn: the room as long as at the start, frames too, both before 1
    let mut desk = Desk::started((1, 10, 4), 9);
    let before = desk.ring.clone();
    let long = desk.room.len();
    for length in [0, long - 1, long + 1] {
        assert_eq!(desk.ring.turn_traced(10, &mut vec![0; length], Reading::Quiet), Turn::ended(BAD_LENGTH));
    }
    assert_eq!(desk.ring.turn_traced(9, &mut desk.room, Reading::Quiet), Turn::ended(BAD_LENGTH));
    // a turn that lends no room
    assert_eq!(desk.ring.turn(10, Reading::Quiet), Turn::ended(BAD_LENGTH));
    assert_eq!((&desk.ring, desk.trace()), (&before, &[][..]));
    assert_eq!(desk.ring.offered(10).unwrap().unwrap().length, 4);
    desk.ring.tail = 32;
    assert_eq!(desk.ring.turn_traced(10, &mut [], Reading::Quiet), Turn::ended(BAD_LENGTH));
    assert_eq!(desk.turn(Reading::Quiet), Turn::ended(INVALID_PARAM));
    // one that writes none takes none; where nothing runs there is no start to compare with
    let mut plain = Ring::default();
    assert_eq!(plain.start(1, 10, 4, 9), Turn::Going);
    assert_eq!(plain.turn_traced(10, &mut [0; 79], Reading::Quiet), Turn::ended(BAD_LENGTH));
    assert_eq!(plain.turn_traced(10, &mut [], Reading::Quiet), Turn::Going);
    assert_eq!((plain.traced, plain.turns), (0, 1));
    assert_eq!(Ring::default().turn_traced(10, &mut [0; 79], Reading::Quiet), Turn::ended(INVALID_PARAM));
}

#[test]
fn ruling_9_the_start_in_its_order() {
    let mut message = [0; 24];
    let mut sound = Sound::new([0, 1, 0]);
    let params = Params { buffer: 8, period: 4, features: 0, channels: 2, format: 5, rate: 7 };
    let mut ring = Ring::default();
    // before set-up it begins that, whatever the room
    assert_eq!(sound.clone().xfer_start_traced(&mut ring, 0, 10, 0, 0, &mut message), Say::Send(16));
    let mut page = wire::words(&[STATUS_OK]);
    page.resize(4096, 0);
    let mut say = sound.call(&ring, Call::SetParams { stream: 0, params }, &mut message);
    while let Say::Send(_) = say {
        say = sound.feed(Fed::Page(&page), &mut message);
    }
    assert_eq!(say, Say::Done(Value::Nothing));
    let mut says = |stream, budget, room, message: &mut [u8]| {
        sound.xfer_start_traced(&mut ring, stream, 10, budget, room, message)
    };
    assert_eq!(says(0, 5, 79, &mut [0; 23]), Say::refused(BAD_LENGTH));
    assert_eq!(says(1, 0, 0, &mut message), Say::refused(INVALID_PARAM));
    assert_eq!(says(0, 0, 0, &mut message), Say::refused(OUT_OF_TURNS));
    assert_eq!(says(0, 5, 78, &mut message), Say::refused(BAD_LENGTH));
    assert_eq!(says(0, 5, 79, &mut message), Say::Going);
    assert_eq!(says(0, 0, 0, &mut message), Say::refused(BUSY));
    sound.params.clear();
    assert_eq!(sound.xfer_start_traced(&mut Ring::default(), 0, 10, 0, 0, &mut message), Say::refused(IO_ERROR));
}

#[test]
fn the_next_transfer_begins_its_own() {
    let mut desk = Desk::started((1, 4, 4), 1);
    assert_eq!(desk.turn(Reading::Completed { slot: 0, status: STATUS_OK }), Turn::ended(OUT_OF_TURNS));
    assert_eq!(desk.ring.traced, 39);
    // a refused start leaves it, one that goes on begins at 0
    assert_eq!(desk.ring.start(1, 4, 4, 0), Turn::ended(OUT_OF_TURNS));
    assert_eq!((desk.ring.traced, desk.ring.room), (39, 42));
    assert_eq!(desk.ring.start(1, 4, 4, 9), Turn::Going);
    assert_eq!((desk.ring.traced, desk.ring.room), (0, 0));
}
