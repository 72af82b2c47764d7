//! Transfers that write a trace: what stands in the room after each turn, every refusal, and that what was written is accepted. Then what is
//! said of a trace and where, of one that is changed at every byte.
mod common;
use common::entries::entry;
use common::lent::Lent;
use common::{Desk, PARAMS, trace as example};
use snd::trace::{self, DIRECT, Field, Fields, Judged};
use snd::{Reading, Refusal, Ring, STATUS_OK, Status, Step, Tracing, Turn};

const TEN: &[u8; 10] = b"ten bytes.";
const FILL: u8 = 0x6d;

const fn completed(slot: u32, status: u32) -> Reading {
    Reading::Completed { slot, status }
}

/// Starts a transfer of ten bytes with room for its trace and a byte more.
fn started(desk: &mut Desk, budget: u64) -> Vec<u8> {
    let room = vec![FILL; trace::room_len(TEN.len(), PARAMS.period) + 1];
    let step = desk.sound.pcm_xfer_start_traced(&mut desk.ring, 0, TEN, budget, &room);
    assert_eq!(step, Ok(Step::Done(())));
    room
}

/// Runs a turn, and holds the room to these fields and to what stood there behind them.
fn turned(
    desk: &mut Desk,
    room: &mut [u8],
    reading: Reading,
    said: Result<Turn, Refusal>,
    fields: &[Field],
    added: &[Field],
) -> Vec<Field> {
    assert_eq!(desk.ring.turn_traced(TEN, room, reading), said, "{reading:?}");
    let length = desk.ring.trace_length().unwrap();
    let (trace, rest) = room.split_at(length);
    let found: Vec<Field> = Fields::of(trace).map(|(_at, field)| field).collect();
    assert_eq!(found, [fields, added].concat());
    assert!(rest.iter().all(|byte| *byte == FILL), "behind the trace");
    found
}

const START: Field = Field::Start {
    stream: 0,
    length: 10,
    period: 4,
};

const fn submitted(slot: u8, length: u32) -> Field {
    Field::Submitted {
        slot,
        offset: 4 * slot as u32,
        length,
    }
}

const fn came(slot: u8, status: u32) -> Field {
    Field::Completed { slot, status }
}

const fn end(answer: u8) -> Field {
    Field::End { answer }
}

/// The whole run of docs/TRACE.md.
#[test]
fn each_turn_writes_its_fields() {
    let mut desk = Desk::with_params();
    let mut room = started(&mut desk, 4);
    // the start of a transfer writes nothing
    assert_eq!((desk.ring.trace_length(), &room[..]), (Ok(0), &[FILL; 80][..]));
    let mut fields = vec![];
    for (slot, length) in [(0, 4), (1, 4), (2, 2)] {
        let first = if slot == 0 { vec![START] } else { vec![] };
        let added = [first, vec![submitted(slot, length), came(slot, STATUS_OK)]].concat();
        let reading = completed(slot.into(), STATUS_OK);
        fields = turned(&mut desk, &mut room, reading, Ok(Turn::Going), &fields, &added);
    }
    turned(&mut desk, &mut room, Reading::Quiet, Ok(Turn::Done), &fields, &[end(0)]);
    assert_eq!(room[..79], example());
    assert_eq!(trace::judge(DIRECT, &room[..79]), Ok(()));
}

/// What each way of ending leaves, and that drain turns leave it.
#[test]
fn every_end_is_written_and_accepted() {
    let io_error = Err(Refusal::IoError(Some(Status::IoError)));
    let ends = [
        (
            completed(0, 0x8003),
            io_error,
            vec![submitted(1, 4), came(0, 0x8003), end(2)],
        ),
        (
            completed(1, STATUS_OK),
            Err(Refusal::WrongToken),
            vec![submitted(1, 4), end(6)],
        ),
        (Reading::Quiet, Err(Refusal::OutOfTurns), vec![submitted(1, 4), end(9)]),
        (
            completed(0, STATUS_OK),
            Err(Refusal::OutOfTurns),
            vec![submitted(1, 4), came(0, STATUS_OK), end(9)],
        ),
    ];
    for (reading, said, added) in ends {
        let mut desk = Desk::with_params();
        let mut room = started(&mut desk, 2);
        let quiet = turned(
            &mut desk,
            &mut room,
            Reading::Quiet,
            Ok(Turn::Going),
            &[],
            &[START, submitted(0, 4)],
        );
        turned(&mut desk, &mut room, reading, said, &quiet, &added);
        let length = desk.ring.trace_length().unwrap();
        assert_eq!(trace::judge(DIRECT, &room[..length]), Ok(()), "{reading:?}");
        let before = room.clone();
        while let Some(slot) = desk.ring.oldest().unwrap() {
            desk.ring.drain_turn(completed(slot, 0)).unwrap();
        }
        assert_eq!(
            (desk.ring.trace_length(), room),
            (Ok(length), before),
            "a drain writes nothing"
        );
    }
}

/// A turn that is refused runs none and writes none: the transfer goes on as if it had not been.
#[test]
fn a_refused_turn_writes_nothing() {
    let mut desk = Desk::with_params();
    let mut room = started(&mut desk, 9);
    let fields = turned(
        &mut desk,
        &mut room,
        Reading::Quiet,
        Ok(Turn::Going),
        &[],
        &[START, submitted(0, 4)],
    );
    let (ring, before) = (desk.ring.clone(), room.clone());
    assert_eq!(
        desk.ring.turn_traced(&TEN[1..], &mut room, Reading::Quiet),
        Err(Refusal::BadLength)
    );
    assert_eq!(
        desk.ring.turn_traced(TEN, &mut room[1..], Reading::Quiet),
        Err(Refusal::BadLength)
    );
    assert_eq!(desk.ring.turn(TEN, Reading::Quiet), Err(Refusal::BadLength));
    assert_eq!((&desk.ring, &room), (&ring, &before));
    turned(
        &mut desk,
        &mut room,
        Reading::Quiet,
        Ok(Turn::Going),
        &fields,
        &[submitted(1, 4)],
    );
    // over, there is no start to compare with
    let wrong = completed(9, STATUS_OK);
    assert_eq!(desk.ring.turn_traced(TEN, &mut room, wrong), Err(Refusal::WrongToken));
    assert_eq!(
        desk.ring.turn_traced(TEN, &mut [], Reading::Quiet),
        Err(Refusal::InvalidParam)
    );
    assert_eq!(
        desk.ring.turn_traced(TEN, &mut room, Reading::Quiet),
        Err(Refusal::InvalidParam)
    );
}

/// A ring that no traced start left: a number that does not fit its field, or no room behind what is written. Such a turn is 1, and writes
/// nothing.
#[test]
fn a_ring_that_no_traced_start_left_is_1() {
    let mut desk = Desk::with_params();
    let mut room = started(&mut desk, 9);
    assert_eq!(desk.ring.turn_traced(TEN, &mut room, Reading::Quiet), Ok(Turn::Going));
    let (good, before) = (*desk.ring.store(), room.clone());
    // the next turn submits, which takes 12 of the 80 bytes; docs/STATE.md has the places
    let (length, period, written) = (32, 40, 628);
    let others = [
        (length, 1 << 32),
        (period, 1 << 32),
        (written, 69),
        (written, 80),
        (written, u64::MAX),
    ];
    for (place, number) in others {
        let mut store = good;
        store[place..place + 8].copy_from_slice(&u64::to_le_bytes(number));
        let mut ring = Ring::over(store);
        let said = ring.turn_traced(TEN, &mut room, Reading::Quiet);
        assert_eq!(said, Err(Refusal::InvalidParam), "{number} at {place}");
        assert_eq!((ring.store(), &room), (&store, &before), "{number} at {place}");
    }
    // 68 leave just enough
    let mut store = good;
    store[written] = 68;
    let mut ring = Ring::over(store);
    assert_eq!(ring.turn_traced(TEN, &mut room, Reading::Quiet), Ok(Turn::Going));
    assert_eq!((ring.trace_length(), &room[68..71]), (Ok(80), &[1, 9, 0][..]));
    // a transfer that writes none, and a room's length in its ring that it was not started with
    let plain = Desk::with_transfer(TEN, 9);
    let mut store = *plain.ring.store();
    store[80] = 18;
    let mut ring = Ring::over(store);
    assert_eq!(ring.turn(TEN, Reading::Quiet), Err(Refusal::BadLength));
    let said = ring.turn_traced(TEN, &mut room[..18], Reading::Quiet);
    assert_eq!((said, ring.store()), (Err(Refusal::InvalidParam), &store));
}

/// The writer's own 10 comes last: after a stream too high, Busy, parameters that are not set and a budget of 0.
#[test]
fn a_start_tests_the_room_last() {
    let answer = |lent: &mut Lent| {
        let before = lent.clone();
        let said = (entry("snd_pcm_xfer_start_traced").call)(lent);
        assert!(said == 512 || *lent == before, "a refusal changed a byte");
        said
    };
    let short = |mut lent: Lent| {
        lent.room.truncate(178);
        lent
    };
    let mut lent = short(Lent::idle());
    assert_eq!(answer(&mut lent), 10, "29 bytes in periods of 4 need 179");
    lent.budget = 0;
    assert_eq!(answer(&mut lent), 9);
    lent.numbers[0] = 1;
    assert_eq!(answer(&mut lent), 0x8000_0000_0002, "the input has no parameters");
    lent.numbers[0] = 2;
    assert_eq!(answer(&mut lent), 1);
    assert_eq!(answer(&mut short(Lent::good())), 8);
    assert_eq!(answer(&mut short(Lent::pending())), 8);
    let mut lent = short(Lent::idle());
    lent.room.push(0);
    assert_eq!(answer(&mut lent), 512, "and 179 are enough");
}

/// No byte of the frames is read, so a length alone is enough to try: 2^32 - 1 bytes are taken, one more is 10.
#[test]
fn frames_of_4_gibibytes_are_10() {
    let mut desk = Desk::new();
    let to = snd::Params {
        buffer: u32::MAX,
        period: u32::MAX,
        ..PARAMS
    };
    let step = desk.sound.pcm_set_params(&desk.ring, 0, to);
    desk.finish(step).unwrap();
    // zeros that no page of memory holds yet
    let frames = vec![0; 1 << 32];
    let mut room = [FILL; 59];
    let start = |desk: &mut Desk, frames: &[u8], room: &[u8]| {
        desk.sound.pcm_xfer_start_traced(&mut desk.ring, 0, frames, 1, room)
    };
    assert_eq!(start(&mut desk, &frames, &room), Err(Refusal::BadLength));
    assert_eq!(start(&mut desk, &frames[1..], &room[..39]), Ok(Step::Done(())));
    let said = desk.ring.turn_traced(&frames[1..], &mut room[..39], Reading::Quiet);
    assert_eq!(said, Err(Refusal::OutOfTurns));
    assert_eq!(desk.ring.trace_length(), Ok(31));
    assert_eq!(trace::judge(DIRECT, &room[..31]), Ok(()));
}

/// The type that keeps frames and room.
#[test]
fn a_traced_transfer_ends_as_any_other() {
    let mut desk = Desk::with_params();
    let mut room = [FILL; 80];
    let Tracing::Runs(mut traced) = desk.sound.transfer_traced(&mut desk.ring, 0, TEN, 1, &mut room) else {
        panic!("it runs")
    };
    assert_eq!(traced.trace(), Ok(&[][..]));
    assert!(format!("{traced:?}").ends_with("room: 80 }"), "{traced:?}");
    assert_eq!(traced.turn(Reading::Quiet), Err(Refusal::OutOfTurns));
    assert_eq!(traced.trace().map(<[u8]>::len), Ok(31));
    let Err(mut owing) = traced.end() else {
        panic!("a device still reads")
    };
    assert_eq!((owing.frames(), owing.ring().in_flight()), (&TEN[..], Ok(1)));
    owing.drain_turn(completed(0, STATUS_OK)).unwrap();
    assert_eq!(owing.end().ok(), Some(TEN));
    assert_eq!(room[31..], [FILL; 49]);
    // a room that is too short, and a state that is not set up
    let mut short = [FILL; 78];
    let refused = desk.sound.transfer_traced(&mut desk.ring, 0, TEN, 1, &mut short);
    assert_eq!(format!("{refused:?}"), "Refused(BadLength, 10 bytes)");
    let mut new = Desk::new();
    let begun = new.sound.transfer_traced(&mut new.ring, 0, TEN, 1, &mut room);
    assert!(matches!(begun, Tracing::SetUp(_, TEN)));
}

const fn at(number: Refusal, at: usize) -> Result<(), Judged> {
    Err(Judged { number, at })
}

#[test]
fn a_trace_is_told_where_it_is_none() {
    let whole = example();
    assert_eq!(trace::scan(&[]), at(Refusal::BadTrace, 0));
    assert_eq!(trace::judge(DIRECT, &[]), at(Refusal::BadTrace, 0));
    // cut anywhere: inside a field it is none, between two of them no run
    let begins: Vec<usize> = Fields::of(&whole).map(|(at, _field)| at).collect();
    assert_eq!(begins, [0, 15, 27, 35, 47, 55, 67, 75]);
    for length in 1..whole.len() {
        let field = begins.iter().rfind(|begin| **begin <= length).unwrap();
        let (scanned, judged) = match begins.contains(&length) {
            true => (Ok(()), at(Refusal::NotARun, length)),
            false => (at(Refusal::BadTrace, *field), at(Refusal::BadTrace, *field)),
        };
        assert_eq!(trace::scan(&whole[..length]), scanned, "{length} bytes");
        assert_eq!(trace::judge(DIRECT, &whole[..length]), judged, "{length} bytes");
    }
    // a byte behind the end is a cut field; a field there is no run's
    assert_eq!(
        trace::judge(DIRECT, &[&whole[..], &[0]].concat()),
        at(Refusal::BadTrace, 79)
    );
    assert_eq!(
        trace::judge(DIRECT, &[&whole[..], &whole[75..]].concat()),
        at(Refusal::NotARun, 79)
    );
    // 18 stands before 19, wherever it is
    let mut both = whole.clone();
    (both[18], both[75]) = (7, 7);
    assert_eq!(trace::judge(DIRECT, &both), at(Refusal::BadTrace, 75));
}

#[test]
fn no_other_mode_is_known() {
    for mode in [0, 2, 4, 257, 259, u32::MAX] {
        assert_eq!(trace::judge(mode, &example()), at(Refusal::InvalidParam, 0));
        assert_eq!(trace::judge(mode, &[]), at(Refusal::InvalidParam, 0));
    }
}

/// Every byte of a whole trace with every value: a byte that makes no field is told by its field, one that no run has by its own offset, but
/// that a run of other numbers may agree up to a later one.
#[test]
fn every_byte_counts() {
    let whole = example();
    let fields: Vec<(usize, Field)> = Fields::of(&whole).collect();
    for place in 0..whole.len() {
        let (begin, field) = *fields.iter().rfind(|(at, _)| *at <= place).unwrap();
        for byte in (0..=255).filter(|byte| *byte != whole[place]) {
            let mut other = whole.clone();
            other[place] = byte;
            let judged = trace::judge(DIRECT, &other);
            let said = format!("byte {place} is {byte}: {judged:?}");
            match (field, place - begin) {
                // the lengths of fields differ, so another tag makes none
                (_, 0..=2) => assert_eq!(judged, at(Refusal::BadTrace, begin), "{said}"),
                (Field::Start { .. }, 3..7) => assert_eq!(judged, Ok(()), "{said}"),
                // other frames or periods: no run submits then what this one did, or has more to submit, or less
                (Field::Start { .. }, _) => {
                    let Err(Judged {
                        number: Refusal::NotARun,
                        at,
                    }) = judged
                    else {
                        panic!("{said}")
                    };
                    assert!(at == 14 || at >= 15, "{said}");
                }
                // any status may be told, and where it is not ok the end is 2: another field may not follow, nor another answer
                (Field::Completed { .. }, 4..) => {
                    let next = if begin == 67 { 78 } else { begin + 8 };
                    assert_eq!(judged, at(Refusal::NotARun, next), "{said}");
                }
                (Field::End { .. }, _) if byte == 9 => assert_eq!(judged, Ok(()), "{said}"),
                _ => assert_eq!(judged, at(Refusal::NotARun, place), "{said}"),
            }
        }
    }
}
