//! Short inputs of captures: recordings of every length around what is asked for, every written length with every length lent, every
//! short script, each refusal of a start before the next, what goes on meanwhile. The Rust has no capture: the port against the rules.
use crate::case::{Answer, Body, Case, Frames, Heard, Kind, Reading, Step};
use crate::random::STATUSES;
use crate::short::{Group, Sink, control, device, params};
use rules::sound::Call;
use rules::wire;

const PERIOD: u32 = 3;
/// What a device may write.
const WHOLE: u32 = PERIOD + 8;
const DONE: Heard = Heard { reading: Reading::DONE, written: WHOLE, lent: WHOLE };

/// Where a stream's direction stands in the body of an answer.
pub(crate) fn direction_at(stream: u32) -> u16 {
    (wire::PCM * stream as usize + wire::DIRECTION) as u16
}

/// Tables whose first streams have these directions, then an ok.
pub(crate) fn tables(directions: &[u8]) -> Vec<Answer> {
    let damage = (0..).zip(directions).map(|(stream, direction)| (direction_at(stream), *direction)).collect();
    let streams = Body { kind: Kind::Streams, seed: 5, damage };
    vec![
        Answer::ok(),
        Answer::Wrote { status: wire::STATUS_OK, body: streams, wrote: 4096 },
        Answer::ok(),
        Answer::ok(),
    ]
}

fn set(stream: u32, period: u32) -> Step {
    control(Call::SetParams { stream, params: params(2 * period, period) }, tables(&[1, 0, 1]))
}

/// Stream 0 is an input that has parameters, 1 an output that has them, 2 an input that has none.
fn case(steps: Vec<Step>) -> Case {
    let mut all = vec![set(0, PERIOD), set(1, PERIOD)];
    all.extend(steps);
    device([0, 3, 0], all)
}

fn capture(stream: u32, periods: u64, len: u32, budget: u64, heard: Vec<Heard>) -> Step {
    let recording = Frames { len, seed: 9 };
    Step::Capture { stream, periods, recording, budget, heard, answers: tables(&[1, 0, 1]) }
}

/// So many periods, and room for them.
fn good(periods: u64, heard: Vec<Heard>) -> Step {
    capture(0, periods, PERIOD * periods as u32 + 2, 9, heard)
}

fn transfer(len: u32, budget: u64) -> Step {
    let frames = Frames { len, seed: 9 };
    Step::Transfer { stream: 1, frames, budget, readings: vec![Reading::DONE; 9], answers: vec![] }
}

/// Recordings of every length around n periods, and numbers of periods whose bytes wrap.
pub fn lengths(sink: Sink) {
    for period in [1, 2, 5, 9] {
        for periods in [0, 1, 2, 3, 10, 11, 33] {
            let need = period * periods as u32;
            for len in (0..=2).chain(need.saturating_sub(2)..=need + 2).chain([need + 40]) {
                let heard = vec![Heard::of(Reading::DONE, period + 8); periods as usize];
                sink(case(vec![set(0, period), capture(0, periods, len, 200, heard)]));
            }
        }
        let wraps = u64::MAX / u64::from(period);
        for periods in [wraps, wraps.wrapping_add(1), 1 << 32, (1 << 32) + 1, 1 << 63, u64::MAX] {
            sink(case(vec![set(0, period), capture(0, periods, 20, 9, vec![]), capture(0, periods, 20, 0, vec![])]));
        }
    }
}

/// Every written length with every length lent, of the first completion and of the second, with a good status and another.
pub fn written(sink: Sink) {
    let large = [WHOLE + 3, 255, 256, 264, 1 << 16, 1 << 31, u32::MAX - 7, u32::MAX];
    for written in (0..=WHOLE + 2).chain(large) {
        for lent in 0..=WHOLE + 2 {
            for status in [wire::STATUS_OK, 0x8003] {
                let tried = Heard { reading: Reading::Oldest { status }, written, lent };
                // what was too short may be lent again, whole
                let again = Heard { lent: WHOLE + 4, ..tried };
                sink(case(vec![good(2, vec![tried, again, DONE, DONE])]));
                sink(case(vec![good(3, vec![Heard::of(Reading::DONE, 9), tried, again, DONE, DONE])]));
            }
        }
    }
    let flipped = (0..32).map(|bit| wire::STATUS_OK ^ 1 << bit);
    for status in STATUSES.into_iter().chain(flipped) {
        for written in [8, 9, WHOLE] {
            sink(case(vec![good(2, vec![DONE, Heard::of(Reading::Oldest { status }, written)])]));
        }
    }
}

/// Every script of five turns over the kinds of readings, of three periods.
pub fn scripts(sink: Sink) {
    let short = Heard::of(Reading::DONE, 9);
    let kinds = [
        Heard::QUIET,
        DONE,
        short,
        Heard::of(Reading::DONE, 8),
        Heard::of(Reading::DONE, 7),
        Heard::of(Reading::Oldest { status: 0x8001 }, 10),
        Heard::of(Reading::Later { k: 1, status: wire::STATUS_OK }, WHOLE),
        Heard { lent: 5, ..short },
    ];
    for number in 0..kinds.len().pow(5) {
        let heard = (0..5).map(|at| kinds[number / kinds.len().pow(at) % kinds.len()]).collect();
        let budget = 4 + (number % 3) as u64;
        let owed = vec![Reading::DONE; 3];
        sink(case(vec![capture(0, 3, 11, budget, heard), Step::Drain(owed), good(1, vec![short])]));
    }
}

/// Eleven periods and more, so that the ring is full, and comes round.
pub fn rounds(sink: Sink) {
    for periods in [9, 10, 11, 31, 32, 33, 40, 70] {
        for quiet in [0, 1, 9, 10, 11, 12] {
            for cut in 0..3 {
                let mut heard = vec![Heard::QUIET; quiet];
                heard.extend((0..periods).map(|at| Heard::of(Reading::DONE, WHOLE - (cut * at as u32) % (PERIOD + 1))));
                for budget in [5, periods + 3, 300] {
                    let owed = vec![Reading::DONE; 10];
                    let first = capture(0, periods, PERIOD * periods as u32, budget, heard.clone());
                    sink(case(vec![first, Step::Drain(owed), transfer(10, 9), good(2, vec![DONE; 3])]));
                }
            }
        }
    }
}

/// Every pair of reasons to refuse a start.
pub fn orders(sink: Sink) {
    let lives: [&[u32]; 3] = [&[], &[wire::PREPARE], &[wire::PREPARE, wire::START, wire::STOP]];
    for guard in [false, true] {
        for codes in lives {
            for stream in [0, 1, 2, 3, u32::MAX] {
                for (budget, len) in [(0, 5), (0, 6), (5, 5), (5, 6)] {
                    let commands = codes.iter().flat_map(|code| {
                        [0, 1, 2].map(|stream| control(Call::Command { code: *code, stream }, vec![Answer::ok()]))
                    });
                    let mut steps: Vec<Step> = commands.collect();
                    steps.push(capture(stream, 2, len, budget, vec![DONE; 2]));
                    // once more while slots are owed, or a token is pending
                    steps.extend([capture(0, 2, 6, 1, vec![]), capture(stream, 2, len, budget, vec![])]);
                    steps.extend([Step::Drain(vec![Reading::DONE; 2]), crate::pending::submit(0, PERIOD, 1, 16 * 7)]);
                    steps.extend([capture(stream, 2, len, budget, vec![]), Step::Finish(0)]);
                    sink(Case { guard, ..case(steps) });
                }
            }
        }
    }
    for direction in 0..=255 {
        let set = control(Call::SetParams { stream: 0, params: params(6, 3) }, tables(&[direction]));
        sink(device([0, 1, 0], vec![set, capture(0, 1, 3, 5, vec![DONE])]));
    }
}

/// Set-up that a capture begins, whole and cut short, with and without the guard.
pub fn set_ups(sink: Sink) {
    for guard in [false, true] {
        for stream in [0, 1, 2, 3] {
            for at in 0..3 {
                for answer in [Answer::ok(), Answer::page(0x8001), Answer::page(0), Answer::Failed] {
                    let mut answers = tables(&[1, 0, 2]);
                    if answer != Answer::ok() {
                        answers[at] = answer;
                    }
                    let recording = Frames { len: 0, seed: 1 };
                    let first = Step::Capture { stream, periods: 2, recording, budget: 0, heard: vec![], answers };
                    let again = capture(stream, 1, PERIOD, 5, vec![DONE]);
                    sink(Case { guard, ..device([1, 3, 1], vec![first, again.clone(), set(0, PERIOD), again]) });
                }
            }
        }
        for counts in [[171, 1, 0], [0, 128, 0], [0, 1, 171]] {
            let steps = vec![capture(0, 1, 3, 5, vec![]), capture(0, 1, 3, 5, vec![])];
            sink(Case { guard, ..device(counts, steps) });
        }
    }
}

/// After 2, 6, 9 and 17: what is owed, what is Busy, drains right and wrong, then both ways again.
pub fn owed(sink: Sink) {
    let ends = [
        Heard::of(Reading::Oldest { status: 0x8003 }, 9),
        Heard::of(Reading::Slot { slot: 9, status: wire::STATUS_OK }, 9),
        Heard::of(Reading::DONE, 7),
        Heard { reading: Reading::DONE, written: u32::MAX, lent: WHOLE },
        Heard::QUIET,
    ];
    let drains = [Reading::DONE, Reading::Oldest { status: 7 }, Reading::Quiet, Reading::Later { k: 1, status: 0 }];
    for end in ends {
        for quiet in 0..4 {
            for drain in drains {
                let mut heard = vec![Heard::QUIET; quiet];
                heard.push(end);
                let calls = control(Call::Rates(0), vec![]);
                let first = capture(0, 4, 12, quiet as u64 + 1, heard);
                let mut steps = vec![first, calls.clone(), transfer(4, 9), Step::Drain(vec![drain; 2]), calls];
                steps.extend([good(1, vec![DONE]), Step::Drain(vec![Reading::DONE; 9]), transfer(4, 9)]);
                steps.push(good(3, vec![DONE; 3]));
                sink(case(steps));
            }
        }
    }
}

pub const GROUPS: [Group; 7] = [
    ("captures, lengths", lengths),
    ("captures, written", written),
    ("captures, scripts", scripts),
    ("captures, rounds", rounds),
    ("captures, orders", orders),
    ("captures, set-ups", set_ups),
    ("captures, owed", owed),
];
