//! Short inputs, all of them: every format and rate number, every status class at every place, every count and length around each
//! boundary, every pair of calls on a small device, every short script. Then the same and more in strict mode.
use crate::case::{Answer, Body, Case, Frames, Kind, Reading, Step};
use crate::random::STATUSES;
use oracle::Tokens;
use rules::sound::{Call, Params};
use rules::wire;

pub type Sink<'a> = &'a mut dyn FnMut(Case);
/// A group of cases, by name.
pub type Group = (&'static str, fn(Sink));

pub(crate) fn device(counts: [u32; 3], steps: Vec<Step>) -> Case {
    let (model, strict, guard, indirect) = (None, false, false, false);
    Case { counts, tokens: Tokens::Descriptors, model, strict, guard, indirect, steps }
}

pub(crate) fn control(call: Call, answers: Vec<Answer>) -> Step {
    Step::Control { call, answers }
}

pub(crate) fn params(buffer: u32, period: u32) -> Params {
    Params { buffer, period, features: 0, channels: 2, format: 5, rate: 7 }
}

/// Answers of a device with good tables.
pub(crate) fn tables() -> Vec<Answer> {
    let page = |kind, seed| Answer::Wrote { status: 0x8000, body: Body::of(kind, seed), wrote: 4096 };
    vec![page(Kind::Jacks, 3), page(Kind::Streams, 5), page(Kind::Maps, 7), Answer::ok()]
}

fn set(stream: u32, buffer: u32, period: u32) -> Step {
    control(Call::SetParams { stream, params: params(buffer, period) }, tables())
}

/// One call of each kind, in range and past it.
fn calls() -> Vec<Call> {
    let mut all = vec![Call::OutputStreams, Call::InputStreams];
    for n in [0, 1, 2, u32::MAX] {
        all.extend([Call::Rates(n), Call::Formats(n), Call::ChannelRange(n), Call::Features(n)]);
        all.push(Call::Remap { jack: n, association: 0x0102_0304, sequence: 0x0506_0708 });
        all.push(Call::SetParams { stream: n, params: params(8192, 2048) });
    }
    all.extend((wire::PREPARE..=wire::STOP).map(|code| Call::Command { code, stream: 9 }));
    all.push(Call::SetParams { stream: 0, params: params(8, 3) });
    all.push(Call::SetParams { stream: 0, params: Params { format: 25, ..params(8, 4) } });
    all
}

pub fn numbers(sink: Sink) {
    for format in 0..=255 {
        for rate in 0..=255u8 {
            // all pairs that the Rust can write; past them one at a time
            if format > 24 && rate > 13 && (format, rate) != (255, 255) {
                continue;
            }
            let params = Params { format, rate, ..params(8, 4) };
            sink(device([0, 1, 0], vec![control(Call::SetParams { stream: 0, params }, tables())]));
        }
    }
    for number in 0..=255 {
        let params = Params { channels: number, features: 1 << (number % 32), ..params(8, 4) };
        sink(device([0, 1, 0], vec![control(Call::SetParams { stream: 0, params }, tables())]));
    }
}

pub fn periods(sink: Sink) {
    for buffer in 0..=40 {
        for period in 0..=40 {
            sink(device([0, 1, 0], vec![set(0, buffer, period), set(0, buffer, period)]));
        }
    }
    let large = [1, 2, 3, 0x7fff_ffff, 0x8000_0000, 0x8000_0001, 0xffff_fffe, 0xffff_ffff];
    for buffer in large {
        for period in large {
            sink(device([0, 1, 0], vec![set(0, buffer, period)]));
        }
    }
}

/// Every status class, and each bit of ok flipped, at each place of each call; then the queue's failure there.
pub fn statuses(sink: Sink) {
    let flipped = (0..32).map(|bit| wire::STATUS_OK ^ 1 << bit);
    let mut answers: Vec<Answer> = STATUSES.into_iter().chain(flipped).map(Answer::page).collect();
    answers.push(Answer::Failed);
    for call in calls() {
        for at in 0..4 {
            for answer in &answers {
                let mut all = tables();
                all[at] = answer.clone();
                let again = control(call, tables());
                sink(device([2, 2, 1], vec![control(call, all), again]));
            }
        }
    }
}

/// Counts around what a page holds, with ok, refused and failed answers.
pub fn counts(sink: Sink) {
    for table in 0..3 {
        let fit = rules::FIT[table];
        let past = if table == 1 { [fit + 1, fit + 2, 999] } else { [fit + 1, fit + 2, u32::MAX] };
        for count in [0, 1, 2, fit - 1, fit, past[0], past[1], past[2]] {
            for answer in [Answer::ok(), Answer::page(0x8001), Answer::Failed, tables()[table].clone()] {
                let mut counts = [1, 1, 1];
                counts[table] = count;
                let mut all = tables();
                all[table] = answer;
                let steps =
                    [Call::OutputStreams, Call::Remap { jack: count.wrapping_sub(1), association: 1, sequence: 2 }];
                let mut steps: Vec<Step> = steps.into_iter().map(|call| control(call, all.clone())).collect();
                for stream in [count.wrapping_sub(1), count] {
                    steps.push(control(Call::Features(stream), tables()));
                    steps.push(control(Call::ChannelRange(stream), tables()));
                }
                steps.push(Step::Counts);
                sink(device(counts, steps));
            }
        }
    }
}

/// A device that wrote only so many bytes: the page keeps the rest.
pub fn stale(sink: Sink) {
    for wrote in (0..80).chain([4092, 4093, 4094, 4095, 4096]) {
        for at in 0..4 {
            let mut all = tables();
            if let Answer::Wrote { wrote: length, .. } = &mut all[at] {
                *length = wrote;
            }
            let calls = [Call::Remap { jack: 0, association: 1, sequence: 2 }, Call::OutputStreams, Call::Formats(1)];
            let steps = calls.into_iter().map(|call| control(call, all.clone()));
            sink(device([2, 2, 2], steps.collect()));
        }
    }
}

/// Every pair of calls on a small device, each with every kind of answers.
pub fn pairs(sink: Sink) {
    let mut kinds = vec![tables()];
    for at in 0..4 {
        for answer in [Answer::page(0x8003), Answer::Failed] {
            let mut all = tables();
            all[at] = answer;
            kinds.push(all);
        }
    }
    let transfer = |stream| {
        let frames = Frames { len: 5000, seed: 1 };
        Step::Transfer { stream, frames, budget: 9, readings: vec![Reading::DONE; 9], answers: tables() }
    };
    let firsts: Vec<Step> =
        calls().into_iter().flat_map(|call| kinds.iter().map(move |all| control(call, all.clone()))).collect();
    let mut seconds: Vec<Step> = calls().into_iter().map(|call| control(call, tables())).collect();
    seconds.extend([transfer(0), transfer(2), Step::Counts]);
    for first in firsts.iter().chain(&[transfer(0), transfer(2)]) {
        for second in &seconds {
            sink(device([2, 2, 1], vec![first.clone(), second.clone()]));
        }
    }
}

pub fn events(sink: Sink) {
    let mut steps = vec![Step::Event(None)];
    for code in (0x0f80..=0x1280).chain([0, 1, 0x8000, 0xffff_ffff, 0x1000_0000, 0x0001_1000]) {
        steps.push(Step::Event(Some(wire::words(&[code, 0x0403_0201]))));
    }
    for length in 0..=20 {
        let mut bytes = wire::words(&[0x1000, 7, 0, 0, 0]);
        bytes.truncate(length);
        steps.push(Step::Event(Some(bytes)));
    }
    sink(device([0, 0, 0], steps));
}

fn transfers(steps: Vec<Step>) -> Case {
    let mut all = vec![set(0, 8, 2)];
    all.extend(steps);
    device([0, 1, 0], all)
}

fn transfer(len: u32, budget: u64, readings: Vec<Reading>) -> Step {
    Step::Transfer { stream: 0, frames: Frames { len, seed: 9 }, budget, readings, answers: vec![] }
}

/// Every script of up to five readings over five kinds, for up to three periods, the last whole or short, budgets 0 to 7.
pub fn scripts(sink: Sink) {
    let kinds = [
        Reading::Quiet,
        Reading::DONE,
        Reading::Oldest { status: 0x8003 },
        Reading::Later { k: 1, status: 0x8000 },
        Reading::Slot { slot: 32, status: 0x8000 },
    ];
    for number in 0..5usize.pow(5) {
        let readings: Vec<Reading> = (0..5).map(|i| kinds[number / 5usize.pow(i) % 5]).collect();
        let mut steps = vec![];
        for len in 0..=6 {
            steps.push(transfer(len, 7, readings.clone()));
            steps.push(Step::Drain(vec![Reading::DONE; 3]));
        }
        for budget in 0..7 {
            steps.push(transfer(5, budget, readings.clone()));
            steps.push(Step::Drain(vec![Reading::DONE; 3]));
        }
        sink(transfers(steps));
    }
}

/// Lengths around whole periods, round the ring and past it, completed every so many turns; budgets around what they need.
pub fn lengths(sink: Sink) {
    for periods in 0..=70u32 {
        for every in [1, 2, 4, 12] {
            let mut readings = vec![];
            for _ in 0..periods {
                readings.extend(std::iter::repeat_n(Reading::Quiet, every - 1));
                readings.push(Reading::DONE);
            }
            let need = periods as u64 * every as u64 + 1;
            for (len, budget) in [
                (2 * periods, need),
                (2 * periods, need - 1),
                (2 * periods, 1000),
                ((2 * periods).saturating_sub(1), need),
            ] {
                let steps = vec![transfer(len, budget, readings.clone()), Step::Drain(vec![Reading::DONE; 11])];
                sink(transfers(steps));
            }
        }
    }
}

/// Budgets at a power of two and just above, completed every turn: kept in fewer bits, each would be too small for its transfer and end it
/// with 9, at the start or in the midst.
pub fn budgets(sink: Sink) {
    for bits in [8, 16, 32, 48, 63] {
        for more in 0..=4u32 {
            for periods in [more, more + 1, 12] {
                let readings = vec![Reading::DONE; periods as usize];
                sink(transfers(vec![transfer(2 * periods, (1 << bits) + u64::from(more), readings)]));
            }
        }
    }
}

/// Drain turns of every kind after each way a transfer can end with slots owed.
pub fn drains(sink: Sink) {
    let kinds = [
        Reading::Quiet,
        Reading::DONE,
        Reading::Oldest { status: 0x8001 },
        Reading::Later { k: 1, status: 0x8000 },
        Reading::Slot { slot: 31, status: 0x8000 },
    ];
    let ends =
        [vec![], vec![Reading::DONE, Reading::Oldest { status: 0 }], vec![Reading::Slot { slot: 5, status: 0x8000 }]];
    for end in ends {
        for number in 0..5usize.pow(4) {
            let drains = (0..4).map(|i| kinds[number / 5usize.pow(i) % 5]).collect();
            let busy = control(Call::OutputStreams, vec![]);
            let steps =
                vec![transfer(7, 3, end.clone()), busy.clone(), Step::Drain(drains), transfer(3, 1, vec![]), busy];
            sink(transfers(steps));
        }
    }
}

/// The model device: every code near the known ones, every length, ranges around its tables.
pub fn model(sink: Sink) {
    let case = |steps| Case { tokens: Tokens::Slots, model: Some(11), ..device([3, 2, 2], steps) };
    let codes = (0..=5).chain(0xfe..=0x108).chain(0x1fe..=0x203).chain([0x8000, 0x1000, u32::MAX, 0x0100_0001]);
    for code in codes {
        let mut steps = vec![];
        for length in 0..=32 {
            let mut request = wire::words(&[code, 0, 1, 24, 32, 0x0203_0405, 6, 7]);
            request[12] = if code == 0x100 { 32 } else { 24 };
            request.truncate(length);
            steps.push(Step::ModelControl(request));
        }
        sink(case(steps));
    }
    for (table, code) in wire::QUERIES.into_iter().enumerate() {
        let mut steps = vec![];
        for start in [0, 1, 2, 3, 4, u32::MAX] {
            for count in [0, 1, 2, 3, 4, u32::MAX] {
                for size in [wire::SIZES[table] as u32, 0, 24, 32, 33] {
                    steps.push(Step::ModelControl(wire::words(&[code, start, count, size])));
                }
            }
        }
        sink(case(steps));
    }
    let mut steps = vec![];
    for stream in [0, 1, 2, 3, u32::MAX] {
        steps.push(Step::ModelControl(wire::words(&[wire::SET_PARAMS, stream, 8, 3, 1 << 31, 0x0907_0502])));
        for length in 0..=12 {
            let mut request = wire::words(&[stream, 0x0403_0201, 0x0807_0605]);
            request.truncate(length);
            steps.push(Step::ModelTransfer(request));
        }
    }
    sink(case(steps));
}

/// The driver against the model device, whole announcements.
pub fn announcements(sink: Sink) {
    for seed in 0..40 {
        let period = 1 + seed as u32 % 7;
        let answers = vec![Answer::Model; 4];
        let call = |call| control(call, answers.clone());
        let set = Call::SetParams { stream: 1, params: params(4 * period, period) };
        let command = |code| call(Call::Command { code, stream: 1 });
        let frames = Frames { len: 13 * seed as u32, seed: seed as u8 };
        let play =
            Step::Transfer { stream: 1, frames, budget: 2000, readings: vec![Reading::Device; 600], answers: vec![] };
        let mut steps = vec![call(set), command(wire::PREPARE), command(wire::START), play, command(wire::STOP)];
        steps.extend([command(wire::RELEASE), call(Call::OutputStreams), call(Call::InputStreams)]);
        steps.extend([call(Call::Rates(1)), call(Call::Remap { jack: 0, association: 1, sequence: 2 })]);
        steps.push(Step::ModelTransfer(wire::words(&[1])));
        sink(Case { model: Some(seed), ..device([2, 3, 1], steps) });
    }
}

/// The cases of a group, fed in strict mode.
fn in_strict_mode(group: fn(Sink), sink: Sink) {
    group(&mut |case| sink(Case { strict: true, ..case }));
}

/// Pages written whole: all is as before.
pub fn as_before(sink: Sink) {
    in_strict_mode(statuses, sink);
    in_strict_mode(counts, sink);
}

/// Old records in the page, and lengths that do and do not cover them.
pub fn strict_stale(sink: Sink) {
    in_strict_mode(stale, sink);
}

/// Lengths around the header, around the records, around a page, and such as would seem good with fewer bits.
fn lengths_around(whole: u64) -> Vec<u64> {
    let mut all = vec![0, 3, 4, whole.saturating_sub(1), whole, whole + 1, 4095, 4096];
    all.extend([4097, (1 << 16) + 4, (1 << 32) + 4, (1 << 32) + whole, u64::MAX]);
    all
}

const BOTH: [u32; 2] = [wire::STATUS_OK, wire::STATUS_BAD];
const REMAP: Call = Call::Remap { jack: 0, association: 1, sequence: 2 };

/// Good tables, and jack 0 can be remapped.
fn remappable() -> Vec<Answer> {
    let body = Body { damage: vec![(4, 1)], ..Body::of(Kind::Jacks, 3) };
    let mut all = tables();
    all[0] = Answer::Wrote { status: wire::STATUS_OK, body, wrote: 4096 };
    all
}

/// At each table, with counts up to and past what a page holds, ok and not, and at own requests: each length.
pub fn boundaries(sink: Sink) {
    for table in 0..3 {
        let fit = rules::FIT[table];
        for count in [0, 1, 2, fit, fit + 1] {
            let mut counts = [1, 1, 1];
            counts[table] = count;
            for wrote in lengths_around(4 + u64::from(count) * wire::SIZES[table] as u64) {
                for status in BOTH {
                    sink(Case { strict: true, ..device(counts, table_cut(table, status, wrote)) });
                }
            }
        }
    }
    let start = Call::Command { code: wire::START, stream: 0 };
    for call in [Call::SetParams { stream: 0, params: params(8, 2) }, REMAP, start] {
        for wrote in lengths_around(24) {
            for status in BOTH {
                sink(Case { strict: true, ..device([1, 1, 0], own_cut(call, status, wrote)) });
            }
        }
    }
}

/// The page is filled with a jack, and set-up fails at the streams. Then one table's answer is cut; a right one follows, for a length that is refused.
/// Then calls show what was made of it.
fn table_cut(table: usize, status: u32, wrote: u64) -> Vec<Step> {
    let header = Answer::Wrote { status: wire::STATUS_BAD, body: Body::ZERO, wrote: 4 };
    let filled = vec![remappable()[0].clone(), header];
    let mut answers = remappable();
    answers.insert(table, Answer::Wrote { status, body: Body::of(Kind::Streams, 5), wrote });
    vec![
        control(Call::OutputStreams, filled),
        control(REMAP, answers),
        control(REMAP, remappable()),
        control(Call::Features(0), tables()),
    ]
}

/// A call's own answer is cut, after a good set-up with other parameters: the transfer shows whose period counts.
fn own_cut(call: Call, status: u32, wrote: u64) -> Vec<Step> {
    let old = Call::SetParams { stream: 0, params: params(4, 4) };
    let cut = Answer::Wrote { status, body: Body::ZERO, wrote };
    vec![control(old, remappable()), control(call, vec![cut, Answer::ok()]), transfer(7, 3, vec![])]
}

/// The model device's own lengths.
pub fn own_lengths(sink: Sink) {
    in_strict_mode(announcements, sink);
}

/// Every group of strict mode.
pub const STRICT: [Group; 4] = [
    ("strict, as before", as_before),
    ("strict, stale pages", strict_stale),
    ("strict, boundaries", boundaries),
    ("strict, announcements", own_lengths),
];

/// Every other group.
pub const GROUPS: [Group; 13] = [
    ("numbers", numbers),
    ("periods", periods),
    ("statuses", statuses),
    ("counts", counts),
    ("stale pages", stale),
    ("pairs of calls", pairs),
    ("events", events),
    ("short scripts", scripts),
    ("lengths", lengths),
    ("budgets", budgets),
    ("drains", drains),
    ("model", model),
    ("announcements", announcements),
];
