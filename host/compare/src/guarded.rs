//! Short inputs under the guard: every command from every state with every kind of answer, every walk of four commands, ids around the
//! range, set-ups cut short. What state a stream is in is shown by commands that the device refuses, and by a transfer.
use crate::case::{Answer, Body, Case, Frames, Reading, Step};
use crate::random::STATUSES;
use crate::short::{self, Group, Sink, control, device, params, tables};
use rules::sound::Call;
use rules::wire;

/// Set parameters and the four commands.
const COMMANDS: [u32; 5] = [wire::SET_PARAMS, wire::PREPARE, wire::RELEASE, wire::START, wire::STOP];

/// The ok commands that bring a new stream to each state; the first leaves it as it was made, with no parameters.
const WAYS: [&[u32]; 6] = [
    &[],
    &[wire::SET_PARAMS],
    &[wire::SET_PARAMS, wire::PREPARE],
    &[wire::SET_PARAMS, wire::PREPARE, wire::RELEASE],
    &[wire::SET_PARAMS, wire::PREPARE, wire::START],
    &[wire::SET_PARAMS, wire::PREPARE, wire::START, wire::STOP],
];

fn guarded(counts: [u32; 3], steps: Vec<Step>) -> Case {
    Case { guard: true, ..device(counts, steps) }
}

fn named(code: u32, stream: u32) -> Call {
    match code {
        wire::SET_PARAMS => Call::SetParams { stream, params: params(8, 2) },
        code => Call::Command { code, stream },
    }
}

/// A command, set-up done.
fn command(code: u32, stream: u32, answer: Answer) -> Step {
    control(named(code, stream), vec![answer])
}

fn walk(codes: &[u32], stream: u32) -> Vec<Step> {
    codes.iter().map(|code| command(*code, stream, Answer::ok())).collect()
}

/// Set-up, by a call that sends nothing of its own.
fn ready() -> Step {
    control(Call::OutputStreams, tables())
}

fn play(stream: u32) -> Step {
    let frames = Frames { len: 5, seed: 9 };
    Step::Transfer { stream, frames, budget: 9, readings: vec![Reading::DONE; 9], answers: tables() }
}

/// What a stream's state permits: each command, with which it stays where it is, and a transfer. A period that is against the rule comes
/// before it.
fn shown(stream: u32) -> Vec<Step> {
    let mut all: Vec<Step> = COMMANDS.iter().map(|code| command(*code, stream, Answer::page(0x8001))).collect();
    all.push(control(Call::SetParams { stream, params: params(8, 3) }, vec![]));
    all.push(play(stream));
    all
}

fn answers() -> Vec<Answer> {
    let mut all: Vec<Answer> = STATUSES.into_iter().map(Answer::page).collect();
    all.extend([Answer::ok(), Answer::Failed]);
    all
}

/// Every pair of a state and a command, with every kind of answer; the other stream stays where it was.
pub fn states(sink: Sink) {
    for way in WAYS {
        for code in COMMANDS {
            for answer in answers() {
                let mut steps = vec![ready()];
                steps.extend(walk(way, 0));
                steps.push(command(code, 0, answer));
                steps.extend([shown(0), shown(1)].concat());
                sink(guarded([1, 2, 1], steps));
            }
        }
    }
}

/// Every walk of four ok commands, and of four with a refused one in the midst.
pub fn walks(sink: Sink) {
    for number in 0..5usize.pow(4) {
        let codes: Vec<u32> = (0..4).map(|i| COMMANDS[number / 5usize.pow(i) % 5]).collect();
        for refused in [None, Some(1), Some(2)] {
            let mut steps = vec![ready()];
            steps.extend(walk(&codes, 0));
            if let Some(at) = refused {
                steps[at + 1] = command(codes[at], 0, Answer::page(0x8003));
            }
            steps.push(play(0));
            sink(guarded([0, 1, 0], steps));
        }
    }
}

/// Strict mode: lengths around the header of a command's answer.
pub fn short_answers(sink: Sink) {
    for way in WAYS {
        for code in COMMANDS {
            for wrote in [0, 3, 4, 5, 4096, 4097, (1 << 32) + 4] {
                for status in [wire::STATUS_OK, wire::STATUS_BAD] {
                    let mut steps = vec![ready()];
                    steps.extend(walk(way, 0));
                    let cut = Answer::Wrote { status, body: Body::ZERO, wrote };
                    steps.push(control(named(code, 0), vec![cut, Answer::ok()]));
                    steps.extend(shown(0));
                    sink(Case { strict: true, ..guarded([0, 1, 0], steps) });
                }
            }
        }
    }
}

/// Ids around the range of each command, in the first call and later; each end of the range has its own state.
pub fn ranges(sink: Sink) {
    for count in [0u32, 1, 2, 126, 127] {
        let (last, ids) =
            (count.wrapping_sub(1), [count, count + 1, 127, 128, 255, 256, 1 << 31, u32::MAX - 1, u32::MAX]);
        for code in COMMANDS {
            for id in ids.into_iter().chain([0, last]) {
                let first = control(named(code, id), tables());
                let again = command(code, id, Answer::ok());
                sink(guarded([1, count, 1], [vec![first, again, play(id)], shown(0)].concat()));
                let mut steps = vec![ready()];
                steps.extend(walk(WAYS[4], last));
                steps.push(command(code, id, Answer::ok()));
                steps.extend([shown(last), shown(0), shown(count / 2)].concat());
                sink(guarded([1, count, 1], steps));
            }
        }
    }
}

/// Set-ups of each call, whole and cut short, then the call again: the guard stays.
pub fn set_ups(sink: Sink) {
    let mut firsts: Vec<Call> = COMMANDS.iter().flat_map(|code| [named(*code, 0), named(*code, 1)]).collect();
    firsts.extend([Call::OutputStreams, Call::Rates(0), Call::Remap { jack: 0, association: 1, sequence: 2 }]);
    let begins = |call: Option<Call>, answers: Vec<Answer>| match call {
        Some(call) => control(call, answers),
        None => Step::Transfer { stream: 0, frames: Frames { len: 5, seed: 1 }, budget: 9, readings: vec![], answers },
    };
    for call in firsts.into_iter().map(Some).chain([None]) {
        for table in 0..3 {
            for answer in [Answer::ok(), Answer::page(0x8002), Answer::page(0), Answer::Failed] {
                for many in [false, true] {
                    let mut counts = [1, 1, 1];
                    counts[table] = if many { rules::FIT[table] + 1 } else { 1 };
                    let mut all = tables();
                    all[table] = answer.clone();
                    let mut steps = vec![begins(call, all), begins(call, tables()), begins(call, tables())];
                    steps.extend([shown(0), walk(WAYS[4], 0), shown(0)].concat());
                    sink(guarded(counts, steps));
                }
            }
        }
    }
}

/// What was tried with no guard: demand 2 speaks of what the lifecycle permits.
pub fn as_before(sink: Sink) {
    for group in [short::pairs, short::counts, short::announcements] {
        group(&mut |case| sink(Case { guard: true, ..case }));
    }
}

/// The announcements alone, of which the guard bars nothing.
pub fn announcements(sink: Sink) {
    short::announcements(&mut |case| sink(Case { guard: true, ..case }));
}

/// Every group under the guard.
pub const GROUPS: [Group; 6] = [
    ("guard, states", states),
    ("guard, walks", walks),
    ("guard, short answers", short_answers),
    ("guard, ranges", ranges),
    ("guard, set-ups", set_ups),
    ("guard, as before", as_before),
];
