//! Cases as text, one a line: `JACKS STREAMS MAPS slots|descriptors [model SEED] [strict] [guard] [indirect] | STEP ; STEP ..`
//!
//! With `strict` each feed carries the length that was written: WROTE, a page where it is not named, or what the model says. One of more than a
//! page is refused, and the next answer is to the same request. With `guard` the state is made by `snd_new_guarded`, with `indirect` the ring by
//! `snd_ring_new_indirect`.
//!
//! STEP = CALL [< ANSWER ..]. Calls: `remap JACK ASSOCIATION SEQUENCE`, `set STREAM BUFFER PERIOD FEATURES CHANNELS FORMAT RATE`,
//! `prepare|release|start|stop STREAM`, `outputs`, `inputs`, `rates|formats|channels|features STREAM`, `counts`,
//! `xfer STREAM LENGTH.SEED BUDGET READING ..`, `capture STREAM PERIODS LENGTH.SEED BUDGET HEARD ..`, `drain READING ..`, `submit STREAM LENGTH.SEED PLACES` (which does not wait, with so many
//! bytes of places), `mark READING ..` (of the tokens that wait), `finish TOKEN`, `event BYTES|none`, `ctl BYTES`, `tx BYTES` (the last two to the
//! model device). ANSWER: STATUS[.KINDSEED][/WROTE][~PLACE=BYTE ..] with KIND n, j, s, m for noise or good records, `F` for the queue's
//! failure, `M` for the model. READING: `q`, `o[:STATUS]` oldest, `kN[:STATUS]` N-th later, `sN[:STATUS]` slot N, `d` device; each may
//! end in `*TIMES`. HEARD: READING[@WRITTEN[/LENT]], the length that the device says it wrote and how many bytes are lent, as many where it is
//! not named. Statuses and bytes are hexadecimal; `-` is no bytes.
use crate::case::{Answer, Body, Case, Frames, Heard, Kind, Reading, Step};
use oracle::Tokens;
use rules::sound::{Call, Params};
use rules::wire;
use std::str::FromStr;

pub fn hex(bytes: &[u8]) -> String {
    if bytes.is_empty() {
        return "-".into();
    }
    bytes.iter().map(|b| format!("{b:02x}")).collect()
}

fn unhex(text: &str) -> Vec<u8> {
    let pairs = text.trim_matches('-').as_bytes().chunks(2);
    pairs.map(|p| u8::from_str_radix(std::str::from_utf8(p).unwrap(), 16).expect("two hexadecimal digits")).collect()
}

const KINDS: [(Kind, char); 4] = [(Kind::Noise, 'n'), (Kind::Jacks, 'j'), (Kind::Streams, 's'), (Kind::Maps, 'm')];

fn answer_text(answer: &Answer) -> String {
    let Answer::Wrote { status, body, wrote } = answer else {
        return if *answer == Answer::Failed { "F".into() } else { "M".into() };
    };
    let mut text = format!("{status:x}");
    if let Some((_, letter)) = KINDS.iter().find(|(kind, _)| *kind == body.kind) {
        text += &format!(".{letter}{}", body.seed);
    }
    if *wrote != 4096 {
        text += &format!("/{wrote}");
    }
    body.damage.iter().for_each(|(at, byte)| text += &format!("~{at}={byte}"));
    text
}

fn answer_of(text: &str) -> Answer {
    match text {
        "F" => return Answer::Failed,
        "M" => return Answer::Model,
        _ => {}
    }
    let mut parts = text.split('~');
    let head = parts.next().unwrap();
    let damage = parts.map(|part| {
        let (at, byte) = part.split_once('=').expect("PLACE=BYTE");
        (number(at), number(byte))
    });
    let (head, wrote) = head.split_once('/').map_or((head, 4096), |(head, n)| (head, number(n)));
    let (status, kind) = head.split_once('.').map_or((head, None), |(status, kind)| (status, Some(kind)));
    let mut body = kind.map_or(Body::ZERO, |kind| {
        let letter = kind.chars().next().expect("a kind");
        let known = KINDS.iter().find(|(_, l)| *l == letter).expect("a known kind");
        Body::of(known.0, number(&kind[1..]))
    });
    body.damage = damage.collect();
    Answer::Wrote { status: u32::from_str_radix(status, 16).expect("a status"), body, wrote }
}

fn number<T: FromStr>(text: &str) -> T {
    text.parse().ok().unwrap_or_else(|| panic!("{text} is no number that fits"))
}

fn reading_text(reading: Reading) -> String {
    let with = |name: String, status: u32| {
        if status == 0x8000 { name } else { format!("{name}:{status:x}") }
    };
    match reading {
        Reading::Quiet => "q".into(),
        Reading::Device => "d".into(),
        Reading::Oldest { status } => with("o".into(), status),
        Reading::Later { k, status } => with(format!("k{k}"), status),
        Reading::Slot { slot, status } => with(format!("s{slot}"), status),
    }
}

fn heard_text(heard: Heard) -> String {
    let reading = reading_text(heard.reading);
    match heard {
        Heard { written: 0, lent: 0, .. } => reading,
        Heard { written, lent, .. } if written == lent => format!("{reading}@{written}"),
        Heard { written, lent, .. } => format!("{reading}@{written}/{lent}"),
    }
}

/// Equal ones that follow each other are one word.
fn runs_text<T: Copy + PartialEq>(all: &[T], text: fn(T) -> String) -> String {
    let runs = all.chunk_by(|a, b| a == b);
    let text = runs.map(|run| match run.len() {
        1 => format!(" {}", text(run[0])),
        n => format!(" {}*{n}", text(run[0])),
    });
    text.collect()
}

fn readings_text(readings: &[Reading]) -> String {
    runs_text(readings, reading_text)
}

fn runs_of<T: Copy>(words: &[&str], of: fn(&str) -> T) -> Vec<T> {
    let mut all = vec![];
    for word in words {
        let (word, times) = word.split_once('*').map_or((*word, 1), |(word, n)| (word, number(n)));
        all.extend(std::iter::repeat_n(of(word), times));
    }
    all
}

fn reading_of(word: &str) -> Reading {
    let (name, status) = word.split_once(':').unwrap_or((word, "8000"));
    let status = u32::from_str_radix(status, 16).expect("a status");
    match name.split_at(1) {
        ("q", _) => Reading::Quiet,
        ("d", _) => Reading::Device,
        ("o", _) => Reading::Oldest { status },
        ("k", k) => Reading::Later { k: number(k), status },
        ("s", slot) => Reading::Slot { slot: number(slot), status },
        _ => panic!("{word} is no reading"),
    }
}

fn readings_of(words: &[&str]) -> Vec<Reading> {
    runs_of(words, reading_of)
}

fn heard_of(word: &str) -> Heard {
    let (reading, lengths) = word.split_once('@').unwrap_or((word, "0"));
    let (written, lent) = lengths.split_once('/').unwrap_or((lengths, lengths));
    Heard { reading: reading_of(reading), written: number(written), lent: number(lent) }
}

const COMMANDS: [(&str, u32); 4] =
    [("prepare", wire::PREPARE), ("release", wire::RELEASE), ("start", wire::START), ("stop", wire::STOP)];

fn call_text(call: &Call) -> String {
    match call {
        Call::Remap { jack, association, sequence } => format!("remap {jack} {association} {sequence}"),
        Call::SetParams { stream, params: p } => {
            let small = format!("{} {} {}", p.channels, p.format, p.rate);
            format!("set {stream} {} {} {} {small}", p.buffer, p.period, p.features)
        }
        Call::Command { code, stream } => {
            let name = COMMANDS.iter().find(|(_, c)| c == code).expect("one of four").0;
            format!("{name} {stream}")
        }
        Call::OutputStreams => "outputs".into(),
        Call::InputStreams => "inputs".into(),
        Call::Rates(stream) => format!("rates {stream}"),
        Call::Formats(stream) => format!("formats {stream}"),
        Call::ChannelRange(stream) => format!("channels {stream}"),
        Call::Features(stream) => format!("features {stream}"),
        Call::Transfer(stream) => format!("xfer {stream}"),
        Call::Capture(stream) => format!("capture {stream}"),
    }
}

fn call_of(words: &[&str]) -> Call {
    let n = |i: usize| number::<u32>(words[i]);
    let small = |i: usize| number::<u8>(words[i]);
    match words[0] {
        "remap" => Call::Remap { jack: n(1), association: n(2), sequence: n(3) },
        "set" => {
            let (buffer, period, features) = (n(2), n(3), n(4));
            let params = Params { buffer, period, features, channels: small(5), format: small(6), rate: small(7) };
            Call::SetParams { stream: n(1), params }
        }
        "outputs" => Call::OutputStreams,
        "inputs" => Call::InputStreams,
        "rates" => Call::Rates(n(1)),
        "formats" => Call::Formats(n(1)),
        "channels" => Call::ChannelRange(n(1)),
        "features" => Call::Features(n(1)),
        name => match COMMANDS.iter().find(|(command, _)| *command == name) {
            Some((_, code)) => Call::Command { code: *code, stream: n(1) },
            None => panic!("{name} is no call"),
        },
    }
}

fn answers_text(answers: &[Answer]) -> String {
    let all: String = answers.iter().map(|answer| format!(" {}", answer_text(answer))).collect();
    if all.is_empty() { all } else { format!(" <{all}") }
}

pub fn step_text(step: &Step) -> String {
    match step {
        Step::Control { call, answers } => call_text(call) + &answers_text(answers),
        Step::Transfer { stream, frames, budget, readings, answers } => {
            let start = format!("xfer {stream} {}.{} {budget}", frames.len, frames.seed);
            start + &readings_text(readings) + &answers_text(answers)
        }
        Step::Capture { stream, periods, recording, budget, heard, answers } => {
            let start = format!("capture {stream} {periods} {}.{} {budget}", recording.len, recording.seed);
            start + &runs_text(heard, heard_text) + &answers_text(answers)
        }
        Step::Drain(readings) => "drain".to_string() + &readings_text(readings),
        Step::Submit { stream, payload, places, answers } => {
            format!("submit {stream} {}.{} {places}", payload.len, payload.seed) + &answers_text(answers)
        }
        Step::Mark(readings) => "mark".to_string() + &readings_text(readings),
        Step::Finish(token) => format!("finish {token}"),
        Step::Event(None) => "event none".into(),
        Step::Event(Some(bytes)) => format!("event {}", hex(bytes)),
        Step::ModelControl(request) => format!("ctl {}", hex(request)),
        Step::ModelTransfer(request) => format!("tx {}", hex(request)),
        Step::Counts => "counts".into(),
    }
}

fn frames_of(word: &str) -> Frames {
    let (len, seed) = word.split_once('.').expect("LENGTH.SEED");
    Frames { len: number(len), seed: number(seed) }
}

pub fn step_of(text: &str) -> Step {
    let (call, answers) = text.split_once('<').unwrap_or((text, ""));
    let words: Vec<&str> = call.split_whitespace().collect();
    let answers: Vec<Answer> = answers.split_whitespace().map(answer_of).collect();
    match words[0] {
        "submit" => {
            let (stream, payload, places) = (number(words[1]), frames_of(words[2]), number(words[3]));
            Step::Submit { stream, payload, places, answers }
        }
        "mark" => Step::Mark(readings_of(&words[1..])),
        "finish" => Step::Finish(number(words[1])),
        "xfer" => {
            let frames = frames_of(words[2]);
            let readings = readings_of(&words[4..]);
            Step::Transfer { stream: number(words[1]), frames, budget: number(words[3]), readings, answers }
        }
        "capture" => {
            let (recording, heard) = (frames_of(words[3]), runs_of(&words[5..], heard_of));
            let (stream, periods, budget) = (number(words[1]), number(words[2]), number(words[4]));
            Step::Capture { stream, periods, recording, budget, heard, answers }
        }
        "drain" => Step::Drain(readings_of(&words[1..])),
        "event" => Step::Event((words[1] != "none").then(|| unhex(words[1]))),
        "ctl" => Step::ModelControl(unhex(words[1])),
        "tx" => Step::ModelTransfer(unhex(words[1])),
        "counts" => Step::Counts,
        _ => Step::Control { call: call_of(&words), answers },
    }
}

/// The device of a case, without its steps.
pub fn device_text(case: &Case) -> String {
    let [j, s, m] = case.counts;
    let tokens = if case.tokens == Tokens::Slots { "slots" } else { "descriptors" };
    let model = case.model.map_or(String::new(), |seed| format!(" model {seed}"));
    let strict = if case.strict { " strict" } else { "" };
    let guard = if case.guard { " guard" } else { "" };
    let indirect = if case.indirect { " indirect" } else { "" };
    format!("{j} {s} {m} {tokens}{model}{strict}{guard}{indirect}")
}

pub fn case_text(case: &Case) -> String {
    let steps: Vec<String> = case.steps.iter().map(step_text).collect();
    format!("{} | {}", device_text(case), steps.join(" ; "))
}

pub fn case_of(text: &str) -> Case {
    let (device, steps) = text.split_once('|').expect("DEVICE | STEPS");
    let words: Vec<&str> = device.split_whitespace().collect();
    let counts = [number(words[0]), number(words[1]), number(words[2])];
    let tokens = if words[3] == "slots" { Tokens::Slots } else { Tokens::Descriptors };
    let model = words.iter().skip_while(|word| **word != "model").nth(1).map(|seed| number(seed));
    let [strict, guard, indirect] = ["strict", "guard", "indirect"].map(|word| words.contains(&word));
    let steps = steps.split(';').map(str::trim).filter(|step| !step.is_empty()).map(step_of).collect();
    Case { counts, tokens, model, strict, guard, indirect, steps }
}
