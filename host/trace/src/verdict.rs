//! What is said of one trace.
use snd::trace::{self, Field, Fields, HEAD, Judged};
use snd::{Answer, Refusal};

/// Exit status of a trace that is accepted, and of one that is not.
const ACCEPTED: u8 = 0;
const REFUSED: u8 = 1;

/// The lines, and the exit status, by the turns of this mode.
pub fn of(mode: u32, trace: &[u8]) -> (String, u8) {
    match trace::judge(mode, trace) {
        Ok(()) => (accepted(trace), ACCEPTED),
        Err(judged) => (refused(trace, judged), REFUSED),
    }
}

fn accepted(trace: &[u8]) -> String {
    let fields = Fields::of(trace);
    let ended = match fields.clone().last() {
        Some((_at, Field::End { answer })) => format!(", ended with {}", named(answer)),
        _ => String::new(),
    };
    format!("accepted: {} bytes, {} fields{ended}\n", trace.len(), fields.count())
}

/// Number and name of an end's answer.
fn named(answer: u8) -> String {
    let name = match answer {
        0 => Answer::Ok.name(),
        number => Refusal::of(number.into()).name(),
    };
    format!("{answer} {name}")
}

/// The answer with its offset, the field before it, and what stands there.
fn refused(trace: &[u8], judged: Judged) -> String {
    let fields = Fields::of(trace).enumerate();
    let mut upto: Vec<_> = fields.take_while(|(_, (at, _))| *at <= judged.at).collect();
    let here = match judged.number {
        Refusal::NotARun if judged.at < trace.len() => upto.pop(),
        _ => None,
    };
    let before = match upto.last() {
        Some(&(number, field)) => placed(number, field),
        None => "nothing".into(),
    };
    let stands = match here {
        Some((number, field)) => format!("{}; {}", placed(number, field), unlike(field, judged.at)),
        None if trace.is_empty() => "nothing: the trace is empty".into(),
        None if judged.number == Refusal::NotARun => "nothing: the trace ends early".into(),
        None => format!("field {} at {}: {}", upto.len(), judged.at, broken(trace, judged.at)),
    };
    format!("refused {judged}\nbefore  {before}\nhere    {stands}\n")
}

/// A field by its number and its offset.
fn placed(number: usize, (at, field): (usize, Field)) -> String {
    format!("field {number} at {at}: {field}")
}

/// Of which part of a field no run agrees.
fn unlike((at, field): (usize, Field), byte: usize) -> String {
    let part = match (field, byte.saturating_sub(at)) {
        (_, 0) => return "no run has this field here".into(),
        (Field::Start { .. }, _) => return "no run has a period of 0".into(),
        (Field::End { .. }, _) => "answer",
        (_, HEAD) => "slot",
        (Field::Submitted { .. }, 4..8) => "offset",
        (Field::Submitted { .. }, _) => "length",
        (Field::Completed { .. }, _) => "status",
    };
    format!("no run has this {part} here")
}

/// Why no field is there.
fn broken(trace: &[u8], at: usize) -> String {
    let rest = trace.get(at..).unwrap_or_default();
    let tag = rest.first().copied().unwrap_or_default();
    let (Some(name), Some(contents)) = (Field::name(tag), Field::contents(tag)) else {
        return format!("tag {tag}, which no field has");
    };
    let Some(&[_, least, most]) = rest.first_chunk::<HEAD>() else {
        return format!("{name}, cut: {} of the {HEAD} bytes of tag and length", rest.len());
    };
    let length = u16::from_le_bytes([least, most]);
    if usize::from(length) != contents {
        return format!("{name}, of length {length} in place of {contents}");
    }
    format!("{name}, cut: {} of its {} bytes", rest.len(), HEAD + contents)
}
