//! What to do, from outside: a line to each step, its verb first.
use core::fmt;
use snd::{Format, Params, Rate};

/// What an announcement or a recording is asked to be.
pub struct Asked {
    pub params: Params,
    /// The first output or input stream where none is named.
    pub stream: Option<u32>,
    /// Turns; n·g + 1 where none is given.
    pub budget: Option<u64>,
    pub start: bool,
    /// Ticks between the last completion and the stop.
    pub tail: Option<u64>,
    /// The answer that is expected: 0 where none is given, and then the whole announcement.
    pub expect: u32,
    /// Slots that are expected to be owed when the transfer answers.
    pub owed: Option<u64>,
}

pub enum Verb<'s> {
    Speak(&'s str, Asked),
    /// So many periods.
    Record(u64, Asked),
    /// With indirect descriptors, or direct ones.
    Reset {
        indirect: bool,
    },
    Release(u32),
    Unstick(u32),
    Wait(u64),
}

/// The word that cannot be read.
pub struct Unread<'s>(&'s str);

impl fmt::Display for Unread<'_> {
    fn fmt(&self, f: &mut fmt::Formatter<'_>) -> fmt::Result {
        write!(f, "the script has '{}', which cannot be read", self.0)
    }
}

/// The lines that say something.
pub fn lines(text: &str) -> impl Iterator<Item = &str> {
    let lines = text.lines().map(str::trim);
    lines.filter(|line| !line.is_empty() && !line.starts_with('#'))
}

/// Reads a line.
pub fn verb(line: &str) -> Result<Verb<'_>, Unread<'_>> {
    let mut words = line.split_whitespace();
    let verb = match words.next() {
        Some("speak") => {
            let name = words.next().filter(|name| is_name(name)).ok_or(Unread(line))?;
            return Ok(Verb::Speak(name, asked(words)?));
        }
        Some("record") => {
            let periods = number(words.next().ok_or(Unread(line))?)?;
            return Ok(Verb::Record(periods, asked(words)?));
        }
        Some("reset") => match words.next() {
            None => Verb::Reset { indirect: false },
            Some("indirect") => Verb::Reset { indirect: true },
            Some(word) => return Err(Unread(word)),
        },
        Some("release") => Verb::Release(number(words.next().ok_or(Unread(line))?)?),
        Some("unstick") => Verb::Unstick(number(words.next().ok_or(Unread(line))?)?),
        Some("wait") => Verb::Wait(number(words.next().ok_or(Unread(line))?)?),
        _ => return Err(Unread(line)),
    };
    match words.next() {
        None => Ok(verb),
        Some(word) => Err(Unread(word)),
    }
}

/// A name that fits on a line of the page.
fn is_name(name: &str) -> bool {
    name.bytes().all(|letter| letter.is_ascii_graphic())
}

fn number<T: core::str::FromStr>(word: &str) -> Result<T, Unread<'_>> {
    word.parse().map_err(|_| Unread(word))
}

/// Words of the form name=value; what is not named is a console's usual.
fn asked<'s>(words: impl Iterator<Item = &'s str>) -> Result<Asked, Unread<'s>> {
    let mut asked = Asked {
        params: Params {
            buffer: 0,
            period: 4096,
            features: 0,
            channels: 2,
            format: Format::S16,
            rate: Rate::Hz48000,
        },
        stream: None,
        budget: None,
        start: true,
        tail: None,
        expect: 0,
        owed: None,
    };
    let mut buffer = None;
    for word in words {
        let params = &mut asked.params;
        match word.split_once('=').ok_or(Unread(word))? {
            ("buffer", value) => buffer = Some(number(value)?),
            ("period", value) => params.period = number(value)?,
            ("features", value) => params.features = number(value)?,
            ("channels", value) => params.channels = number(value)?,
            ("format", value) => params.format = format(value)?,
            ("rate", value) => params.rate = Rate::from_hz(number(value)?).ok_or(Unread(word))?,
            ("stream", value) => asked.stream = Some(number(value)?),
            ("budget", value) => asked.budget = Some(number(value)?),
            ("start", "no") => asked.start = false,
            ("tail", value) => asked.tail = Some(number(value)?),
            ("expect", value) => asked.expect = number(value)?,
            ("owed", value) => asked.owed = Some(number(value)?),
            _ => return Err(Unread(word)),
        }
    }
    asked.params.buffer = buffer.unwrap_or(asked.params.period.saturating_mul(4));
    Ok(asked)
}

/// A format by its name in the documents.
fn format(name: &str) -> Result<Format, Unread<'_>> {
    let mut all = Format::ALL.iter().copied();
    all.find(|format| page::sample(*format).0 == name).ok_or(Unread(name))
}
