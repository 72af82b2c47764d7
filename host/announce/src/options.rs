//! The command line.
use crate::device::REMAP;
use crate::form::Form;
use crate::help::HELP;
use crate::sizes;
use snd::{F_CTLS, Format, Rate, STATUS_OK, Status, Version};
use std::ffi::{OsStr, OsString};
use std::os::unix::ffi::OsStrExt;
use std::path::PathBuf;

/// What the words ask for.
#[derive(Debug)]
pub enum Asked {
    /// This text.
    Help(&'static str),
    Run(Box<Options>),
}

/// Calls that the device may be told to refuse, by the code of their request.
const CALLS: [(&str, u32); 7] = [
    ("streams", 0x0100),
    ("remap", REMAP),
    ("set-parameters", 0x0101),
    ("prepare", 0x0102),
    ("start", 0x0104),
    ("stop", 0x0105),
    ("release", 0x0103),
];

/// Where frames come from.
#[derive(Debug, PartialEq, Eq)]
pub enum Source {
    Tone,
    Input,
    File(PathBuf),
}

impl Source {
    /// As a sentence names it.
    pub fn shown(&self) -> String {
        match self {
            Self::Tone => "tone".into(),
            Self::Input => "-".into(),
            Self::File(file) => file.display().to_string(),
        }
    }
}

#[derive(Debug)]
pub struct Options {
    pub sources: Vec<Source>,
    pub seconds: u32,
    /// Of raw frames and of the tone; a WAVE file says its own.
    pub rate: Option<Rate>,
    pub channels: Option<u8>,
    pub period: u32,
    pub buffer: u32,
    pub slow: u64,
    pub fail_at: Option<u64>,
    /// The code of the request that the device refuses.
    pub fail_call: Option<u32>,
    /// The status of both.
    pub fail_status: u32,
    pub wrong_slot_at: Option<u64>,
    pub budget: Option<u64>,
    /// Feeds carry the length that the device wrote.
    pub strict: bool,
    /// The state is made with the guard over its streams' lifecycle.
    pub guard: bool,
    /// The ring is made for indirect descriptors.
    pub indirect: bool,
    /// The jack query is answered by its header alone.
    pub short_jacks: bool,
    /// Where to write what a microphone hears, in place of speaking.
    pub record: Option<PathBuf>,
    /// How many periods of it.
    pub periods: u64,
    /// Every so many periods it has half of one.
    pub short_every: Option<u64>,
    /// The period of which it says that it wrote so many bytes.
    pub written_at: Option<u64>,
    pub written: u32,
    /// The sources are the parts of one announcement.
    pub join: bool,
    /// Periods do not wait, and breakers are polled meanwhile.
    pub go_on: bool,
    /// The version of VirtIO that the device follows, where it is named.
    pub virtio: Option<Version>,
    /// How many control elements it has, where it has any to show.
    pub controls: Option<u32>,
    pub accepted: Option<PathBuf>,
    pub wav: Option<PathBuf>,
    pub log: Option<PathBuf>,
    pub picture: Option<PathBuf>,
    /// Where to write the trace of the transfer.
    pub trace: Option<PathBuf>,
}

impl Options {
    const fn new() -> Self {
        Self {
            sources: Vec::new(),
            seconds: 3,
            rate: None,
            channels: None,
            period: 4096,
            buffer: 0,
            slow: 1,
            fail_at: None,
            fail_call: None,
            fail_status: Status::IoError.word(),
            wrong_slot_at: None,
            budget: None,
            strict: false,
            guard: false,
            indirect: false,
            short_jacks: false,
            record: None,
            periods: 0,
            short_every: None,
            written_at: None,
            written: 7,
            join: false,
            go_on: false,
            virtio: None,
            controls: None,
            accepted: None,
            wav: None,
            log: None,
            picture: None,
            trace: None,
        }
    }

    /// The form of raw frames and of the tone.
    pub fn form(&self) -> Form {
        Form {
            channels: self.channels.unwrap_or(2),
            format: Format::S16,
            rate: self.rate.unwrap_or(Rate::Hz48000),
        }
    }

    /// The version of VirtIO, and the features that are negotiated with the device.
    pub fn mode(&self) -> (Version, u64) {
        let features = self.controls.map_or(0, |_count| F_CTLS);
        (self.virtio.unwrap_or(Version::V12), features)
    }

    /// What is written, by the options that name it.
    pub fn outputs(&self) -> impl Iterator<Item = (&'static str, &PathBuf)> {
        let all = [
            ("--accepted", &self.accepted),
            ("--wav", &self.wav),
            ("--log", &self.log),
            ("--picture", &self.picture),
            ("--trace", &self.trace),
            ("--record", &self.record),
        ];
        all.into_iter()
            .filter_map(|(name, path)| path.as_ref().map(|path| (name, path)))
    }
}

/// Reads the words. What is wrong with them is said in a sentence.
pub fn parse(words: &[OsString]) -> Result<Asked, String> {
    let mut options = Options::new();
    let (mut buffer, mut named) = (None, Vec::new());
    let mut words = words.iter().map(OsString::as_os_str);
    while let Some(word) = words.next() {
        let (name, value) = parted(word);
        if name.starts_with("--") {
            named.push(name);
        }
        match name {
            "--help" | "-h" if value.is_none() => return Ok(Asked::Help(HELP)),
            "--strict" if value.is_none() => options.strict = true,
            "--guard" if value.is_none() => options.guard = true,
            "--indirect" if value.is_none() => options.indirect = true,
            "--short-jacks" if value.is_none() => options.short_jacks = true,
            "--go-on" if value.is_none() => options.go_on = true,
            "--join" if value.is_none() => options.join = true,
            "--help" | "-h" | "--strict" | "--guard" | "--indirect" | "--short-jacks" | "--go-on" | "--join" => {
                return Err(format!("{name} takes no value"));
            }
            "--" if value.is_none() => words.by_ref().try_for_each(|word| take_file(&mut options, word))?,
            name if name.len() > 1 && name.starts_with('-') => {
                let value = || {
                    value
                        .or_else(|| words.next())
                        .ok_or(format!("{name} needs a value; see --help"))
                };
                take(&mut options, &mut buffer, name, value)?;
            }
            _ => take_file(&mut options, word)?,
        }
    }
    options.buffer = sizes::buffer(buffer, options.period)?;
    together(&options, &named)?;
    if options.record.is_some() {
        sizes::recording(&options)?;
        return Ok(Asked::Run(Box::new(options)));
    }
    if options.controls.is_some() && options.virtio != Some(Version::V13) {
        return Err("--controls needs --virtio 1.3: VirtIO 1.2 has no control elements".into());
    }
    if options.fail_call == Some(REMAP) && !options.short_jacks {
        return Err("--fail-call remap goes with --short-jacks: without it no remap is asked for".into());
    }
    if options.go_on {
        if options.wrong_slot_at.is_some() {
            return Err("--wrong-slot-at goes with a transfer: what does not wait may come back in any order".into());
        }
        sizes::places(&options)?;
    }
    if options.trace.is_some() {
        traced(&options)?;
    }
    if options.join && options.sources.len() < 2 {
        return Err("--join joins two FILEs or more".into());
    }
    if options.sources.is_empty() {
        sizes::tone(&options)?;
        options.sources.push(Source::Tone);
    }
    Ok(Asked::Run(Box::new(options)))
}

/// A trace is of one transfer.
fn traced(options: &Options) -> Result<(), String> {
    if options.go_on {
        return Err("--trace goes with a transfer: what does not wait has no turns to write it".into());
    }
    if options.sources.len() > 1 && !options.join {
        return Err("--trace writes the trace of one announcement: name one FILE, or join them with --join".into());
    }
    Ok(())
}

/// What a recording takes of the options for announcements, and what it has alone.
const RECORDING: [&str; 14] = [
    "--rate",
    "--channels",
    "--period",
    "--buffer",
    "--slow",
    "--fail-at",
    "--fail-call",
    "--fail-status",
    "--wrong-slot-at",
    "--budget",
    "--strict",
    "--guard",
    "--indirect",
    "--",
];
const RECORDING_ALONE: [&str; 5] = ["--record", "--periods", "--short-every", "--written-at", "--written"];

/// Options that go together, and those that do not.
fn together(options: &Options, named: &[&str]) -> Result<(), String> {
    let has = |name: &str| named.contains(&name);
    let Some(record) = &options.record else {
        return match named.iter().find(|name| RECORDING_ALONE.contains(name)) {
            Some(name) => Err(format!("{name} goes with --record: nothing is recorded without it")),
            None => Ok(()),
        };
    };
    let record = record.display();
    if let Some(source) = options.sources.first() {
        let source = source.shown();
        return Err(format!("--record {record} speaks nothing: leave {source} out"));
    }
    let foreign = |name: &&&str| !RECORDING.contains(name) && !RECORDING_ALONE.contains(name);
    if let Some(name) = named.iter().find(foreign) {
        return Err(format!("{name} goes with announcements: leave it out with --record"));
    }
    if !has("--periods") {
        return Err(format!(
            "--record {record} needs --periods N: a recording has so many periods"
        ));
    }
    if has("--written") && !has("--written-at") {
        return Err("--written goes with --written-at N: it is the length of one period".into());
    }
    if options.fail_call == Some(REMAP) {
        return Err("--fail-call remap goes with --short-jacks: without it no remap is asked for".into());
    }
    Ok(())
}

/// An option's name, and the value that stands behind its `=`. A word whose name cannot be read is no option.
fn parted(word: &OsStr) -> (&str, Option<&OsStr>) {
    let bytes = word.as_bytes();
    let is_option = bytes.starts_with(b"--");
    let end = bytes.iter().position(|byte| *byte == b'=' && is_option);
    let (name, value) = bytes.split_at(end.unwrap_or(bytes.len()));
    let value = value.split_first().map(|(_equals, value)| OsStr::from_bytes(value));
    (str::from_utf8(name).unwrap_or_default(), value)
}

/// Takes one option. Its value is asked for only where the option is known.
fn take<'w>(
    options: &mut Options,
    buffer: &mut Option<u32>,
    name: &str,
    value: impl FnOnce() -> Result<&'w OsStr, String>,
) -> Result<(), String> {
    match name {
        "--seconds" => options.seconds = number(name, value()?, 0, 3600)? as u32,
        "--rate" => options.rate = Some(rate(value()?)?),
        "--channels" => options.channels = Some(number(name, value()?, 1, 255)? as u8),
        "--period" => options.period = number(name, value()?, 1, u32::MAX.into())? as u32,
        "--buffer" => *buffer = Some(number(name, value()?, 1, u32::MAX.into())? as u32),
        "--slow" => options.slow = number(name, value()?, 1, 1_000_000)?,
        "--fail-at" => options.fail_at = Some(number(name, value()?, 1, u64::MAX)?),
        "--fail-call" => options.fail_call = Some(call(value()?)?),
        "--fail-status" => options.fail_status = status(value()?)?,
        "--wrong-slot-at" => options.wrong_slot_at = Some(number(name, value()?, 1, u64::MAX)?),
        "--budget" => options.budget = Some(number(name, value()?, 0, u64::MAX)?),
        "--virtio" => options.virtio = Some(version(value()?)?),
        "--controls" => options.controls = Some(number(name, value()?, 0, u32::MAX.into())? as u32),
        "--record" => options.record = Some(output(name, value()?)?),
        "--periods" => options.periods = number(name, value()?, 0, u64::MAX)?,
        "--short-every" => options.short_every = Some(number(name, value()?, 1, u64::MAX)?),
        "--written-at" => options.written_at = Some(number(name, value()?, 1, u64::MAX)?),
        "--written" => options.written = number(name, value()?, 0, u32::MAX.into())? as u32,
        "--accepted" => options.accepted = Some(output(name, value()?)?),
        "--wav" => options.wav = Some(output(name, value()?)?),
        "--log" => options.log = Some(output(name, value()?)?),
        "--picture" => options.picture = Some(output(name, value()?)?),
        "--trace" => options.trace = Some(output(name, value()?)?),
        _ => return Err(format!("unknown option {name}; see --help")),
    }
    Ok(())
}

fn take_file(options: &mut Options, word: &OsStr) -> Result<(), String> {
    let source = match word.as_bytes() {
        b"" => return Err("a file's name is empty".into()),
        b"-" => Source::Input,
        _ => Source::File(word.into()),
    };
    if source == Source::Input && options.sources.contains(&source) {
        return Err("- is named twice; standard input can be read once".into());
    }
    options.sources.push(source);
    Ok(())
}

fn output(option: &str, word: &OsStr) -> Result<PathBuf, String> {
    match word.as_bytes() {
        b"" => Err(format!("{option} takes a file's name, and not an empty one")),
        b"-" => Err(format!("{option} takes a file's name; standard output has the page")),
        _ => Ok(word.into()),
    }
}

fn number(option: &str, word: &OsStr, least: u64, most: u64) -> Result<u64, String> {
    let found = word.to_str().and_then(|text| text.parse().ok());
    match found {
        Some(number) if (least..=most).contains(&number) => Ok(number),
        _ => Err(format!(
            "{option} takes a number from {least} to {most}, not '{}'",
            word.display()
        )),
    }
}

fn version(word: &OsStr) -> Result<Version, String> {
    match word.as_bytes() {
        b"1.2" => Ok(Version::V12),
        b"1.3" => Ok(Version::V13),
        _ => Err(format!("--virtio takes 1.2 or 1.3, not '{}'", word.display())),
    }
}

fn call(word: &OsStr) -> Result<u32, String> {
    let found = CALLS.iter().find(|(name, _code)| word == *name);
    found.map(|(_name, code)| *code).ok_or_else(|| {
        let known = CALLS.map(|(name, _code)| name).join(", ");
        format!("--fail-call takes one of {known}, not '{}'", word.display())
    })
}

/// A word of 32 bits, as documents write it or in decimal. By ok nothing is refused.
fn status(word: &OsStr) -> Result<u32, String> {
    let text = word.to_str().unwrap_or_default();
    let found = match text.strip_prefix("0x") {
        Some(digits) => u32::from_str_radix(digits, 16),
        None => text.parse(),
    };
    match found {
        Ok(status) if status != STATUS_OK => Ok(status),
        _ => Err(format!(
            "--fail-status takes a number from 0 to 0xffffffff but 0x8000, which is ok, not '{}'",
            word.display()
        )),
    }
}

fn rate(word: &OsStr) -> Result<Rate, String> {
    let hz = word.to_str().and_then(|text| text.parse().ok());
    hz.and_then(Rate::from_hz).ok_or_else(|| {
        let known: Vec<_> = Rate::ALL.iter().map(|rate| rate.hz().to_string()).collect();
        format!("--rate takes one of {}, not '{}'", known.join(", "), word.display())
    })
}
