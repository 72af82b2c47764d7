//! The auditor's page.
use crate::account::{Gap, Part, Same};
use crate::faults::{Fault, Refused};
use crate::frames::{sample, second, warnings};
use crate::spoken::spoken;
use core::fmt;
use core::time::Duration;
use sha256::Sum;
use snd::{Answer, ChannelRange, Config, Params, Version};

/// All that the page tells of an announcement. What is not known where it is written has no line.
pub struct Page<'p> {
    /// What is spoken: a name that fits on a line.
    pub name: &'p str,
    /// How many bytes the frames have.
    pub bytes: usize,
    /// Where they stood, if a file has more than the frames.
    pub file: Option<InFile>,
    /// Of the frames.
    pub sha256: Sum,
    /// The parts of which they were joined, in order; none where they were not.
    pub parts: &'p [Joined<'p>],
    /// What the stream is set to.
    pub params: Params,
    /// Whether feeds carry the length that the device wrote.
    pub strict: bool,
    /// The state was made with the guard.
    pub guard: bool,
    /// The ring was made for indirect descriptors.
    pub indirect: bool,
    /// What the device showed of itself, where its version was named.
    pub virtio: Option<Virtio>,
    /// What came of the query of jacks, where the device cut its answer.
    pub jacks: Option<Jacks>,
    /// Where periods did not wait: what the console did meanwhile.
    pub going_on: Option<GoingOn>,
    /// Where one was found.
    pub stream: Option<Stream>,
    /// The turns of the transfer.
    pub turns: Turns,
    /// Periods that were submitted.
    pub submitted: u64,
    /// What was accepted when the transfer answered.
    pub accepted: Part,
    /// How many periods were accepted of a transfer by the driver's own count, 0 where none ran; none where periods did not wait.
    pub spoken: Option<u64>,
    /// What the device did wrong, in order.
    pub faults: &'p [Fault],
    /// Slots in flight when the transfer answered.
    pub owed: u64,
    /// The turns after that.
    pub drain: Drain,
    /// What was not accepted, the drain included, in order.
    pub gaps: &'p [Gap],
    /// The call that was refused; none where all went well.
    pub refused: Option<Refused>,
    /// How long it took.
    pub times: Times,
    /// What it was built with.
    pub built: Built<'p>,
}

/// Where frames stood in a file.
#[derive(Clone, Copy, PartialEq, Eq, Debug)]
pub struct InFile {
    /// Bytes of the whole file.
    pub bytes: usize,
    /// Where in it the frames begin.
    pub offset: usize,
}

/// A part of an announcement that was joined of several.
#[derive(Clone, Copy, PartialEq, Eq, Debug)]
pub struct Joined<'p> {
    /// A name that fits on a line.
    pub name: &'p str,
    /// Where it begins in the frames.
    pub offset: usize,
    /// How many bytes it has.
    pub bytes: usize,
}

/// The stream that speaks.
#[derive(Clone, Copy, PartialEq, Eq, Debug)]
pub struct Stream {
    /// Its number.
    pub number: u32,
    /// Whether it is an output.
    pub output: bool,
    /// How many channels it may have.
    pub channels: ChannelRange,
}

/// A device whose version of VirtIO was named.
#[derive(Clone, Copy, PartialEq, Eq, Debug)]
pub struct Virtio {
    /// That version.
    pub version: Version,
    /// The configuration that was read.
    pub config: Config,
    /// Bytes of it.
    pub bytes: usize,
    /// The change of a control element that the device told in this announcement: which, and the mask of what changed.
    pub change: Option<(u16, u16)>,
}

/// A jack query that was answered by its header alone, and what came of a remap of jack 0.
#[derive(Clone, Copy, PartialEq, Eq, Debug)]
pub struct Jacks {
    /// Bytes that the device wrote.
    pub written: usize,
    /// What the whole answer would have been.
    pub whole: usize,
    /// Whether the remap went out, and so a jack was known.
    pub sent: bool,
    /// What the remap was answered.
    pub answer: Answer,
}

/// An announcement whose periods did not wait.
#[derive(Clone, Copy, PartialEq, Eq, Debug)]
pub struct GoingOn {
    /// How often breakers were polled while it was spoken.
    pub polled: u64,
    /// At which poll one was seen to open.
    pub opened: Option<u64>,
    /// The most periods that were pending at a time.
    pub most: u64,
    /// Bytes of silence with which the last period was filled up, if it was submitted.
    pub filled: usize,
}

/// The turns of a transfer.
#[derive(Clone, Copy, PartialEq, Eq, Debug, Default)]
pub struct Turns {
    /// Turns that ran.
    pub run: u64,
    /// Turns that the budget allows.
    pub allowed: u64,
    /// Turns that are enough: n·g + 1.
    pub enough: u64,
    /// The g of that: a device completes one in any so many turns.
    pub slow: u64,
}

/// The turns of a drain.
#[derive(Clone, Copy, PartialEq, Eq, Debug)]
pub struct Drain {
    /// Turns that ran.
    pub run: u64,
    /// Turns that are allowed.
    pub allowed: u64,
    /// What was accepted in them.
    pub accepted: Part,
}

/// How long a transfer took.
#[derive(Clone, Copy, PartialEq, Eq, Debug, Default)]
pub struct Times {
    /// Its longest turn.
    pub longest: Duration,
    /// The whole of it.
    pub whole: Duration,
}

/// What a program was built with, and when it runs.
#[derive(Clone, Copy, PartialEq, Eq, Debug, Default)]
pub struct Built<'p> {
    /// None where there is no clock.
    pub date: Option<&'p str>,
    /// As .ci/kit names it; none where it was built outside the repository.
    pub kit: Option<&'p str>,
    /// The sha256 of the archive that is linked.
    pub archive: Option<&'p str>,
}

/// The path of that archive when it was built, for a test.
#[doc(hidden)]
pub const ARCHIVE: &str = env!("PAGE_ARCHIVE");

impl<'p> Built<'p> {
    /// As this was built.
    #[must_use]
    pub fn here(date: Option<&'p str>) -> Self {
        let known = |text: &'static str| (!text.is_empty()).then_some(text);
        Self {
            date,
            kit: known(env!("PAGE_KIT")),
            archive: known(env!("PAGE_ARCHIVE_SHA256")),
        }
    }
}

impl fmt::Display for Page<'_> {
    fn fmt(&self, f: &mut fmt::Formatter<'_>) -> fmt::Result {
        let mut lines = Lines(f);
        before(&mut lines, self)?;
        device(&mut lines, self)?;
        after(&mut lines, "transfer", self.refused, &self.turns, &self.times)?;
        built(&mut lines, &self.built)
    }
}

/// The line below several pages.
#[derive(Clone, Copy, PartialEq, Eq, Debug)]
pub struct Together {
    /// Announcements.
    pub all: usize,
    /// Those of them that were given whole.
    pub given: usize,
}

impl fmt::Display for Together {
    fn fmt(&self, f: &mut fmt::Formatter<'_>) -> fmt::Result {
        let Self { all, given } = *self;
        let not = all - given;
        Lines(f).line(
            "together",
            format_args!("{all} announcements on one device: {given} given whole, {not} not"),
        )
    }
}

pub(crate) struct Lines<'l, 'f>(pub &'l mut fmt::Formatter<'f>);

impl Lines<'_, '_> {
    pub(crate) fn line(&mut self, name: &str, fact: impl fmt::Display) -> fmt::Result {
        writeln!(self.0, "{name:<13}{fact}")
    }
}

/// What was to be spoken.
fn before(lines: &mut Lines, page: &Page) -> fmt::Result {
    announcement(lines, page)?;
    lines.line("frames", format_args!("sha256 {}", page.sha256))?;
    lines.line("recording", format_args!("{:.6} s", second(&page.params, page.bytes)))?;
    parts(lines, page)?;
    for warning in warnings(&page.params, page.bytes) {
        lines.line("warning", warning)?;
    }
    modes(lines, page.strict, page.guard, page.indirect)?;
    if let Some(told) = &page.virtio {
        virtio(lines, told)?;
    }
    if let Some(told) = &page.jacks {
        jacks(lines, told)?;
    }
    stream(lines, page.stream)?;
    parameters(lines, &page.params)?;
    periods(lines, page.bytes, page.params.period as usize)
}

/// How the driver was used.
pub(crate) fn modes(lines: &mut Lines, strict: bool, guard: bool, indirect: bool) -> fmt::Result {
    if strict {
        lines.line("mode", "strict: of each answer only what the device wrote was read")?;
    }
    if guard {
        lines.line(
            "guard",
            "on: nothing was sent that the stream's lifecycle does not permit",
        )?;
    }
    if indirect {
        lines.line(
            "descriptors",
            format_args!("indirect: one for each submission, so {} may be out", snd::SLOTS),
        )?;
    }
    Ok(())
}

/// The configuration, and a control event.
fn virtio(lines: &mut Lines, told: &Virtio) -> fmt::Result {
    let Config {
        jacks,
        streams,
        chmaps,
        controls,
    } = told.config;
    let version = match told.version {
        Version::V12 => "1.2",
        Version::V13 => "1.3",
    };
    let bytes = told.bytes;
    let shared = format_args!("jacks {jacks}, streams {streams}, channel maps {chmaps}");
    match controls {
        Some(controls) => lines.line(
            "virtio",
            format_args!("{version}, {bytes} bytes of configuration: {shared}, control elements {controls}"),
        )?,
        None => lines.line(
            "virtio",
            format_args!("{version}, {bytes} bytes of configuration: {shared}"),
        )?,
    }
    match told.change {
        Some((id, mask)) => lines.line("event", format_args!("control element {id} changed, mask {mask:#06x}")),
        None => Ok(()),
    }
}

/// The seams: where each part begins, and in which period.
fn parts(lines: &mut Lines, page: &Page) -> fmt::Result {
    if !page.parts.is_empty() {
        let count = page.parts.len();
        lines.line("joined", format_args!("of {count} parts; no seam cuts a period"))?;
    }
    let mut line = "part";
    for &Joined { name, offset, bytes } in page.parts {
        let period = offset.checked_div(page.params.period as usize).unwrap_or(0) + 1;
        if offset < page.bytes {
            lines.line(
                line,
                format_args!("byte {offset}, period {period}: {name}, {bytes} bytes"),
            )?;
        } else {
            lines.line(line, format_args!("byte {offset}, the end: {name}, {bytes} bytes"))?;
        }
        line = "seam";
    }
    Ok(())
}

fn announcement(lines: &mut Lines, page: &Page) -> fmt::Result {
    let Page { name, bytes, .. } = page;
    match page.file {
        None => lines.line("announcement", format_args!("{name}, {bytes} bytes")),
        Some(InFile { bytes: all, offset }) => lines.line(
            "announcement",
            format_args!("{name}, {all} bytes, {bytes} of frames from byte {offset}"),
        ),
    }
}

/// What the device did.
fn device(lines: &mut Lines, page: &Page) -> fmt::Result {
    turns(lines, &page.turns)?;
    if let Some(told) = &page.going_on {
        going_on(lines, told, page.indirect)?;
    }
    lines.line("submitted", Count(page.submitted, "period"))?;
    accepted(lines, page)?;
    sum(lines, "accepted", &page.accepted)?;
    for fault in page.faults {
        lines.line("fault", fault)?;
    }
    owed(lines, page)?;
    if page.owed > 0 {
        drained(lines, &page.drain)?;
        sum(lines, "drained", &page.drain.accepted)?;
    }
    for gap in page.gaps {
        lines.line("gap", gap)?;
    }
    broke_off(lines, page)?;
    spoken(lines, page)
}

/// The answer, and how long it took.
pub(crate) fn after(
    lines: &mut Lines,
    what: &str,
    refused: Option<Refused>,
    turns: &Turns,
    times: &Times,
) -> fmt::Result {
    lines.line("answer", Answered(refused))?;
    match at_most(turns.run, turns.allowed, times.longest) {
        Some(seconds) => {
            let turns = Count(turns.allowed, "turn");
            lines.line("longest turn", format_args!("{:.9} s", times.longest.as_secs_f64()))?;
            lines.line(
                "at most",
                format_args!("{seconds:.9} s in the {what}: {turns} allowed, each no longer than the longest"),
            )?;
        }
        None => {
            lines.line("longest turn", "no turn ran")?;
            lines.line("at most", "not known: no turn was measured")?;
        }
    }
    lines.line("wall time", format_args!("{:.6} s", times.whole.as_secs_f64()))
}

pub(crate) fn built(lines: &mut Lines, built: &Built) -> fmt::Result {
    if let Some(date) = built.date {
        lines.line("date", date)?;
    }
    match built.kit {
        Some(kit) => lines.line("kit", format_args!("{kit} (.ci/kit)"))?,
        None => lines.line("kit", "not known: built outside the repository")?,
    }
    match built.archive {
        Some(sum) => lines.line("archive", format_args!("sha256 {sum}")),
        None => lines.line("archive", "not known"),
    }
}

impl Page<'_> {
    /// Whether the announcement was given: Ok, and the device had accepted all of it, in order.
    #[must_use]
    pub fn given(&self) -> bool {
        self.refused.is_none() && self.accepted.whole(self.bytes)
    }
}

/// No turn longer than the longest measured: how many seconds the budget allows. None where no turn ran.
#[must_use]
pub fn at_most(run: u64, allowed: u64, longest: Duration) -> Option<f64> {
    let seconds = allowed as f64 * longest.as_secs_f64();
    (run > 0).then_some(seconds)
}

/// The answer, with what the device said where it refused, and to which call it was given.
#[derive(Clone, Copy, PartialEq, Eq, Debug)]
pub struct Answered(pub Option<Refused>);

impl fmt::Display for Answered {
    fn fmt(&self, f: &mut fmt::Formatter<'_>) -> fmt::Result {
        match self.0 {
            None => Answer::Ok.fmt(f),
            Some((call, refusal)) => write!(f, "{refusal}, to {call}"),
        }
    }
}

/// So many of a thing.
pub(crate) struct Count<'t>(pub u64, pub &'t str);

impl fmt::Display for Count<'_> {
    fn fmt(&self, f: &mut fmt::Formatter<'_>) -> fmt::Result {
        let Self(number, thing) = self;
        let ending = if *number == 1 { "" } else { "s" };
        write!(f, "{number} {thing}{ending}")
    }
}

/// The auditor's question: did the console act on what the device did not say?
fn jacks(lines: &mut Lines, told: &Jacks) -> fmt::Result {
    let Jacks {
        written, whole, answer, ..
    } = told;
    let (known, remap) = if told.sent {
        ("1, left in the page from before", "was sent, and answered")
    } else {
        ("none", "was not sent")
    };
    let query = format_args!("the device wrote {written} of {whole} bytes to their query");
    lines.line(
        "jacks",
        format_args!("{known}: {query}; a remap of jack 0 {remap}: {answer}"),
    )
}

pub(crate) fn stream(lines: &mut Lines, stream: Option<Stream>) -> fmt::Result {
    let Some(Stream {
        number,
        output,
        channels,
    }) = stream
    else {
        return lines.line("stream", "none");
    };
    let kind = if output { "output" } else { "input" };
    let ChannelRange { min, max } = channels;
    lines.line("stream", format_args!("{number}, {kind}, {min} to {max} channels"))
}

pub(crate) fn parameters(lines: &mut Lines, to: &Params) -> fmt::Result {
    let channels = Count(to.channels.into(), "channel");
    let (buffer, period, hz) = (to.buffer, to.period, to.rate.hz());
    let (format, _bytes) = sample(to.format);
    lines.line(
        "parameters",
        format_args!("buffer {buffer}, period {period}, {channels}, {format}, {hz} Hz"),
    )
}

fn periods(lines: &mut Lines, bytes: usize, period: usize) -> fmt::Result {
    const NAME: &str = "periods";
    let (Some(whole), Some(rest)) = (bytes.checked_div(period), bytes.checked_rem(period)) else {
        return lines.line(NAME, "none: a period of no bytes");
    };
    match (whole, rest) {
        (0, 0) => lines.line(NAME, "0"),
        (0, rest) => lines.line(NAME, format_args!("1: of {rest} bytes")),
        (whole, 0) => lines.line(NAME, format_args!("{whole}: each of {period} bytes")),
        (whole, rest) => lines.line(
            NAME,
            format_args!("{}: {whole} of {period} bytes, the last of {rest}", whole + 1),
        ),
    }
}

pub(crate) fn turns(lines: &mut Lines, turns: &Turns) -> fmt::Result {
    let Turns {
        run,
        allowed,
        enough,
        slow,
    } = turns;
    lines.line(
        "turns",
        format_args!("{run} of {allowed} allowed (n*g + 1 = {enough} with g = {slow})"),
    )
}

fn accepted(lines: &mut Lines, page: &Page) -> fmt::Result {
    let (part, all) = (&page.accepted, page.bytes);
    let bytes = part.bytes;
    let periods = Count(part.periods as u64, "period");
    let which = match part.same {
        Same::Run { from: 0 } if bytes == all => "the frames, byte for byte",
        Same::Run { from: 0 } => "the frames' first bytes, byte for byte",
        same => return lines.line("accepted", format_args!("{bytes} of {all} bytes, in {periods}: {same}")),
    };
    lines.line(
        "accepted",
        format_args!("{bytes} of {all} bytes, in {periods}: {which}"),
    )
}

impl fmt::Display for Same {
    fn fmt(&self, f: &mut fmt::Formatter<'_>) -> fmt::Result {
        match self {
            Self::Nothing => f.write_str("none"),
            Self::Run { from } => write!(f, "the frames' bytes from {from} on"),
            Self::Places => f.write_str("the frames' bytes, each period those of its own place"),
            Self::Not { period } => write!(f, "NOT the frames' bytes, first in period {period}"),
            Self::Told => f.write_str("by the device's completions"),
        }
    }
}

fn sum(lines: &mut Lines, name: &str, part: &Part) -> fmt::Result {
    match part.sha256 {
        Some(sum) => lines.line(name, format_args!("sha256 {sum}")),
        None => Ok(()),
    }
}

/// Whether the console was kept from its other work.
fn going_on(lines: &mut Lines, told: &GoingOn, indirect: bool) -> fmt::Result {
    let polled = Count(told.polled, "time");
    match told.opened {
        None => lines.line("going on", format_args!("polled breakers {polled}; none opened"))?,
        Some(poll) => lines.line(
            "going on",
            format_args!("polled breakers {polled}; one was seen to open at poll {poll}"),
        )?,
    }
    let places = if indirect { snd::PLACES_INDIRECT } else { snd::PLACES };
    lines.line(
        "pending",
        format_args!("at most {} of {places} places were taken at a time", told.most),
    )?;
    match told.filled {
        0 => Ok(()),
        filled => lines.line(
            "filled",
            format_args!("the last period, with {filled} bytes of silence: what does not wait is a whole period"),
        ),
    }
}

fn owed(lines: &mut Lines, page: &Page) -> fmt::Result {
    match page.owed {
        0 => lines.line("owed", "nothing"),
        periods if page.going_on.is_some() => lines.line(
            "owed",
            format_args!("{} pending when it was broken off", Count(periods, "period")),
        ),
        slots => lines.line(
            "owed",
            format_args!("{} in flight when the transfer answered", Count(slots, "slot")),
        ),
    }
}

fn drained(lines: &mut Lines, drain: &Drain) -> fmt::Result {
    let (part, allowed) = (&drain.accepted, drain.allowed);
    let (turns, periods) = (Count(drain.run, "turn"), Count(part.periods as u64, "period"));
    lines.line(
        "drained",
        format_args!(
            "in {turns} of {allowed} allowed; the device accepted {} bytes more meanwhile, in {periods}: {}",
            part.bytes, part.same
        ),
    )
}

fn broke_off(lines: &mut Lines, page: &Page) -> fmt::Result {
    match page.gaps.first() {
        None => lines.line("broke off", "nowhere"),
        Some(gap) => lines.line(
            "broke off",
            format_args!(
                "at period {}, byte {}, second {:.6}",
                gap.first,
                gap.offset,
                second(&page.params, gap.offset)
            ),
        ),
    }
}

#[cfg(test)]
mod tests {
    extern crate std;
    use super::Answered;
    use snd::{Refusal, Status};
    use std::string::ToString;

    /// Ok, a refusal without a cause, and of 2 and 3 each cause: no two read the same.
    #[test]
    fn the_answer_names_what_the_device_said() {
        let named = [
            (
                Refusal::IoError(Some(Status::BadMessage)),
                "2 IoError: the device said 0x8001, bad message",
            ),
            (
                Refusal::IoError(Some(Status::NotSupported)),
                "2 IoError: the device said 0x8002, not supported",
            ),
            (
                Refusal::IoError(Some(Status::IoError)),
                "2 IoError: the device said 0x8003, I/O error",
            ),
            (
                Refusal::IoError(Some(Status::Other(0))),
                "2 IoError: the device said 0x00000000, no status that the standard names",
            ),
            (Refusal::IoError(None), "2 IoError: no status caused it"),
            (
                Refusal::Unsupported(Some(Status::BadMessage)),
                "3 Unsupported: the device said 0x8001, bad message",
            ),
            (Refusal::Unsupported(None), "3 Unsupported: no status caused it"),
            (Refusal::QueueFailed, "7 QueueFailed"),
        ];
        for (refusal, text) in named {
            let shown = Answered(Some(("start", refusal))).to_string();
            assert_eq!(shown.strip_suffix(", to start"), Some(text));
        }
        assert_eq!(Answered(None).to_string(), "0 Ok");
    }
}
