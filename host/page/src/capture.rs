//! The page of a recording: what a microphone wrote, and what was kept of it.
use crate::faults::{Fault, Refused, When};
use crate::frames::{Warning, second, warnings};
use crate::page::{Built, Count, Lines, Stream, Times, Turns, after, built, modes, parameters, stream, turns};
use core::fmt;
use sha256::Sum;
use snd::Params;

/// All that the page tells of a recording.
pub struct CapturePage<'p> {
    /// Where it is written: a name that fits on a line.
    pub name: &'p str,
    /// How many periods were asked for.
    pub periods: u64,
    /// What the stream is set to.
    pub params: Params,
    /// Whether feeds carry the length that the device wrote.
    pub strict: bool,
    /// The state was made with the guard.
    pub guard: bool,
    /// The ring was made for indirect descriptors.
    pub indirect: bool,
    /// Where one was found.
    pub stream: Option<Stream>,
    /// The turns of the capture.
    pub turns: Turns,
    /// Periods for which room was submitted.
    pub submitted: u64,
    /// What came back well, as it was seen.
    pub heard: Heard,
    /// How many bytes the driver kept.
    pub kept: usize,
    /// Of these bytes.
    pub sha256: Sum,
    /// What the device did wrong, in order.
    pub faults: &'p [Fault],
    /// Slots in flight when the capture answered.
    pub owed: u64,
    /// Turns of the drain after it, and how many are allowed.
    pub drain: (u64, u64),
    /// The call that was refused; none where all went well.
    pub refused: Option<Refused>,
    /// How long it took.
    pub times: Times,
    /// What it was built with.
    pub built: Built<'p>,
}

/// What came back well.
#[derive(Clone, Copy, PartialEq, Eq, Debug, Default)]
pub struct Heard {
    /// How many periods.
    pub periods: u64,
    /// How many of them were not whole.
    pub short: u64,
    /// How many bytes, without their statuses.
    pub bytes: usize,
    /// How the recording stands to them.
    pub recorded: Recorded,
}

/// How a recording stands to what a device wrote.
#[derive(Clone, Copy, PartialEq, Eq, Debug, Default)]
pub enum Recorded {
    /// It has these bytes, in order, and behind them what stood there before.
    Same,
    /// It has others.
    #[default]
    Not,
    /// It has these bytes, as they were copied from the queue; what the device meant to write was not seen.
    Copied,
}

impl fmt::Display for Recorded {
    fn fmt(&self, f: &mut fmt::Formatter<'_>) -> fmt::Result {
        f.write_str(match self {
            Self::Same => "what the microphone heard, byte for byte; behind it the room is as it was",
            Self::Not => "NOT what the microphone heard",
            Self::Copied => "what the device wrote, as the queue gave it; behind it the room is as it was",
        })
    }
}

impl CapturePage<'_> {
    /// Whether all periods were recorded: Ok, each came back well, and the recording has just their bytes.
    #[must_use]
    pub fn given(&self) -> bool {
        let whole = self.heard.periods == self.periods && self.heard.bytes == self.kept;
        self.refused.is_none() && whole && self.heard.recorded != Recorded::Not
    }
}

impl fmt::Display for CapturePage<'_> {
    fn fmt(&self, f: &mut fmt::Formatter<'_>) -> fmt::Result {
        let mut lines = Lines(f);
        before(&mut lines, self)?;
        device(&mut lines, self)?;
        after(&mut lines, "capture", self.refused, &self.turns, &self.times)?;
        built(&mut lines, &self.built)
    }
}

/// What was to be recorded.
fn before(lines: &mut Lines, page: &CapturePage) -> fmt::Result {
    let asked = Count(page.periods, "period");
    let most = page.most();
    lines.line(
        "recording",
        format_args!("{}, {asked}, at most {most} bytes", page.name),
    )?;
    let cuts = warnings(&page.params, usize::MAX).filter(|warning| matches!(warning, Warning::PeriodCuts { .. }));
    for warning in cuts {
        lines.line("warning", warning)?;
    }
    modes(lines, page.strict, page.guard, page.indirect)?;
    stream(lines, page.stream)?;
    parameters(lines, &page.params)
}

/// What the device did, and what was kept of it.
fn device(lines: &mut Lines, page: &CapturePage) -> fmt::Result {
    let Heard {
        periods, short, bytes, ..
    } = page.heard;
    turns(lines, &page.turns)?;
    lines.line(
        "submitted",
        format_args!("room for {}", Count(page.submitted, "period")),
    )?;
    let accepted = Count(periods, "period");
    match short {
        0 => lines.line(
            "accepted",
            format_args!("{bytes} of {} bytes, in {accepted}", page.most()),
        )?,
        short => lines.line(
            "accepted",
            format_args!("{bytes} of {} bytes, in {accepted}, {short} of them short", page.most()),
        )?,
    }
    recorded(lines, page)?;
    for Fault { when, what } in page.faults {
        match when {
            When::Transfer(turn) => lines.line("fault", format_args!("capture turn {turn}: {what}"))?,
            When::Drain(turn) => lines.line("fault", format_args!("drain turn {turn}: {what}"))?,
        }
    }
    owed(lines, page)?;
    broke_off(lines, page)
}

fn recorded(lines: &mut Lines, page: &CapturePage) -> fmt::Result {
    const NAME: &str = "recorded";
    if page.kept == 0 && page.heard.recorded != Recorded::Not {
        return lines.line(NAME, "nothing: the room is as it was");
    }
    lines.line(NAME, format_args!("{} bytes: {}", page.kept, page.heard.recorded))?;
    lines.line(NAME, format_args!("sha256 {}", page.sha256))?;
    lines.line(NAME, format_args!("{:.6} s", second(&page.params, page.kept)))
}

fn owed(lines: &mut Lines, page: &CapturePage) -> fmt::Result {
    let (run, allowed) = page.drain;
    match page.owed {
        0 => lines.line("owed", "nothing"),
        slots => {
            lines.line(
                "owed",
                format_args!("{} in flight when the capture answered", Count(slots, "slot")),
            )?;
            let turns = Count(run, "turn");
            lines.line(
                "drained",
                format_args!("in {turns} of {allowed} allowed; nothing of it was recorded"),
            )
        }
    }
}

fn broke_off(lines: &mut Lines, page: &CapturePage) -> fmt::Result {
    match page.heard.periods {
        all if all == page.periods => lines.line("broke off", "nowhere"),
        periods => lines.line(
            "broke off",
            format_args!(
                "at period {}, byte {}, second {:.6}",
                periods.saturating_add(1),
                page.kept,
                second(&page.params, page.kept)
            ),
        ),
    }
}

impl CapturePage<'_> {
    /// Bytes of the periods that were asked for.
    fn most(&self) -> u64 {
        self.periods.saturating_mul(self.params.period.into())
    }
}
