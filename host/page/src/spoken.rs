//! The operator's question: how much was spoken before it failed?
use crate::frames::second;
use crate::page::{Count, Joined, Lines, Page};
use core::fmt;

/// How many periods of this size so many bytes are; none of a period of no bytes.
fn periods_of(bytes: usize, size: usize) -> u64 {
    match size {
        0 => 0,
        size => bytes.div_ceil(size) as u64,
    }
}

/// How much of an announcement was spoken.
#[derive(Clone, Copy, PartialEq, Debug)]
pub struct Spoken {
    /// How many periods, by the driver's own count.
    pub periods: u64,
    /// How many the announcement has.
    pub of: u64,
    /// Bytes of these periods: the frames' first.
    pub bytes: usize,
    /// How long they last.
    pub seconds: f64,
    /// Whether the device has accepted just as much, by its own account.
    pub same: bool,
}

impl Page<'_> {
    /// How much was spoken, at every end that is not Ok: the periods that were accepted by the driver's count are the frames' first.
    #[must_use]
    pub fn spoken(&self) -> Option<Spoken> {
        let (periods, _refused) = self.spoken.zip(self.refused)?;
        let whole = periods.saturating_mul(self.params.period.into());
        let bytes = usize::try_from(whole).map_or(self.bytes, |whole| whole.min(self.bytes));
        let accepted = (self.accepted.periods as u64, self.accepted.bytes);
        Some(Spoken {
            periods,
            of: periods_of(self.bytes, self.params.period as usize),
            bytes,
            seconds: second(&self.params, bytes),
            same: (periods, bytes) == accepted,
        })
    }

    /// The part of a joined announcement that comes next after so many bytes, and its number, the first is 1. None where no byte is left, and of one that was
    /// not joined.
    fn part_at(&self, bytes: usize) -> Option<(usize, &Joined<'_>)> {
        let mut parts = (1..).zip(self.parts);
        parts.find(|(_number, part)| bytes < part.offset + part.bytes)
    }
}

pub(crate) fn spoken(lines: &mut Lines, page: &Page) -> fmt::Result {
    const NAME: &str = "spoken";
    let Some(spoken) = page.spoken() else {
        return Ok(());
    };
    let (periods, of, bytes) = (spoken.periods, Count(spoken.of, "period"), spoken.bytes);
    lines.line(
        NAME,
        format_args!("{periods} of {of}, {bytes} bytes, {:.6} seconds", spoken.seconds),
    )?;
    if !spoken.same {
        let (periods, bytes) = (Count(page.accepted.periods as u64, "period"), page.accepted.bytes);
        lines.line(
            NAME,
            format_args!("NOT what the device accepted: {periods}, {bytes} bytes"),
        )?;
    }
    if let Some((number, part)) = page.part_at(bytes) {
        let (whole, all, into) = (number - 1, page.parts.len(), bytes - part.offset);
        let Joined { name, bytes, .. } = part;
        lines.line(
            NAME,
            format_args!("{whole} of {all} parts whole, then {into} of {bytes} bytes of part {number}, {name}"),
        )?;
    }
    lines.line("operator", Screen { page, spoken })
}

/// The sentence on the operator's screen.
struct Screen<'s> {
    page: &'s Page<'s>,
    spoken: Spoken,
}

impl fmt::Display for Screen<'_> {
    fn fmt(&self, f: &mut fmt::Formatter<'_>) -> fmt::Result {
        let Spoken { bytes, seconds, .. } = self.spoken;
        let all = second(&self.page.params, self.page.bytes);
        if bytes == 0 {
            return f.write_str("nothing was spoken when it failed: repeat the announcement");
        }
        if bytes == self.page.bytes {
            return write!(f, "all {all:.6} seconds were spoken; what failed came after");
        }
        write!(
            f,
            "the first {seconds:.6} of {all:.6} seconds were spoken when it failed"
        )?;
        if let Some((_number, part)) = self.page.part_at(bytes) {
            write!(f, ", up to {}", part.name)?;
        }
        f.write_str(": repeat the announcement")
    }
}
