//! What was accepted, and what was not.
use crate::faults::CameBack;
use core::fmt;
use sha256::Sum;

/// How a part of what was accepted stands to the frames.
#[derive(Clone, Copy, PartialEq, Eq, Debug)]
pub enum Same {
    /// Nothing was accepted.
    Nothing,
    /// One run of the frames' bytes, in order, from this byte on.
    Run {
        /// That byte.
        from: usize,
    },
    /// Every payload is the frames' bytes of its own place, with gaps between or out of order.
    Places,
    /// This period's payload is not the frames' bytes of its place.
    Not {
        /// Which period.
        period: usize,
    },
    /// The device says so by its completions; what it took of each was not seen.
    Told,
}

/// What was accepted in the transfer, or in the drain.
#[derive(Clone, Copy, PartialEq, Eq, Debug)]
pub struct Part {
    /// How many periods.
    pub periods: usize,
    /// How many bytes.
    pub bytes: usize,
    /// Of the payloads, joined, where they were seen.
    pub sha256: Option<Sum>,
    /// How they stand to the frames.
    pub same: Same,
}

impl Part {
    /// Whether these are all the frames, in order.
    #[must_use]
    pub fn whole(&self, bytes: usize) -> bool {
        self.bytes == bytes && matches!(self.same, Same::Run { from: 0 } | Same::Nothing | Same::Told)
    }
}

/// Why a period was not accepted.
#[derive(Clone, Copy, PartialEq, Eq, Debug)]
pub enum Why {
    /// It came back with another status than ok.
    Status(u32),
    /// It was submitted and did not come back.
    NotCompleted,
    /// It was not submitted.
    NotSubmitted,
    /// Other bytes than the frames' were accepted in its place.
    OtherBytes,
}

impl fmt::Display for Why {
    fn fmt(&self, f: &mut fmt::Formatter<'_>) -> fmt::Result {
        match self {
            Self::Status(status) => CameBack(*status).fmt(f),
            Self::NotCompleted => write!(f, "not completed"),
            Self::NotSubmitted => write!(f, "not submitted"),
            Self::OtherBytes => write!(f, "OTHER BYTES were accepted in this place"),
        }
    }
}

/// Periods in a row that were not accepted, for one reason; the first of the frames is 1.
#[derive(Clone, Copy, PartialEq, Eq, Debug)]
pub struct Gap {
    /// Its first period.
    pub first: usize,
    /// Its last period.
    pub last: usize,
    /// Where it begins in the frames.
    pub offset: usize,
    /// How many bytes it has.
    pub length: usize,
    /// The reason.
    pub why: Why,
}

impl fmt::Display for Gap {
    fn fmt(&self, f: &mut fmt::Formatter<'_>) -> fmt::Result {
        let last = self.offset + self.length - 1;
        if self.first == self.last {
            write!(f, "period {}, ", self.first)?;
        } else {
            write!(f, "periods {} to {}, ", self.first, self.last)?;
        }
        write!(f, "bytes {} to {last}: {}", self.offset, self.why)
    }
}

/// The gaps in `bytes` of frames, sent in periods of `size`: `missing` has of each period, in order, why it was not accepted, and none for one that was.
pub fn gaps(bytes: usize, size: usize, missing: impl IntoIterator<Item = Option<Why>>) -> impl Iterator<Item = Gap> {
    let mut missing = missing.into_iter().enumerate().peekable();
    let runs = core::iter::from_fn(move || {
        let (first, why) = missing.next()?;
        let mut after = first + 1;
        while missing.next_if(|(_period, next)| *next == why).is_some() {
            after += 1;
        }
        Some((first, after, why))
    });
    runs.filter_map(move |(first, after, why)| {
        let offset = first * size;
        Some(Gap {
            first: first + 1,
            last: after,
            offset,
            length: bytes.min(after * size) - offset,
            why: why?,
        })
    })
}
