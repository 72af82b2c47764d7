//! Traces of transfers, our own and others': `docs/TRACE.md` has their form.
//!
//! A trace is bytes of any length, so nothing here has a store. [`judge`] says whether a run of the driver's turns writes a trace, and where
//! not; [`scan`] whether it is whole fields at all; [`Fields`] shows what stands in it. [`compare`] lists every difference of two of them.
//!
//! ```
//! use snd::Refusal;
//! use snd::trace::{self, DIRECT, Field, Fields, Judged};
//!
//! // no frames at all: the start, stream 0, length 0, period 4, and the end, Ok
//! let mut trace = *b"\x00\x0c\x00\0\0\0\0\0\0\0\0\x04\0\0\0\x03\x01\x00\x00";
//! assert_eq!(trace::judge(DIRECT, &trace), Ok(()));
//!
//! // no run that has nothing to submit ends with 9: byte 18 is the answer
//! trace[18] = 9;
//! assert_eq!(trace::judge(DIRECT, &trace), Err(Judged { number: Refusal::NotARun, at: 18 }));
//! assert_eq!(Fields::of(&trace).last(), Some((15, Field::End { answer: 9 })));
//!
//! // without its last byte it is no trace: the field at 15 is cut
//! assert_eq!(trace::scan(&trace[..18]), Err(Judged { number: Refusal::BadTrace, at: 15 }));
//! ```
use crate::answer::Said;
use crate::bytes::{run, u32_at, u64_at};
use crate::{Refusal, ffi};
use core::fmt;

/// The mode of a judge: how many descriptors a submission takes.
pub const DIRECT: u32 = 3;
/// The same of a driver with indirect descriptors, as [`crate::Ring::new_indirect`] is for.
pub const INDIRECT: u32 = 1;

/// What is said against a trace, and where.
#[derive(Clone, Copy, PartialEq, Eq, Debug)]
pub struct Judged {
    /// [`Refusal::BadTrace`] or [`Refusal::NotARun`]; [`Refusal::InvalidParam`] for a mode that is none.
    pub number: Refusal,
    /// Of 18 the offset of the first field that is none, 0 of an empty trace. Of 19 that of the first byte through which no run's trace agrees,
    /// or the length, where the trace only ends early.
    pub at: usize,
}

impl fmt::Display for Judged {
    fn fmt(&self, f: &mut fmt::Formatter<'_>) -> fmt::Result {
        write!(f, "{} at {}", self.number, self.at)
    }
}

impl core::error::Error for Judged {}

/// A refusal with its offset, which is asked for only then.
fn said(answer: u64, at: impl FnOnce() -> u64) -> Result<(), Judged> {
    Said::done(answer).map_err(|number| Judged {
        number,
        at: at() as usize,
    })
}

/// Accepts a trace exactly when some readings and some budget make the turns write that very trace. `mode` is [`DIRECT`] or [`INDIRECT`], and
/// any other number is [`Refusal::InvalidParam`]; then come [`Refusal::BadTrace`], over the whole trace, and [`Refusal::NotARun`].
pub fn judge(mode: u32, trace: &[u8]) -> Result<(), Judged> {
    said(ffi::snd_judge(mode, trace), || ffi::snd_judge_at(mode, trace))
}

/// Whether a trace is whole fields, whatever they say: [`Refusal::BadTrace`] where it is empty, or a field has an unknown tag, a wrong length or
/// is cut.
pub fn scan(trace: &[u8]) -> Result<(), Judged> {
    said(ffi::snd_trace_scan(trace), || ffi::snd_trace_scan_at(trace))
}

/// How many bytes of room a trace of so many bytes of frames needs at most: 19 + 20n for n periods.
#[must_use]
pub const fn room_len(frames: usize, period: u32) -> usize {
    let periods = match period {
        0 => 0, // no run has it
        period => frames.div_ceil(period as usize),
    };
    periods.saturating_mul(20).saturating_add(19)
}

/// Before a field's contents: tag 1, length 2.
pub const HEAD: usize = 3;

/// A field of a trace. Shown in one line, a status in hexadecimal.
///
/// ```
/// use snd::trace::Field;
/// assert_eq!(Field::Completed { slot: 1, status: 0x8000 }.to_string(), "completed slot 1 status 0x8000");
/// ```
#[derive(Clone, Copy, PartialEq, Eq, Debug)]
pub enum Field {
    /// Written by the first turn, before its own.
    Start {
        /// The stream.
        stream: u32,
        /// Bytes of the frames.
        length: u32,
        /// Bytes of a period.
        period: u32,
    },
    /// A period was submitted.
    Submitted {
        /// The slot.
        slot: u8,
        /// Where the period begins in the frames.
        offset: u32,
        /// Its bytes.
        length: u32,
    },
    /// The oldest slot in flight came back.
    Completed {
        /// The slot.
        slot: u8,
        /// The device's status; 0x8000 is ok.
        status: u32,
    },
    /// The transfer is over.
    End {
        /// The answer's number.
        answer: u8,
    },
}

impl Field {
    /// Its tag.
    #[must_use]
    pub const fn tag(self) -> u8 {
        match self {
            Self::Start { .. } => 0,
            Self::Submitted { .. } => 1,
            Self::Completed { .. } => 2,
            Self::End { .. } => 3,
        }
    }

    /// Its name, by its tag; an unknown tag has none.
    #[must_use]
    pub const fn name(tag: u8) -> Option<&'static str> {
        match tag {
            0 => Some("start"),
            1 => Some("submitted"),
            2 => Some("completed"),
            3 => Some("end"),
            _ => None,
        }
    }

    /// Bytes of the contents, by its tag; an unknown tag has none.
    #[must_use]
    pub const fn contents(tag: u8) -> Option<usize> {
        match tag {
            0 => Some(12),
            1 => Some(9),
            2 => Some(5),
            3 => Some(1),
            _ => None,
        }
    }

    /// The field of a tag and its numbers, in its own order; none for an unknown tag, or a slot or an answer of more than a byte.
    fn of(tag: u8, [first, second, third]: [u32; 3]) -> Option<Self> {
        let small = u8::try_from(first);
        Some(match tag {
            0 => Self::Start {
                stream: first,
                length: second,
                period: third,
            },
            1 => Self::Submitted {
                slot: small.ok()?,
                offset: second,
                length: third,
            },
            2 => Self::Completed {
                slot: small.ok()?,
                status: second,
            },
            3 => Self::End { answer: small.ok()? },
            _ => return None,
        })
    }

    /// The field at the front of some bytes, and how many it takes; none where [`scan`] finds none.
    #[must_use]
    pub fn read(bytes: &[u8]) -> Option<(Self, usize)> {
        let [tag, least, most] = bytes.first_chunk::<HEAD>().copied()?;
        let length = Self::contents(tag).filter(|length| *length == u16::from_le_bytes([least, most]).into())?;
        let inside = bytes.get(HEAD..)?.get(..length)?;
        let [small] = run::<1>(inside, 0).map(u32::from);
        let numbers = match tag {
            0 => [0, 4, 8].map(|at| u32_at(inside, at)),
            1 => [small, u32_at(inside, 1), u32_at(inside, 5)],
            2 => [small, u32_at(inside, 1), 0],
            _ => [small, 0, 0],
        };
        let field = Self::of(tag, numbers)?;
        Some((field, HEAD.saturating_add(length)))
    }
}

impl fmt::Display for Field {
    fn fmt(&self, f: &mut fmt::Formatter<'_>) -> fmt::Result {
        match *self {
            Self::Start { stream, length, period } => {
                write!(f, "start stream {stream} length {length} period {period}")
            }
            Self::Submitted { slot, offset, length } => {
                write!(f, "submitted slot {slot} offset {offset} length {length}")
            }
            Self::Completed { slot, status } => write!(f, "completed slot {slot} status {status:#x}"),
            Self::End { answer } => write!(f, "end answer {answer}"),
        }
    }
}

/// The fields of a trace in order, each with its offset; it ends before the first that is none.
#[derive(Clone, Debug)]
pub struct Fields<'t> {
    rest: &'t [u8],
    at: usize,
}

impl<'t> Fields<'t> {
    /// Of this trace.
    #[must_use]
    pub const fn of(trace: &'t [u8]) -> Self {
        Self { rest: trace, at: 0 }
    }
}

impl Iterator for Fields<'_> {
    type Item = (usize, Field);

    fn next(&mut self) -> Option<Self::Item> {
        let (field, length) = Field::read(self.rest)?;
        let at = self.at;
        self.rest = self.rest.get(length..).unwrap_or_default();
        self.at = at.saturating_add(length);
        Some((at, field))
    }
}

/// The size of an entry of a list of differences.
pub const ENTRY_SIZE: usize = 34;

/// Where two traces differ: by the number of a field, from 0. Shown as a program prints it, in one line, or in two where both have the field.
#[derive(Clone, Copy, PartialEq, Eq, Debug)]
pub enum Difference {
    /// A field that only the first has.
    OnlyFirst {
        /// Its number.
        position: u64,
        /// What it is.
        field: Field,
    },
    /// A field that only the second has.
    OnlySecond {
        /// Its number.
        position: u64,
        /// What it is.
        field: Field,
    },
    /// The same tag with other contents.
    Other {
        /// The number of both.
        position: u64,
        /// What the first has.
        first: Field,
        /// What the second has.
        second: Field,
    },
}

impl Difference {
    /// The number of the field, from 0.
    #[must_use]
    pub const fn position(self) -> u64 {
        match self {
            Self::OnlyFirst { position, .. } | Self::OnlySecond { position, .. } | Self::Other { position, .. } => {
                position
            }
        }
    }

    /// What the first trace has there.
    #[must_use]
    pub const fn first(self) -> Option<Field> {
        match self {
            Self::OnlyFirst { field: first, .. } | Self::Other { first, .. } => Some(first),
            Self::OnlySecond { .. } => None,
        }
    }

    /// What the second trace has there.
    #[must_use]
    pub const fn second(self) -> Option<Field> {
        match self {
            Self::OnlySecond { field: second, .. } | Self::Other { second, .. } => Some(second),
            Self::OnlyFirst { .. } => None,
        }
    }

    /// An entry of a list; none where these bytes are no entry.
    fn read(entry: &[u8]) -> Option<Self> {
        let (position, [kind, tag]) = (u64_at(entry, 0), run(entry, 8));
        let field = |at: usize| {
            let numbers = [0, 4, 8].map(|number| u32_at(entry, at.saturating_add(number)));
            Field::of(tag, numbers)
        };
        match kind {
            0 => field(10).map(|field| Self::OnlyFirst { position, field }),
            1 => field(22).map(|field| Self::OnlySecond { position, field }),
            2 => field(10).zip(field(22)).map(|(first, second)| Self::Other {
                position,
                first,
                second,
            }),
            _ => None,
        }
    }
}

impl fmt::Display for Difference {
    fn fmt(&self, f: &mut fmt::Formatter<'_>) -> fmt::Result {
        match *self {
            Self::OnlyFirst { position, field } => write!(f, "{position} - {field}"),
            Self::OnlySecond { position, field } => write!(f, "{position} + {field}"),
            Self::Other {
                position,
                first,
                second,
            } => write!(f, "{position} < {first}\n{position} > {second}"),
        }
    }
}

/// The entries of a list, in order. It is of use without the traces, and ends before the first whole row that is no entry.
#[derive(Clone, Debug)]
pub struct Entries<'l> {
    rows: &'l [u8],
}

impl<'l> Entries<'l> {
    /// Of these bytes, as [`compare`] writes them: rows of [`ENTRY_SIZE`].
    #[must_use]
    pub const fn of(list: &'l [u8]) -> Self {
        Self { rows: list }
    }
}

impl Iterator for Entries<'_> {
    type Item = Difference;

    fn next(&mut self) -> Option<Difference> {
        let (row, rest) = self.rows.split_at_checked(ENTRY_SIZE)?;
        self.rows = rest;
        Difference::read(row)
    }
}

/// Why two traces are not listed.
#[derive(Clone, Copy, PartialEq, Eq, Debug)]
pub enum Unlisted {
    /// The first is no trace, and where; it is judged first.
    First(Judged),
    /// The second is none.
    Second(Judged),
    /// The differences outnumber the whole entries that the list has room for: [`differences`] tells how many there are.
    Full,
}

impl Unlisted {
    /// The answer.
    #[must_use]
    pub const fn number(self) -> Refusal {
        match self {
            Self::First(judged) | Self::Second(judged) => judged.number,
            Self::Full => Refusal::ListFull,
        }
    }
}

/// The number, which trace and where.
impl fmt::Display for Unlisted {
    fn fmt(&self, f: &mut fmt::Formatter<'_>) -> fmt::Result {
        match self {
            Self::First(judged) => write!(f, "{} first {}", judged.number.number(), judged.at),
            Self::Second(judged) => write!(f, "{} second {}", judged.number.number(), judged.at),
            Self::Full => write!(f, "{}", Refusal::ListFull.number()),
        }
    }
}

impl core::error::Error for Unlisted {}

/// Both are whole fields, the first judged first.
fn whole(first: &[u8], second: &[u8]) -> Result<(), Unlisted> {
    scan(first).map_err(Unlisted::First)?;
    scan(second).map_err(Unlisted::Second)
}

/// How many differences two traces have: 0 exactly when their bytes are equal.
pub fn differences(first: &[u8], second: &[u8]) -> Result<usize, Unlisted> {
    whole(first, second)?;
    Ok(ffi::snd_differences(first, second) as usize)
}

/// Lists every difference of two traces at the front of `list`, in order; what stands behind the entries stays. They need be no runs. A refusal
/// leaves the list as it was.
///
/// ```
/// use snd::trace::{self, Difference, ENTRY_SIZE, Field, Unlisted};
/// let (ended, failed) = ([3, 1, 0, 0], [3, 1, 0, 2]);
/// let mut list = [0; 2 * ENTRY_SIZE];
/// let mut entries = trace::compare(&ended, &failed, &mut list)?;
/// let other = Difference::Other { position: 0, first: Field::End { answer: 0 }, second: Field::End { answer: 2 } };
/// assert_eq!((entries.next(), entries.next()), (Some(other), None));
/// assert_eq!(other.to_string(), "0 < end answer 0\n0 > end answer 2");
///
/// assert_eq!(trace::compare(&ended, &ended, &mut [])?.count(), 0);
/// assert_eq!(trace::compare(&ended, &failed, &mut list[..33]).unwrap_err(), Unlisted::Full);
/// # Ok::<(), Unlisted>(())
/// ```
pub fn compare<'l>(first: &[u8], second: &[u8], list: &'l mut [u8]) -> Result<Entries<'l>, Unlisted> {
    match Said::done(ffi::snd_compare(first, second, list)) {
        Ok(()) => {
            let rows = differences(first, second)?.saturating_mul(ENTRY_SIZE);
            Ok(Entries::of(list.get(..rows).unwrap_or_default()))
        }
        Err(Refusal::ListFull) => Err(Unlisted::Full),
        Err(number) => Err(match whole(first, second) {
            Err(unlisted) => unlisted,
            // no answer of this entry
            Ok(()) => Unlisted::First(Judged { number, at: 0 }),
        }),
    }
}

#[cfg(test)]
mod tests {
    use super::room_len;

    #[test]
    fn the_room_is_19_and_20_for_each_period() {
        assert_eq!([0, 1, 4, 5, 10].map(|frames| room_len(frames, 4)), [19, 39, 39, 59, 79]);
        assert_eq!(room_len(u32::MAX as usize, 1), 19 + 20 * u32::MAX as usize);
        assert_eq!((room_len(10, 0), room_len(10, 11)), (19, 39));
        assert_eq!(room_len(usize::MAX, 1), usize::MAX);
    }
}
