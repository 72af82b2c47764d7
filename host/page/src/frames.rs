//! What is known of frames by their length and their parameters.
use core::fmt;
use snd::{Format, Params};

/// A format's name in the documents, and the bytes of a sample. One that has no whole byte to a sample counts as one.
#[must_use]
pub const fn sample(format: Format) -> (&'static str, usize) {
    match format {
        Format::ImaAdpcm => ("IMA_ADPCM", 1),
        Format::MuLaw => ("MU_LAW", 1),
        Format::ALaw => ("A_LAW", 1),
        Format::S8 => ("S8", 1),
        Format::U8 => ("U8", 1),
        Format::S16 => ("S16", 2),
        Format::U16 => ("U16", 2),
        Format::S18In3 => ("S18_3", 3),
        Format::U18In3 => ("U18_3", 3),
        Format::S20In3 => ("S20_3", 3),
        Format::U20In3 => ("U20_3", 3),
        Format::S24In3 => ("S24_3", 3),
        Format::U24In3 => ("U24_3", 3),
        Format::S20 => ("S20", 4),
        Format::U20 => ("U20", 4),
        Format::S24 => ("S24", 4),
        Format::U24 => ("U24", 4),
        Format::S32 => ("S32", 4),
        Format::U32 => ("U32", 4),
        Format::Float => ("FLOAT", 4),
        Format::Float64 => ("FLOAT64", 8),
        Format::DsdU8 => ("DSD_U8", 1),
        Format::DsdU16 => ("DSD_U16", 2),
        Format::DsdU32 => ("DSD_U32", 4),
        Format::Iec958Subframe => ("IEC958_SUBFRAME", 4),
    }
}

/// Bytes of a frame.
#[must_use]
pub fn frame(params: &Params) -> usize {
    usize::from(params.channels) * sample(params.format).1
}

/// Where a byte of the frames is heard, in seconds.
#[must_use]
pub fn second(params: &Params, byte: usize) -> f64 {
    byte as f64 / (frame(params) as f64 * f64::from(params.rate.hz()))
}

/// What a user should know of the frames before all else.
#[derive(Clone, Copy, PartialEq, Eq, Debug)]
pub enum Warning {
    /// There are none.
    Nothing,
    /// They are no whole number of frames.
    Cut {
        /// All of them.
        bytes: usize,
        /// Bytes of a frame.
        frame: usize,
    },
    /// A period is no whole number of frames.
    PeriodCuts {
        /// Bytes of a period.
        period: usize,
        /// Bytes of a frame.
        frame: usize,
    },
}

/// The warnings about so many bytes.
pub fn warnings(params: &Params, bytes: usize) -> impl Iterator<Item = Warning> + use<> {
    let (frame, period) = (frame(params), params.period as usize);
    let cuts = |length: usize| frame > 0 && !length.is_multiple_of(frame);
    let all = [
        (bytes == 0).then_some(Warning::Nothing),
        cuts(bytes).then_some(Warning::Cut { bytes, frame }),
        (period < bytes && cuts(period)).then_some(Warning::PeriodCuts { period, frame }),
    ];
    all.into_iter().flatten()
}

impl fmt::Display for Warning {
    fn fmt(&self, f: &mut fmt::Formatter<'_>) -> fmt::Result {
        match *self {
            Self::Nothing => f.write_str("there are no frames: nothing is spoken"),
            Self::Cut { bytes, frame } => write!(
                f,
                "the last frame is cut: {bytes} bytes are {} frames of {frame} bytes and {} over; a device may never complete it",
                bytes / frame,
                bytes % frame
            ),
            Self::PeriodCuts { period, frame } => write!(
                f,
                "a period of {period} bytes cuts frames of {frame} bytes in two; --period {} would not",
                (period / frame).max(1) * frame
            ),
        }
    }
}
