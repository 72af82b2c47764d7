//! RIFF WAVE files: a sentence that was recorded on a desk computer, and the file of frames that were accepted.
//!
//! A file is taken with 8, 16, 24 or 32 bits a sample (`U8`, `S16`, `S24In3`, `S32`; format tag 1) at one of VirtIO's rates. Files with an
//! extensible header are not: `sox in.wav -t wavpcm out.wav` writes one that is.
//!
//! ```
//! use snd::wav::{self, Wave};
//! use snd::{Format, Rate};
//!
//! let said = Wave { channels: 1, format: Format::U8, rate: Rate::Hz8000, frames: b"odd" };
//! let mut file = [0xff; 100];
//! let len = wav::write(&said, &mut file)?;
//! assert_eq!((len, wav::file_len(3)), (48, 48));
//! assert_eq!(wav::read(&file[..len])?, said);
//! // what stands behind the file is not read
//! assert_eq!(wav::read(&file)?, said);
//! # Ok::<(), snd::Refusal>(())
//! ```
use crate::answer::Said;
use crate::bytes::{part_at, run};
use crate::{Format, RESULT_SIZE, Rate, Refusal, ffi};

/// What a file holds.
#[derive(Clone, Copy, PartialEq, Eq, Debug)]
pub struct Wave<'f> {
    /// Channels of a frame.
    pub channels: u8,
    /// Format of a sample.
    pub format: Format,
    /// Frames a second.
    pub rate: Rate,
    /// The frames: where a file was read, a part of the file itself.
    pub frames: &'f [u8],
}

/// Reads a file: [`Refusal::NotWave`] where its structure is at fault, else [`Refusal::BadSound`] where its sound is not taken. The last
/// frame may be cut: a file may have any number of bytes of frames.
///
/// ```
/// use snd::{Refusal, wav};
/// assert_eq!(wav::read(b"raw frames"), Err(Refusal::NotWave));
/// ```
pub fn read(file: &[u8]) -> Result<Wave<'_>, Refusal> {
    let mut result = [0; RESULT_SIZE];
    Said::done(ffi::snd_wav_read(file, &mut result))?;
    let [channels, format, rate] = run(&result, 16);
    Ok(Wave {
        channels,
        format: Format::from_number(format).ok_or(Refusal::Unknown)?,
        rate: Rate::from_number(rate).ok_or(Refusal::Unknown)?,
        frames: part_at(file, &result, 0).ok_or(Refusal::Unknown)?,
    })
}

/// Writes a file at the front of a slice, and gives its length; what stands behind it stays. [`Refusal::BadSound`] where no file has this
/// format, there are no channels, or the frames are no whole number of frames or too many for a file; else [`Refusal::BadLength`] where
/// the slice has fewer than [`file_len`] bytes. A refusal leaves the slice as it was.
pub fn write(wave: &Wave<'_>, file: &mut [u8]) -> Result<usize, Refusal> {
    let Wave {
        channels,
        format,
        rate,
        frames,
    } = *wave;
    Said::done(ffi::snd_wav_write(channels, format as u8, rate as u8, frames, file))?;
    Ok(file_len(frames.len()))
}

/// How many bytes a file of so many bytes of frames has: a header of 44, the frames, and a pad where their number is odd.
#[must_use]
pub const fn file_len(frames: usize) -> usize {
    frames.saturating_add(44).saturating_add(frames % 2)
}
