//! Request 2026-03: announcements from WAV. A RIFF WAVE file is read from a lent slice and written into one.
//!
//! Each fault is beside its test, so that a comparison can tell whether all were tried; they have two numbers.

use crate::wire::{u16_at, u32_at};
use crate::{BAD_LENGTH, BAD_SOUND, NOT_WAVE};

/// "A table of the 25 formats gives sample and storage width in bits": VirtIO's formats by number, IMA ADPCM to IEC958 subframes.
pub const SAMPLE: [u8; 25] =
    [4, 8, 8, 8, 8, 16, 16, 18, 18, 20, 20, 24, 24, 20, 20, 24, 24, 32, 32, 32, 64, 8, 16, 32, 32];
pub const STORAGE: [u8; 25] =
    [4, 8, 8, 8, 8, 16, 16, 24, 24, 24, 24, 24, 24, 32, 32, 32, 32, 32, 32, 32, 64, 8, 16, 32, 32];

/// Rates in Hz by number.
pub const RATES: [u32; 14] =
    [5512, 8000, 11025, 16000, 22050, 32000, 44100, 48000, 64000, 88200, 96000, 176400, 192000, 384000];

/// "8, 16, 24 or 32 bits as U8, S16, S24_3, S32."
pub const FORMATS: [u8; 4] = [4, 5, 11, 17];

const PCM: u16 = 1;
/// Of a file's head: RIFF, its size, WAVE; of a chunk's: a tag, a size.
const HEAD: usize = 12;
const CHUNK: usize = 8;
/// Of what is written: the head, a `fmt ` of 16 bytes, the head of `data`.
pub const HEADER: u64 = 44;
const FMT: usize = 16;
/// The most bytes of frames, padded: 2^32 - 1 - 36, since the RIFF size counts 36 bytes of the header.
pub const MOST: u64 = 4_294_967_259;

/// What a file holds; the frames as a part of it.
#[derive(Copy, Clone, Debug, PartialEq, Eq)]
pub struct Wave {
    pub channels: u8,
    pub format: u8,
    pub rate: u8,
    pub offset: usize,
    pub length: usize,
}

/// Why a file is refused: 13 down to the short `fmt `, 14 from there on.
#[derive(Copy, Clone, Debug, PartialEq, Eq, PartialOrd, Ord)]
pub enum Fault {
    WrongTags,
    RiffPastFile,
    /// a RIFF that does not even hold the letters WAVE
    RiffTooSmall,
    /// what is left of the RIFF is no chunk's head
    HeadPastRiff,
    ChunkPastRiff,
    PadPastRiff,
    NoFmt,
    NoData,
    DataBeforeFmt,
    ShortFmt,
    NotPcm,
    Bits,
    Rate,
    Channels,
    Block,
}

impl Fault {
    pub const ALL: [Fault; 15] = [
        Fault::WrongTags,
        Fault::RiffPastFile,
        Fault::RiffTooSmall,
        Fault::HeadPastRiff,
        Fault::ChunkPastRiff,
        Fault::PadPastRiff,
        Fault::NoFmt,
        Fault::NoData,
        Fault::DataBeforeFmt,
        Fault::ShortFmt,
        Fault::NotPcm,
        Fault::Bits,
        Fault::Rate,
        Fault::Channels,
        Fault::Block,
    ];

    pub fn number(self) -> u8 {
        if self <= Fault::ShortFmt { NOT_WAVE } else { BAD_SOUND }
    }
}

/// A chunk: its tag, and where its bytes stand in the file.
struct Chunk<'a> {
    tag: &'a [u8],
    offset: usize,
    length: usize,
}

/// The RIFF, without the bytes past it, which are ignored.
fn riff(file: &[u8]) -> Result<&[u8], Fault> {
    if file.len() < HEAD || &file[..4] != b"RIFF" || &file[8..HEAD] != b"WAVE" {
        return Err(Fault::WrongTags);
    }
    let size = u32_at(file, 4) as usize;
    if size < HEAD - CHUNK {
        return Err(Fault::RiffTooSmall);
    }
    file.get(..CHUNK + size).ok_or(Fault::RiffPastFile)
}

/// All chunks of a RIFF, which they fill: "chunks padded to even".
fn chunks(riff: &[u8]) -> Result<Vec<Chunk<'_>>, Fault> {
    let (mut all, mut at) = (vec![], HEAD);
    while at < riff.len() {
        let offset = at + CHUNK;
        if offset > riff.len() {
            return Err(Fault::HeadPastRiff);
        }
        let length = u32_at(riff, at + 4) as usize;
        if offset + length > riff.len() {
            return Err(Fault::ChunkPastRiff);
        }
        let padded = length + length % 2;
        if offset + padded > riff.len() {
            return Err(Fault::PadPastRiff);
        }
        all.push(Chunk { tag: &riff[at..at + 4], offset, length });
        at = offset + padded;
    }
    Ok(all)
}

/// "13 NotWave for structure .., then 14 BadSound": the whole structure is judged before the sound.
pub fn read(file: &[u8]) -> Result<Wave, Fault> {
    let riff = riff(file)?;
    let chunks = chunks(riff)?;
    // "the first chunk of each kind counts"
    let first = |tag: &[u8]| chunks.iter().position(|chunk| chunk.tag == tag);
    let fmt = first(b"fmt ").ok_or(Fault::NoFmt)?;
    let data = first(b"data").ok_or(Fault::NoData)?;
    if data < fmt {
        return Err(Fault::DataBeforeFmt);
    }
    let (fmt, data) = (&chunks[fmt], &chunks[data]);
    if fmt.length < FMT {
        return Err(Fault::ShortFmt);
    }
    let (channels, format, rate) = sound(&riff[fmt.offset..][..FMT])?;
    Ok(Wave { channels, format, rate, offset: data.offset, length: data.length })
}

/// The first 16 bytes of `fmt `: tag 2, channels 2, rate 4, byte rate 4 (ignored), block 2, bits 2.
fn sound(fmt: &[u8]) -> Result<(u8, u8, u8), Fault> {
    if u16_at(fmt, 0) != PCM {
        return Err(Fault::NotPcm);
    }
    let bits = u16_at(fmt, 14);
    let format = FORMATS.into_iter().find(|format| STORAGE[*format as usize] as u16 == bits).ok_or(Fault::Bits)?;
    let rate = RATES.iter().position(|hz| *hz == u32_at(fmt, 4)).ok_or(Fault::Rate)?;
    let channels = u8::try_from(u16_at(fmt, 2)).ok().filter(|n| *n > 0).ok_or(Fault::Channels)?;
    if u64::from(u16_at(fmt, 12)) != block(channels, format) {
        return Err(Fault::Block);
    }
    Ok((channels, format, rate as u8))
}

/// The bytes of one sample of every channel.
pub fn block(channels: u8, format: u8) -> u64 {
    u64::from(channels) * u64::from(STORAGE[format as usize] / 8)
}

/// Why nothing is written: 14, but for too little room, 10.
#[derive(Copy, Clone, Debug, PartialEq, Eq, PartialOrd, Ord)]
pub enum Unwritten {
    Format,
    Rate,
    Channels,
    NotWholeBlocks,
    TooLarge,
    Room,
}

impl Unwritten {
    pub const ALL: [Unwritten; 6] = [
        Unwritten::Format,
        Unwritten::Rate,
        Unwritten::Channels,
        Unwritten::NotWholeBlocks,
        Unwritten::TooLarge,
        Unwritten::Room,
    ];

    pub fn number(self) -> u8 {
        if self == Unwritten::Room { BAD_LENGTH } else { BAD_SOUND }
    }
}

/// The file's length for so many bytes of frames.
pub fn file_length(frames: u64) -> u64 {
    HEADER + frames + frames % 2
}

/// Writes a file at the front of a slice, and tells its length.
pub fn write(channels: u8, format: u8, rate: u8, frames: &[u8], file: &mut [u8]) -> Result<u64, Unwritten> {
    let n = frames.len() as u64;
    if !FORMATS.contains(&format) {
        return Err(Unwritten::Format);
    }
    let hz = *RATES.get(rate as usize).ok_or(Unwritten::Rate)?;
    if channels == 0 {
        return Err(Unwritten::Channels);
    }
    let block = block(channels, format);
    if !n.is_multiple_of(block) {
        return Err(Unwritten::NotWholeBlocks);
    }
    if n + n % 2 > MOST {
        return Err(Unwritten::TooLarge);
    }
    let length = file_length(n);
    if (file.len() as u64) < length {
        return Err(Unwritten::Room);
    }
    let mut header = vec![];
    header.extend(b"RIFF");
    header.extend(((length - 8) as u32).to_le_bytes());
    header.extend(b"WAVEfmt ");
    header.extend((FMT as u32).to_le_bytes());
    header.extend(PCM.to_le_bytes());
    header.extend(u16::from(channels).to_le_bytes());
    header.extend(hz.to_le_bytes());
    header.extend((hz * block as u32).to_le_bytes());
    header.extend((block as u16).to_le_bytes());
    header.extend(u16::from(SAMPLE[format as usize]).to_le_bytes());
    header.extend(b"data");
    header.extend((n as u32).to_le_bytes());
    let (front, rest) = file.split_at_mut(header.len());
    front.copy_from_slice(&header);
    rest[..frames.len()].copy_from_slice(frames);
    // the pad
    rest[frames.len()..(length - HEADER) as usize].fill(0);
    Ok(length)
}
