//! Files that QEMU was handed: `-fw_cfg name=opt/console/NAME,file=..`.
use crate::memory::Arena;
use crate::port::{FILE_DATA, FILE_SELECT};
use crate::timer::{SECOND, Timer};
use core::arch::asm;
use core::ptr::{read_volatile, write_volatile};
use page::InFile;
use sha256::Sum;
use snd::wav::{self, Wave};
use snd::{Format, Params, Rate, Refusal};

const SIGNATURE: u16 = 0;
const ID: u16 = 1;
const ID_DMA: u32 = 2;
const MEMORY_SIZE: u16 = 3;
const DIRECTORY: u16 = 0x19;
/// As many entries as fw_cfg can have.
const MOST_FILES: u32 = 0x4000;
/// Before every name.
const FOLDER: &str = "opt/console/";
/// Files that are kept; more are read again each time.
const KEPT: usize = 32;

const DMA_HIGH: u16 = 0x514;
const DMA_LOW: u16 = 0x518;
const DMA_ERROR: u32 = 1;
const DMA_READ: u32 = 2;
const DMA_SELECT: u32 = 8;

/// What fw_cfg is told to copy: numbers of the other order.
#[repr(C, align(16))]
struct Copying {
    control: u32,
    length: u32,
    address: u64,
}

/// An announcement, for good.
#[derive(Clone, Copy)]
pub struct Recording {
    pub name: &'static str,
    pub frames: &'static [u8],
    pub sha256: Sum,
    /// What a WAVE file says of itself; none of raw frames.
    pub wave: Option<Result<InWave, Refusal>>,
}

/// What the frames of a WAVE file are, and where in it they stand.
#[derive(Clone, Copy)]
pub struct InWave {
    pub channels: u8,
    pub format: Format,
    pub rate: Rate,
    pub file: InFile,
}

impl Recording {
    /// A file that begins so is read as a WAVE file, whatever its name; any other has raw frames, and so has one that is refused.
    fn of(name: &'static str, file: &'static [u8]) -> Self {
        let read = file.starts_with(b"RIFF").then(|| wav::read(file));
        let frames = match &read {
            Some(Ok(wave)) => wave.frames,
            _ => file,
        };
        let in_wave = |wave: Wave| InWave {
            channels: wave.channels,
            format: wave.format,
            rate: wave.rate,
            file: InFile {
                bytes: file.len(),
                // the frames are a part of the file
                offset: frames.as_ptr().addr().wrapping_sub(file.as_ptr().addr()),
            },
        };
        Self {
            name,
            frames,
            sha256: sha256::sum(frames),
            wave: read.map(|read| read.map(in_wave)),
        }
    }

    /// What the stream is set to: of a WAVE file what it says itself.
    pub fn params(&self, asked: &Params) -> Params {
        match self.wave {
            Some(Ok(InWave {
                channels, format, rate, ..
            })) => Params {
                channels,
                format,
                rate,
                ..*asked
            },
            _ => *asked,
        }
    }
}

pub struct Files {
    timer: Timer,
    arena: Arena,
    copying: &'static mut Copying,
    kept: [Option<Recording>; KEPT],
}

fn select(what: u16) {
    FILE_SELECT.write16(what);
}

fn bytes<const N: usize>() -> [u8; N] {
    core::array::from_fn(|_| FILE_DATA.read8())
}

/// Bytes of the machine's memory; `None` where there is no fw_cfg that copies by itself.
pub fn memory_size() -> Option<u64> {
    select(SIGNATURE);
    let there = bytes() == *b"QEMU";
    select(ID);
    let copies = u32::from_le_bytes(bytes()) & ID_DMA != 0;
    select(MEMORY_SIZE);
    (there && copies).then(|| u64::from_le_bytes(bytes()))
}

/// A file's number and size.
fn find(name: &str) -> Option<(u16, u32)> {
    select(DIRECTORY);
    let count = u32::from_be_bytes(bytes()).min(MOST_FILES);
    // an entry is read to its end before the next
    let mut entries = (0..count).map(|_| (bytes(), bytes(), bytes::<2>(), bytes::<56>()));
    let of_name = |entry: &[u8; 56]| {
        let mut letters = entry.split(|&letter| letter == 0);
        let path = letters.next().unwrap_or_default();
        path.strip_prefix(FOLDER.as_bytes()) == Some(name.as_bytes())
    };
    let (size, select, ..) = entries.find(|(.., entry)| of_name(entry))?;
    Some((u16::from_be_bytes(select), u32::from_be_bytes(size)))
}

impl Files {
    pub fn new(timer: Timer, mut arena: Arena) -> Option<Self> {
        let copying = arena.put(Copying {
            control: 0,
            length: 0,
            address: 0,
        })?;
        Some(Self {
            timer,
            arena,
            copying,
            kept: [None; KEPT],
        })
    }

    pub fn arena(&mut self) -> &mut Arena {
        &mut self.arena
    }

    /// The bytes of a file, for good; `None` if there is no such file, or no room.
    pub fn read(&mut self, name: &str) -> Option<&'static [u8]> {
        let (select, size) = find(name)?;
        let room = self.arena.bytes(size as usize)?;
        let control = u32::from(select) << 16 | DMA_SELECT | DMA_READ;
        let copying: *mut Copying = self.copying;
        let told = Copying {
            control: control.to_be(),
            length: size.to_be(),
            address: (room.as_mut_ptr().addr() as u64).to_be(),
        };
        let at = (copying.addr() as u32).to_be();
        // SAFETY: the order to copy lies in memory that is its own for good, below 4 GiB. The device is told the length of `room`, which nobody else has, and
        // which is not looked at before the copy has ended.
        unsafe {
            write_volatile(copying, told);
            asm!("out dx, eax", in("dx") DMA_HIGH, in("eax") 0u32, options(nostack, preserves_flags));
            asm!("out dx, eax", in("dx") DMA_LOW, in("eax") at, options(nostack, preserves_flags));
        }
        let ended = || {
            // SAFETY: as above; an aligned word is read whole.
            let left = u32::from_be(unsafe { read_volatile(&raw const (*copying).control) });
            (left == 0 || left & DMA_ERROR != 0).then_some(left)
        };
        // where it has not ended, the room stays the device's and nobody's
        (self.timer.within(SECOND, ended)? == 0).then_some(&*room)
    }

    /// A recording: read once, and kept.
    pub fn recording(&mut self, name: &'static str) -> Option<Recording> {
        let known = self.kept.iter().flatten().find(|kept| kept.name == name);
        if let Some(recording) = known {
            return Some(*recording);
        }
        let recording = Recording::of(name, self.read(name)?);
        if let Some(place) = self.kept.iter_mut().find(|place| place.is_none()) {
            *place = Some(recording);
        }
        Some(recording)
    }
}
