//! virtio-mmio, version 2: the window of one device.
use crate::timer::{SECOND, Timer};
use core::fmt;
use core::ptr::{read_volatile, write_volatile};
use queue::{LENGTH, Places, Queue};

/// Where QEMU's microvm has its windows.
const FIRST: usize = 0xfeb0_0000;
const WINDOW: usize = 0x200;
const WINDOWS: usize = 24;

const MAGIC: u32 = 0x7472_6976;
const VERSION: u32 = 2;
const SOUND: u32 = 25;

/// Registers, by their offsets.
#[derive(Clone, Copy)]
#[repr(usize)]
enum Register {
    Magic = 0x000,
    Version = 0x004,
    Device = 0x008,
    Offered = 0x010,
    OfferedSelect = 0x014,
    Taken = 0x020,
    TakenSelect = 0x024,
    QueueSelect = 0x030,
    QueueMost = 0x034,
    QueueLength = 0x038,
    QueueReady = 0x044,
    Notify = 0x050,
    Status = 0x070,
    Descriptors = 0x080,
    DescriptorsHigh = 0x084,
    Available = 0x090,
    AvailableHigh = 0x094,
    Used = 0x0a0,
    UsedHigh = 0x0a4,
    Generation = 0x0fc,
    Jacks = 0x100,
    Streams = 0x104,
    ChannelMaps = 0x108,
}

const ACKNOWLEDGE: u32 = 1;
const DRIVER: u32 = 2;
const DRIVER_OK: u32 = 4;
const FEATURES_OK: u32 = 8;
const NEEDS_RESET: u32 = 0x40;
/// The features that the console uses: bit 32, a device of VirtIO 1; and where it is asked for, bit 28, indirect descriptors.
const VERSION_1: u64 = 1 << 32;
const INDIRECT: u64 = 1 << 28;

/// Why there is no device to speak through.
#[derive(Clone, Copy, Debug)]
pub enum Fault {
    NoDevice,
    OtherVersion(u32),
    OldDevice,
    NoIndirect,
    FeatureRefused,
    NoReset,
    NoMemory,
    QueueShort(u32),
    QueueInUse(u32),
    CountsChange,
}

impl fmt::Display for Fault {
    fn fmt(&self, f: &mut fmt::Formatter<'_>) -> fmt::Result {
        match self {
            Self::NoDevice => write!(f, "no window has a sound device"),
            Self::OtherVersion(version) => write!(f, "the window is of version {version}; {VERSION} is known"),
            Self::OldDevice => write!(f, "the device is none of VirtIO 1"),
            Self::NoIndirect => write!(f, "the device has no indirect descriptors"),
            Self::FeatureRefused => write!(f, "the device does not agree to the features"),
            Self::NoReset => write!(f, "the device does not come out of its reset"),
            Self::NoMemory => write!(f, "there is no memory for a queue"),
            Self::QueueShort(index) => write!(f, "queue {index} is too short"),
            Self::QueueInUse(index) => write!(f, "queue {index} is in use after a reset"),
            Self::CountsChange => write!(f, "the device's configuration keeps changing"),
        }
    }
}

/// How many of each the device's configuration names.
#[derive(Clone, Copy)]
pub struct Counts {
    pub jacks: u32,
    pub streams: u32,
    pub channel_maps: u32,
}

/// The window of the sound device.
pub struct Mmio {
    base: usize,
    timer: Timer,
}

impl Mmio {
    pub fn find(timer: Timer) -> Result<Self, Fault> {
        let mut windows = (0..WINDOWS).map(|window| Self {
            base: FIRST + window * WINDOW,
            timer,
        });
        let sound = |it: &Self| it.read(Register::Magic) == MAGIC && it.read(Register::Device) == SOUND;
        let found = windows.find(sound).ok_or(Fault::NoDevice)?;
        match found.read(Register::Version) {
            VERSION => Ok(found),
            other => Err(Fault::OtherVersion(other)),
        }
    }

    pub fn base(&self) -> usize {
        self.base
    }

    fn read(&self, register: Register) -> u32 {
        // SAFETY: a register in one of microvm's windows: mapped, aligned, and no memory of the program.
        unsafe { read_volatile((self.base + register as usize) as *const u32) }
    }

    fn write(&mut self, register: Register, value: u32) {
        // SAFETY: as above. The device uses memory only by the places that `hand` gives it: a queue's, which are that queue's and the device's for good.
        unsafe { write_volatile((self.base + register as usize) as *mut u32, value) }
    }

    /// Resets the device and agrees on VirtIO 1, on indirect descriptors where they are asked for, and on nothing else. Tells what was on offer.
    pub fn reset(&mut self, indirect: bool) -> Result<u64, Fault> {
        self.write(Register::Status, 0);
        let timer = self.timer;
        let done = timer.within(SECOND, || (self.read(Register::Status) == 0).then_some(()));
        done.ok_or(Fault::NoReset)?;
        self.write(Register::Status, ACKNOWLEDGE);
        self.write(Register::Status, ACKNOWLEDGE | DRIVER);
        let mut offered = 0;
        for half in [1, 0] {
            self.write(Register::OfferedSelect, half);
            offered = offered << 32 | u64::from(self.read(Register::Offered));
        }
        if offered & VERSION_1 == 0 {
            return Err(Fault::OldDevice);
        }
        let taken = if indirect { VERSION_1 | INDIRECT } else { VERSION_1 };
        if offered & taken != taken {
            return Err(Fault::NoIndirect);
        }
        for (half, taken) in [(0, taken as u32), (1, (taken >> 32) as u32)] {
            self.write(Register::TakenSelect, half);
            self.write(Register::Taken, taken);
        }
        self.write(Register::Status, ACKNOWLEDGE | DRIVER | FEATURES_OK);
        match self.read(Register::Status) & FEATURES_OK {
            0 => Err(Fault::FeatureRefused),
            _agreed => Ok(offered),
        }
    }

    /// Hands the device, just reset, an empty queue, with the descriptors that were agreed on.
    pub fn hand<const CHAINS: usize, const ANSWER: usize>(
        &mut self,
        index: u32,
        queue: &mut Queue<CHAINS, ANSWER>,
        indirect: bool,
    ) -> Result<(), Fault> {
        self.write(Register::QueueSelect, index);
        if self.read(Register::QueueReady) != 0 {
            return Err(Fault::QueueInUse(index));
        }
        if (self.read(Register::QueueMost) as usize) < LENGTH {
            return Err(Fault::QueueShort(index));
        }
        self.write(Register::QueueLength, LENGTH as u32);
        let Places {
            descriptors,
            available,
            used,
        } = if indirect {
            queue.empty_indirect()
        } else {
            queue.empty()
        };
        for (low, high, place) in [
            (Register::Descriptors, Register::DescriptorsHigh, descriptors),
            (Register::Available, Register::AvailableHigh, available),
            (Register::Used, Register::UsedHigh, used),
        ] {
            self.write(low, place as u32);
            self.write(high, (place >> 32) as u32);
        }
        self.write(Register::QueueReady, 1);
        Ok(())
    }

    /// The queues are there: the device may begin.
    pub fn ready(&mut self) {
        self.write(Register::Status, ACKNOWLEDGE | DRIVER | FEATURES_OK | DRIVER_OK);
    }

    /// There is something new in a queue.
    pub fn notify(&mut self, index: u32) {
        self.write(Register::Notify, index);
    }

    /// Whether the device says that only a reset helps.
    pub fn broken(&self) -> bool {
        self.read(Register::Status) & NEEDS_RESET != 0
    }

    pub fn counts(&self) -> Result<Counts, Fault> {
        let whole = || {
            let before = self.read(Register::Generation);
            let counts = Counts {
                jacks: self.read(Register::Jacks),
                streams: self.read(Register::Streams),
                channel_maps: self.read(Register::ChannelMaps),
            };
            (self.read(Register::Generation) == before).then_some(counts)
        };
        self.timer.within(SECOND, whole).ok_or(Fault::CountsChange)
    }
}
