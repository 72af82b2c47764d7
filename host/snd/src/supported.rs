//! What a stream supports.
use crate::bytes::{Results, run, u64_at};
use crate::step::{Read, Value, narrow};
use crate::{Format, Rate, Refusal};
use core::ops::BitOr;

/// Makes a set of one kind of number: a bit for each.
macro_rules! set {
    ($(#[$doc:meta])* $set:ident of $one:ident) => {
        $(#[$doc])*
        #[derive(Clone, Copy, PartialEq, Eq, Debug, Default, Hash)]
        pub struct $set(u64);

        impl $set {
            /// The set of these bits, unknown ones kept.
            #[must_use]
            pub const fn from_bits(bits: u64) -> Self {
                Self(bits)
            }

            /// Its bits, as the device said them.
            #[must_use]
            pub const fn bits(self) -> u64 {
                self.0
            }

            /// Whether it is in the set.
            #[must_use]
            pub const fn has(self, one: $one) -> bool {
                self.0.wrapping_shr(one as u32) & 1 != 0
            }
        }

        impl Value for $set {}
        impl Read for $set {
            fn read(result: &Results) -> Result<Self, Refusal> {
                Ok(Self(u64_at(result, 0)))
            }
        }
    };
}

set! {
    /// The formats that a stream supports.
    ///
    /// ```
    /// use snd::{Format, Formats};
    /// let formats = Formats::from_bits(1 << 63 | 1 << 5);
    /// assert!(formats.has(Format::S16) && !formats.has(Format::U16));
    /// assert_eq!(formats.bits() >> 63, 1); // unknown bits are kept
    /// ```
    Formats of Format
}

set! {
    /// The rates that a stream supports.
    ///
    /// ```
    /// use snd::{Rate, Rates};
    /// let rates = Rates::from_bits(1 << 7);
    /// assert!(rates.has(Rate::Hz48000) && !rates.has(Rate::Hz44100));
    /// ```
    Rates of Rate
}

/// The features that a stream supports, by the names of VirtIO 1.2, 5.14.6.6.2.
///
/// ```
/// use snd::Features;
/// let features = Features::from_bits(0x8000_0014);
/// assert!(features.has(Features::MSG_POLLING | Features::EVT_XRUNS));
/// assert!(!features.has(Features::SHMEM_HOST));
/// assert_eq!(features.bits(), 0x8000_0014); // unknown bits are kept
/// ```
#[derive(Clone, Copy, PartialEq, Eq, Debug, Default, Hash)]
pub struct Features(u32);

impl Features {
    /// The device can share its memory with the driver.
    pub const SHMEM_HOST: Self = Self(1 << 0);
    /// The driver can share its memory with the device.
    pub const SHMEM_GUEST: Self = Self(1 << 1);
    /// Polling instead of notifications, where frames go in messages.
    pub const MSG_POLLING: Self = Self(1 << 2);
    /// Events for periods elapsed, where memory is shared.
    pub const EVT_SHMEM_PERIODS: Self = Self(1 << 3);
    /// Events for under- and overruns: [`crate::EventKind::PcmXrun`].
    pub const EVT_XRUNS: Self = Self(1 << 4);

    /// The features of these bits, unknown ones kept.
    #[must_use]
    pub const fn from_bits(bits: u32) -> Self {
        Self(bits)
    }

    /// Their bits, as the device said them, and as [`crate::Params::features`] takes them.
    #[must_use]
    pub const fn bits(self) -> u32 {
        self.0
    }

    /// Whether all of `features` are there.
    #[must_use]
    pub const fn has(self, features: Self) -> bool {
        self.0 & features.0 == features.0
    }
}

impl BitOr for Features {
    type Output = Self;

    fn bitor(self, other: Self) -> Self {
        Self(self.0 | other.0)
    }
}

impl Value for Features {}
impl Read for Features {
    fn read(result: &Results) -> Result<Self, Refusal> {
        narrow(result).map(Self)
    }
}

/// How many channels a stream may have.
#[derive(Clone, Copy, PartialEq, Eq, Debug, Default)]
pub struct ChannelRange {
    /// The fewest.
    pub min: u8,
    /// The most.
    pub max: u8,
}

impl Value for ChannelRange {}
impl Read for ChannelRange {
    fn read(result: &Results) -> Result<Self, Refusal> {
        let [min, max] = run(result, 0);
        Ok(Self { min, max })
    }
}

#[cfg(test)]
mod tests {
    use super::{Features, Read};
    use crate::{RESULT_SIZE, Refusal};

    #[test]
    fn features_past_their_record_are_no_answer() {
        let mut result = [0; RESULT_SIZE];
        result[3] = 0x80;
        assert_eq!(Features::read(&result), Ok(Features(0x8000_0000)));
        result[4] = 1;
        assert_eq!(Features::read(&result), Err(Refusal::Unknown));
    }
}
