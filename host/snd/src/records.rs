//! The device's records, as the model device takes them. A real device answers with its own; the driver reads those.
use crate::bytes::put;

/// What a device says of a jack.
///
/// ```
/// use snd::JackInfo;
/// let jack = JackInfo { features: JackInfo::REMAP, connected: 1, ..JackInfo::default() };
/// assert_eq!(jack.to_bytes()[4], 1);
/// ```
#[derive(Clone, Copy, PartialEq, Eq, Debug, Default)]
#[allow(missing_docs)]
pub struct JackInfo {
    pub node: u32,
    pub features: u32,
    pub defconf: u32,
    pub caps: u32,
    pub connected: u8,
}

impl JackInfo {
    /// The feature bit of a jack that can be remapped.
    pub const REMAP: u32 = 1;

    /// The record as it stands in an answer page.
    #[must_use]
    pub fn to_bytes(&self) -> [u8; 24] {
        let mut bytes = [0; 24];
        put(&mut bytes, 0, &self.node.to_le_bytes());
        put(&mut bytes, 4, &self.features.to_le_bytes());
        put(&mut bytes, 8, &self.defconf.to_le_bytes());
        put(&mut bytes, 12, &self.caps.to_le_bytes());
        put(&mut bytes, 16, &[self.connected]);
        bytes
    }
}

/// What a device says of a stream.
///
/// ```
/// use snd::PcmInfo;
/// assert_eq!(PcmInfo::output(1, 2).to_bytes()[24..27], [0, 1, 2]);
/// ```
#[derive(Clone, Copy, PartialEq, Eq, Debug, Default)]
#[allow(missing_docs)]
pub struct PcmInfo {
    pub node: u32,
    pub features: u32,
    pub formats: u64,
    pub rates: u64,
    pub direction: u8,
    pub channels_min: u8,
    pub channels_max: u8,
}

impl PcmInfo {
    /// An output stream of every format and rate.
    #[must_use]
    pub fn output(channels_min: u8, channels_max: u8) -> Self {
        Self {
            formats: 0x01ff_ffff,
            rates: 0x3fff,
            channels_min,
            channels_max,
            ..Self::default()
        }
    }

    /// An input stream of every format and rate.
    #[must_use]
    pub fn input(channels_min: u8, channels_max: u8) -> Self {
        Self {
            direction: 1,
            ..Self::output(channels_min, channels_max)
        }
    }

    /// The record as it stands in an answer page.
    #[must_use]
    pub fn to_bytes(&self) -> [u8; 32] {
        let mut bytes = [0; 32];
        put(&mut bytes, 0, &self.node.to_le_bytes());
        put(&mut bytes, 4, &self.features.to_le_bytes());
        put(&mut bytes, 8, &self.formats.to_le_bytes());
        put(&mut bytes, 16, &self.rates.to_le_bytes());
        put(&mut bytes, 24, &[self.direction, self.channels_min, self.channels_max]);
        bytes
    }
}

/// What a device says of a channel map.
///
/// ```
/// use snd::ChannelMap;
/// let stereo = ChannelMap { channels: 2, ..ChannelMap::default() };
/// assert_eq!(stereo.to_bytes()[5], 2);
/// ```
#[derive(Clone, Copy, PartialEq, Eq, Debug, Default)]
#[allow(missing_docs)]
pub struct ChannelMap {
    pub node: u32,
    pub direction: u8,
    pub channels: u8,
    pub positions: [u8; 18],
}

impl ChannelMap {
    /// The record as it stands in an answer page.
    #[must_use]
    pub fn to_bytes(&self) -> [u8; 24] {
        let mut bytes = [0; 24];
        put(&mut bytes, 0, &self.node.to_le_bytes());
        put(&mut bytes, 4, &[self.direction, self.channels]);
        put(&mut bytes, 6, &self.positions);
        bytes
    }
}
