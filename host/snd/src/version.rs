//! VirtIO 1.2 and 1.3: what a device has, and its events.
use crate::answer::Said;
use crate::bytes::u32_at;
use crate::event::{Event, event_of};
use crate::{RESULT_SIZE, Refusal, ffi};

/// The version of VirtIO that a device follows.
#[derive(Clone, Copy, PartialEq, Eq, Debug)]
#[repr(u32)]
pub enum Version {
    /// VirtIO 1.2.
    V12 = 0x0102,
    /// VirtIO 1.3: a device may have control elements.
    V13 = 0x0103,
}

/// `VIRTIO_SND_F_CTLS`: the bit of a device's features by which it has control elements, in VirtIO 1.3. 1.2 has no such feature.
pub const F_CTLS: u64 = 1;

/// What a device has: the counts of its configuration.
#[derive(Clone, Copy, PartialEq, Eq, Debug)]
pub struct Config {
    /// Jacks.
    pub jacks: u32,
    /// Streams.
    pub streams: u32,
    /// Channel maps.
    pub chmaps: u32,
    /// Control elements, where the device has them.
    pub controls: Option<u32>,
}

impl Config {
    /// How many bytes of its configuration a device of this version shows with these negotiated features: lend just these. 12, or 16 in 1.3
    /// with [`F_CTLS`].
    ///
    /// ```
    /// use snd::{Config, F_CTLS, Version};
    /// assert_eq!(Config::size(Version::V13, F_CTLS), 16);
    /// assert_eq!((Config::size(Version::V13, 0), Config::size(Version::V12, F_CTLS)), (12, 12));
    /// ```
    #[must_use]
    pub const fn size(version: Version, features: u64) -> usize {
        match version {
            Version::V13 if features & F_CTLS != 0 => 16,
            Version::V12 | Version::V13 => 12,
        }
    }

    /// Reads a configuration by the version and the negotiated features. 1.3 without [`F_CTLS`] reads as 1.2; a slice that is not of
    /// [`Config::size`] is [`Refusal::BadLength`].
    ///
    /// ```
    /// use snd::{Config, F_CTLS, Refusal, Version};
    /// let bytes = [1, 0, 0, 0, 2, 0, 0, 0, 0, 0, 0, 0, 5, 0, 0, 0];
    /// let all = Config { jacks: 1, streams: 2, chmaps: 0, controls: Some(5) };
    /// assert_eq!(Config::read(&bytes, Version::V13, F_CTLS), Ok(all));
    /// assert_eq!(Config::read(&bytes[..12], Version::V12, 0), Ok(Config { controls: None, ..all }));
    /// assert_eq!(Config::read(&bytes, Version::V12, 0), Err(Refusal::BadLength));
    /// ```
    pub fn read(bytes: &[u8], version: Version, features: u64) -> Result<Self, Refusal> {
        let mut result = [0; RESULT_SIZE];
        Said::done(ffi::snd_config(bytes, version as u32, features, &mut result))?;
        Ok(Self {
            jacks: u32_at(&result, 0),
            streams: u32_at(&result, 4),
            chmaps: u32_at(&result, 8),
            controls: (Self::size(version, features) == 16).then(|| u32_at(&result, 12)),
        })
    }
}

/// An event of a device that may have control elements.
#[derive(Clone, Copy, PartialEq, Eq, Debug)]
pub enum Notification {
    /// A jack's or a stream's.
    Event(Event),
    /// A control element changed.
    Control {
        /// Which.
        id: u16,
        /// What of it changed, as the device has it.
        mask: u16,
    },
}

/// What the bytes of an event queue's buffer say, by the version and the negotiated features. In 1.3 with [`F_CTLS`] code 0x1200 is a change of a
/// control element; elsewhere it is [`Refusal::IoError`], as every unknown code. The rest is as in [`crate::latest_notification`].
///
/// ```
/// use snd::{F_CTLS, Notification, Refusal, Version, latest_notification_in};
/// let change = [0x00, 0x12, 0, 0, 3, 0, 1, 0];
/// let said = latest_notification_in(&change, Version::V13, F_CTLS);
/// assert_eq!(said, Ok(Some(Notification::Control { id: 3, mask: 1 })));
/// assert_eq!(latest_notification_in(&change, Version::V13, 0), Err(Refusal::IoError(None)));
/// ```
pub fn latest_notification_in(event: &[u8], version: Version, features: u64) -> Result<Option<Notification>, Refusal> {
    let mut result = [0; RESULT_SIZE];
    let answer = ffi::snd_latest_notification_in(event, version as u32, features, &mut result);
    if matches!(Said::of(answer), Said::Ok) && u32_at(&result, 0) == 0x1200 {
        return Ok(Some(Notification::Control {
            id: u32_at(&result, 4) as u16,
            mask: u32_at(&result, 8) as u16,
        }));
    }
    Ok(event_of(answer, &result)?.map(Notification::Event))
}
