//! The configuration and the events of a device of VirtIO 1.2 or 1.3.
use snd::{Config, Notification, Refusal, Sound, Version, latest_notification_in};

/// A new state for a device, by what its configuration space shows: of 16 bytes the first 12 where it has no control elements.
fn begin(shown: &[u8; 16], version: Version, features: u64) -> Result<(Sound, Config), Refusal> {
    let (part, _rest) = shown.split_at(Config::size(version, features));
    let config = Config::read(part, version, features)?;
    Ok((Sound::new(config.jacks, config.streams, config.chmaps), config))
}

/// The control element that an event says was changed.
fn changed(event: &[u8], version: Version, features: u64) -> Result<Option<u16>, Refusal> {
    match latest_notification_in(event, version, features)? {
        Some(Notification::Control { id, mask: _ }) => Ok(Some(id)),
        Some(Notification::Event(_)) | None => Ok(None),
    }
}

// Up to here the text of the page. What follows tries it.

/// A device that has control elements, and the same without their feature.
pub fn main() -> Result<(), Refusal> {
    let shown = [0, 0, 0, 0, 2, 0, 0, 0, 0, 0, 0, 0, 3, 0, 0, 0];
    let (sound, config) = begin(&shown, Version::V13, snd::F_CTLS)?;
    assert_eq!((sound.streams(), config.controls), (Ok(2), Some(3)));
    let (_sound, config) = begin(&shown, Version::V13, 0)?;
    assert_eq!(config.controls, None);
    let event = [0x00, 0x12, 0, 0, 2, 0, 1, 0];
    assert_eq!(changed(&event, Version::V13, snd::F_CTLS), Ok(Some(2)));
    assert_eq!(changed(&event, Version::V12, snd::F_CTLS), Err(Refusal::IoError(None)));
    Ok(())
}
