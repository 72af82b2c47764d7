//! Events.
use crate::answer::Said;
use crate::bytes::u32_at;
use crate::{RESULT_SIZE, Refusal, ffi};

/// What happened at the device.
#[derive(Clone, Copy, PartialEq, Eq, Debug)]
#[repr(u32)]
pub enum EventKind {
    /// A jack was plugged in; the data is its id.
    JackConnected = 0x1000,
    /// A jack was unplugged; the data is its id.
    JackDisconnected = 0x1001,
    /// A period has elapsed; the data is the stream's id.
    PcmPeriodElapsed = 0x1100,
    /// The device ran out of frames or of room; the data is the stream's id.
    PcmXrun = 0x1101,
}

impl EventKind {
    const fn of(code: u32) -> Option<Self> {
        match code {
            0x1000 => Some(Self::JackConnected),
            0x1001 => Some(Self::JackDisconnected),
            0x1100 => Some(Self::PcmPeriodElapsed),
            0x1101 => Some(Self::PcmXrun),
            _ => None,
        }
    }
}

/// An event: its kind, and the id of the jack or stream.
#[derive(Clone, Copy, PartialEq, Eq, Debug)]
pub struct Event {
    /// What happened.
    pub kind: EventKind,
    /// The id of the jack or stream.
    pub data: u32,
}

/// What the bytes of an event queue's buffer say. Bytes that are not 8 say nothing; an unknown code is [`Refusal::IoError`], by
/// no status: an event's code is none.
///
/// ```
/// use snd::{latest_notification, Event, EventKind, Refusal};
/// let event = latest_notification(&[0x00, 0x10, 0, 0, 3, 0, 0, 0])?;
/// assert_eq!(event, Some(Event { kind: EventKind::JackConnected, data: 3 }));
/// assert_eq!(latest_notification(&[0; 7])?, None);
/// assert_eq!(latest_notification(&[0x02, 0x10, 0, 0, 3, 0, 0, 0]), Err(Refusal::IoError(None)));
/// # Ok::<(), Refusal>(())
/// ```
pub fn latest_notification(event: &[u8]) -> Result<Option<Event>, Refusal> {
    let mut result = [0; RESULT_SIZE];
    let answer = ffi::snd_latest_notification(event, &mut result);
    event_of(answer, &result)
}

/// What an entry answered of an event of document 01.
pub(crate) fn event_of(answer: u64, result: &[u8; RESULT_SIZE]) -> Result<Option<Event>, Refusal> {
    match Said::of(answer) {
        Said::Ok => {
            let kind = EventKind::of(u32_at(result, 0)).ok_or(Refusal::Unknown)?;
            let data = u32_at(result, 4);
            Ok(Some(Event { kind, data }))
        }
        Said::Nothing => Ok(None),
        Said::Refused(refusal) => Err(refusal),
        Said::Send(_) | Said::Going => Err(Refusal::Unknown),
    }
}
