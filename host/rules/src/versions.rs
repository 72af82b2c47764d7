//! Request 2026-08: VirtIO 1.3 beside 1.2. "Decode 12 or 16 configuration bytes and events by the version and feature the caller names."
//!
//! Answers as at the C boundary, and the values: of a configuration its counts, of an event its kind and what it tells.

use crate::entries::{NOTHING, RESULT_SIZE};
use crate::event::{Event, latest_notification};
use crate::wire::{u16_at, u32_at};
use crate::{BAD_LENGTH, INVALID_PARAM, OK};

pub const V1_2: u32 = 0x0102;
pub const V1_3: u32 = 0x0103;
/// The feature bit of control elements; 1.2 has no such feature, and no other bit is looked at.
pub const CONTROLS: u64 = 1;
/// A control change.
pub const CTL_NOTIFY: u32 = 0x1200;

/// An event and each count of a configuration: jacks, streams, maps, and where there are controls theirs.
const EVENT: usize = 8;
const COUNT: usize = 4;

/// What is said, and with which values.
pub type Said = (u64, Vec<u32>);

fn refused(number: u8) -> Said {
    (number.into(), vec![])
}

/// "1.3 without the feature reads as 1.2."
pub fn has_controls(version: u32, features: u64) -> bool {
    version == V1_3 && features & CONTROLS != 0
}

fn known(version: u32) -> bool {
    version == V1_2 || version == V1_3
}

/// "A configuration of another length gives 10": of a version that is not known it is read as of one without controls, and then gives 1.
pub fn config(config: &[u8], version: u32, features: u64, result_len: usize) -> Said {
    let counts = if has_controls(version, features) { 4 } else { 3 };
    if result_len < RESULT_SIZE || config.len() != COUNT * counts {
        return refused(BAD_LENGTH);
    }
    if !known(version) {
        return refused(INVALID_PARAM);
    }
    (OK.into(), (0..counts).map(|at| u32_at(config, COUNT * at)).collect())
}

/// An event of the version that is named: "an event 0x1200 for a control change", and "1.2, where 0x1200 stays IoError".
pub fn notification(event: &[u8], version: u32, features: u64, result_len: usize) -> Said {
    if result_len < RESULT_SIZE {
        return refused(BAD_LENGTH);
    }
    if !known(version) {
        return refused(INVALID_PARAM);
    }
    if has_controls(version, features) && event.len() == EVENT && u32_at(event, 0) == CTL_NOTIFY {
        // control id and mask, any values
        return (OK.into(), vec![CTL_NOTIFY, u16_at(event, 4).into(), u16_at(event, 6).into()]);
    }
    match latest_notification(event) {
        Event::Is { code, data } => (OK.into(), vec![code, data]),
        Event::Nothing => (NOTHING, vec![]),
        Event::Refused(why) => (why.answer(), vec![]),
    }
}
