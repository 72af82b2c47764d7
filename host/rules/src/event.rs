//! "An event of 8 bytes with code 0x1000, 0x1001, 0x1100 or 0x1101 gives its kind and data. Another code
//! gives 2; another length gives 'nothing'."

use crate::status::Verdict;
use crate::wire::u32_at;

#[derive(Copy, Clone, Debug, PartialEq, Eq)]
pub enum Event {
    Is { code: u32, data: u32 },
    Nothing,
    Refused(Verdict),
}

pub fn latest_notification(event: &[u8]) -> Event {
    if event.len() != 8 {
        return Event::Nothing;
    }
    match u32_at(event, 0) {
        code @ (0x1000 | 0x1001 | 0x1100 | 0x1101) => Event::Is { code, data: u32_at(event, 4) },
        // no status caused it: an event's code is none
        _ => Event::Refused(crate::IO_ERROR.into()),
    }
}
