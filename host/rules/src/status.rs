//! Request 2026-05: the device's status by its name, and answers that carry the status that caused them.

use crate::wire::{STATUS_BAD, STATUS_IO_ERROR, STATUS_NOT_SUPPORTED, STATUS_OK};
use crate::{IO_ERROR, OK, UNSUPPORTED};

/// "The status reader is to answer which of 0x8001, 0x8002, 0x8003 came, or the unknown number."
#[derive(Copy, Clone, Debug, PartialEq, Eq)]
pub enum Status {
    Ok,
    BadMessage,
    NotSupported,
    IoError,
    Unknown(u32),
}

impl Status {
    pub fn read(word: u32) -> Self {
        match word {
            STATUS_OK => Status::Ok,
            STATUS_BAD => Status::BadMessage,
            STATUS_NOT_SUPPORTED => Status::NotSupported,
            STATUS_IO_ERROR => Status::IoError,
            other => Status::Unknown(other),
        }
    }

    /// The device's own word: a status and its word determine each other.
    pub fn word(self) -> u32 {
        match self {
            Status::Ok => STATUS_OK,
            Status::BadMessage => STATUS_BAD,
            Status::NotSupported => STATUS_NOT_SUPPORTED,
            Status::IoError => STATUS_IO_ERROR,
            Status::Unknown(word) => word,
        }
    }

    /// The reader's own answer: it knows four codes, and says 2 with the number of any other.
    pub fn says(self) -> Verdict {
        match self {
            Status::Unknown(word) => Verdict::by(IO_ERROR, word),
            _ => OK.into(),
        }
    }

    /// What the driver makes of it: all but ok is 2.
    pub fn judged(self) -> Result<(), Verdict> {
        if self == Status::Ok { Ok(()) } else { Err(Verdict::by(IO_ERROR, self.word())) }
    }
}

/// An answer's number; "2 and 3 keep number and place and carry the status that caused them, or none".
#[derive(Copy, Clone, Debug, PartialEq, Eq)]
pub struct Verdict {
    pub number: u8,
    /// the device's own word; no other number has one
    pub cause: Option<u32>,
}

/// With no status that caused it.
impl From<u8> for Verdict {
    fn from(number: u8) -> Self {
        Verdict { number, cause: None }
    }
}

/// What stands in the high half of 2 and 3 where no status caused them: ok never does, and 0 may (a page that nobody wrote).
pub const NO_STATUS: u32 = STATUS_OK;

impl Verdict {
    pub fn by(number: u8, word: u32) -> Self {
        Verdict { number, cause: Some(word) }
    }

    /// At the C boundary: the low half is the number; of 2 and 3 the high half is the cause, of any other 0.
    pub fn answer(self) -> u64 {
        let high = match self.number {
            IO_ERROR | UNSUPPORTED => self.cause.unwrap_or(NO_STATUS),
            _ => 0,
        };
        u64::from(high) << 32 | u64::from(self.number)
    }
}
