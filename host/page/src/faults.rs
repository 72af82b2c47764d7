//! What a device did wrong, and when.
use core::fmt;
use snd::{Refusal, Status};

/// A turn, counted from 1: of the transfer, or of the drain after it.
#[derive(Clone, Copy, PartialEq, Eq, Debug)]
pub enum When {
    /// Of the transfer.
    Transfer(u64),
    /// Of the drain.
    Drain(u64),
}

impl When {
    /// Its name.
    #[must_use]
    pub const fn phase(self) -> &'static str {
        match self {
            Self::Transfer(_) => "transfer",
            Self::Drain(_) => "drain",
        }
    }

    /// Its number.
    #[must_use]
    pub const fn turn(self) -> u64 {
        match self {
            Self::Transfer(turn) | Self::Drain(turn) => turn,
        }
    }
}

impl fmt::Display for When {
    fn fmt(&self, f: &mut fmt::Formatter<'_>) -> fmt::Result {
        write!(f, "{} turn {}", self.phase(), self.turn())
    }
}

/// What the device did wrong.
#[derive(Clone, Copy, PartialEq, Eq, Debug)]
pub enum What {
    /// A completion that does not name the slot that is due.
    WrongSlot {
        /// Which completion.
        completion: u64,
        /// The slot that it named; `u32::MAX` for one of nothing that is out, as a device may make after a reset.
        named: u32,
        /// The oldest slot in flight.
        due: u32,
    },
    /// A period that came back with another status than ok.
    Status {
        /// Which period, counted from 1.
        period: usize,
        /// Its status.
        status: u32,
    },
    /// A captured period that came back with a length that cannot be.
    Written {
        /// Which period, counted from 1.
        period: usize,
        /// The length that the queue reported.
        written: u32,
        /// Bytes of a period and its status.
        most: u64,
    },
}

impl fmt::Display for What {
    fn fmt(&self, f: &mut fmt::Formatter<'_>) -> fmt::Result {
        match self {
            Self::WrongSlot {
                completion,
                named: u32::MAX,
                due,
            } => write!(
                f,
                "completion {completion} was of nothing that is out; slot {due} was due"
            ),
            Self::WrongSlot { completion, named, due } => {
                write!(f, "completion {completion} named slot {named}; slot {due} was due")
            }
            Self::Status { period, status } => write!(f, "period {period} {}", CameBack(*status)),
            Self::Written { period, written, most } => {
                write!(
                    f,
                    "period {period} came back with {written} bytes written; 8 to {most} are good"
                )
            }
        }
    }
}

/// With which status a period came back.
pub(crate) struct CameBack(pub u32);

impl fmt::Display for CameBack {
    fn fmt(&self, f: &mut fmt::Formatter<'_>) -> fmt::Result {
        match Status::of(self.0) {
            None => f.write_str("came back with ok"),
            Some(status) => write!(f, "came back with status {status}"),
        }
    }
}

/// What the device did wrong, and when.
#[derive(Clone, Copy, PartialEq, Eq, Debug)]
pub struct Fault {
    /// In which turn.
    pub when: When,
    /// What.
    pub what: What,
}

impl fmt::Display for Fault {
    fn fmt(&self, f: &mut fmt::Formatter<'_>) -> fmt::Result {
        write!(f, "{}: {}", self.when, self.what)
    }
}

/// That a period came back.
#[derive(Clone, Copy, PartialEq, Eq, Debug)]
pub struct Completed {
    /// In which turn.
    pub when: When,
    /// With which status.
    pub status: u32,
}

/// The call that was refused, and with what.
pub type Refused = (&'static str, Refusal);
