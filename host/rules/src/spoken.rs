//! Request 2026-13: what was heard before a failure. "The accepted payloads are exactly the first k periods, the failing one is the next, and
//! those still owed follow it without a gap; for WrongToken and OutOfTurns the same without the failing one."

use crate::ring::Ring;
use crate::{BAD_CAPTURE, IO_ERROR};
use std::ops::Range;

/// The periods of a transfer that has ended, the first is 0, and how many bytes were spoken.
#[derive(Clone, Debug, PartialEq, Eq)]
pub struct Spoken {
    pub accepted: Range<u64>,
    /// the one that came back and was not accepted
    pub failing: Option<u64>,
    /// those that are still in flight
    pub owed: Range<u64>,
    pub bytes: u64,
}

impl Ring {
    /// k of the transfer that runs or ran last: the completions of its oldest slots that it took.
    pub fn accepted(&self) -> u64 {
        self.good
    }

    /// What became of the periods of a transfer that answered this, at its end: before any drain turn.
    pub fn spoken(&self, answer: u8) -> Spoken {
        let k = self.accepted();
        // the completion that a 6 is said of was ignored; at a 9 there is none
        let failing = matches!(answer, IO_ERROR | BAD_CAPTURE).then_some(k);
        let first = k + u64::from(failing.is_some());
        let bytes = k.saturating_mul(self.period).min(self.frames_len);
        Spoken { accepted: 0..k, failing, owed: first..first + self.in_flight, bytes }
    }
}
