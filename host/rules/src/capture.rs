//! Request 2026-09: receive turns. "A submission carries the stream id and a writable period, the completion gives the bytes written,
//! payload then the 8-byte status. Accepted payloads are joined into a lent recording."

use crate::ring::{Offer, Ring, Turn, Way};
use crate::sound::{Say, Sound};
use crate::status::{Status, Verdict};
use crate::wire::u32_at;
use crate::{BAD_CAPTURE, BAD_LENGTH};

/// The status after the payload: status 4, latency 4.
const STATUS: u64 = 8;

/// What a capture's turn saw.
#[derive(Copy, Clone, Debug, PartialEq, Eq)]
pub enum Heard<'a> {
    Quiet,
    /// the device says that it wrote so many bytes, and the host lends them
    Completed {
        slot: u32,
        written: u32,
        bytes: &'a [u8],
    },
}

impl<'a> Heard<'a> {
    /// Kind 0 is quiet, and nothing else is looked at; every other kind is completed.
    pub fn from_words(kind: u32, slot: u32, written: u32, bytes: &'a [u8]) -> Self {
        match kind {
            0 => Heard::Quiet,
            _ => Heard::Completed { slot, written, bytes },
        }
    }

    /// Fewer bytes are lent than the turn may have to read: those written, or those of a whole period where the device says that it wrote
    /// more.
    fn too_few(self, period: u64) -> bool {
        match self {
            Heard::Quiet => false,
            Heard::Completed { written, bytes, .. } => {
                (bytes.len() as u64) < u64::from(written).min(period.saturating_add(STATUS))
            }
        }
    }
}

/// What a completion of the oldest brings: its payload, or "17 BadCapture for a written length under 8 or above period plus 8, then 2".
fn payload(period: u64, written: u32, bytes: &[u8]) -> Result<&[u8], Verdict> {
    let length = u64::from(written).checked_sub(STATUS).filter(|length| *length <= period).ok_or(BAD_CAPTURE)?;
    let (payload, status) = bytes.split_at(length as usize);
    Status::read(u32_at(status, 0)).judged()?;
    Ok(payload)
}

impl Ring {
    /// A capture whose stream and period passed their checks begins: as a transfer, and last "a recording shorter than n periods gives 10".
    pub fn capture_start(&mut self, stream: u32, periods: u64, period: u64, recording_len: u64, budget: u64) -> Turn {
        if let Some(number) = self.bars_start(budget) {
            return Turn::ended(number);
        }
        let Some(frames_len) = periods.checked_mul(period).filter(|asked| *asked <= recording_len) else {
            return Turn::ended(BAD_LENGTH);
        };
        let lent = recording_len;
        self.begin(Ring { way: Way::Capture, stream, frames_len, lent, period, budget, ..Ring::default() })
    }

    /// The period that the next turn submits: its slot, and how many bytes the device may write before the status.
    pub fn capture_offered(&self, recording_len: u64) -> Result<Option<Offer>, u8> {
        match self.bars(Way::Capture, recording_len) {
            Some(number) => Err(number),
            None => Ok(self.next_offer()),
        }
    }

    /// "Only the recording's first accepted bytes change."
    pub fn capture_turn(&mut self, recording: &mut [u8], heard: Heard) -> Turn {
        if self.running && heard.too_few(self.period) {
            return Turn::ended(BAD_LENGTH);
        }
        if let Some(number) = self.bars(Way::Capture, recording.len() as u64) {
            return Turn::ended(number);
        }
        let Heard::Completed { slot, written, bytes } = heard else {
            return self.ruled(None, |_| Ok(()));
        };
        self.ruled(Some(slot), |ring| {
            let rest = &mut recording[ring.kept as usize..];
            let payload = payload(ring.period, written, bytes)?;
            // all of it, in a ring that calls left; in any other as far as the recording goes
            let length = payload.len().min(rest.len());
            rest[..length].copy_from_slice(&payload[..length]);
            ring.kept += length as u64;
            Ok(())
        })
    }
}

impl Sound {
    /// A capture of so many whole periods: it is a blocking transfer.
    pub fn capture_start(
        &mut self,
        ring: &mut Ring,
        stream: u32,
        periods: u64,
        recording_len: u64,
        budget: u64,
        message: &mut [u8],
    ) -> Say {
        let busy = self.busy_for_transfers(ring);
        match self.transfer_checks(ring, Way::Capture, stream, busy, message) {
            Ok(params) => ring.capture_start(stream, periods, params.period.into(), recording_len, budget).into(),
            Err(say) => say,
        }
    }
}
