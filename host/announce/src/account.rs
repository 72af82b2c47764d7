//! What was accepted, place by place: each payload is compared with the frames at its own offset.
use crate::told::{Period, When};
pub use page::{Gap, Part, Same, Why};
use sha256::Sha256;

pub struct Account {
    pub accepted: Part,
    pub drained: Part,
    pub gaps: Vec<Gap>,
}

impl Account {
    /// Of `frames`, sent in periods of `size` bytes.
    pub fn new(frames: &[u8], size: usize, periods: &[Period]) -> Self {
        let of = |drain| {
            let taken = periods.iter().filter(move |period| in_drain(period) == drain);
            part(frames, size, taken)
        };
        Self {
            accepted: of(false),
            drained: of(true),
            gaps: page::gaps(frames.len(), size, missing(frames, size, periods)).collect(),
        }
    }

    /// Whether the device had accepted all the frames, in order, when the transfer answered.
    pub fn whole(&self, frames: &[u8]) -> bool {
        self.accepted.whole(frames.len())
    }
}

/// The payloads that were accepted when the transfer answered.
pub fn before_the_answer(periods: &[Period]) -> impl Iterator<Item = &Vec<u8>> {
    let before = periods.iter().filter(|period| !in_drain(period));
    before.filter_map(|period| period.payload.as_ref())
}

fn in_drain(period: &Period) -> bool {
    let completed = period.completed.map(|completed| completed.when);
    matches!(completed, Some(When::Drain(_)))
}

/// Whether a payload is the period of the frames that belongs in its place.
fn right(frames: &[u8], size: usize, offset: usize, payload: &[u8]) -> bool {
    let due = frames.get(offset..).map(|rest| rest.split_at(size.min(rest.len())).0);
    offset.is_multiple_of(size) && due == Some(payload)
}

fn part<'p>(frames: &[u8], size: usize, taken: impl Iterator<Item = &'p Period>) -> Part {
    let mut sum = Sha256::new();
    let mut part = Part {
        periods: 0,
        bytes: 0,
        sha256: None,
        same: Same::Nothing,
    };
    for period in taken {
        let Some(payload) = &period.payload else {
            continue;
        };
        part.same = match part.same {
            Same::Not { period } => Same::Not { period },
            _ if !right(frames, size, period.offset, payload) => Same::Not {
                period: period.offset / size + 1,
            },
            Same::Nothing => Same::Run { from: period.offset },
            Same::Run { from } if from + part.bytes == period.offset => Same::Run { from },
            Same::Run { .. } | Same::Places | Same::Told => Same::Places,
        };
        sum.update(payload);
        part.periods += 1;
        part.bytes += payload.len();
    }
    part.sha256 = Some(sum.sum());
    part
}

/// Why each period of the frames was not accepted; none for one that was.
fn missing(frames: &[u8], size: usize, periods: &[Period]) -> Vec<Option<Why>> {
    let mut missing = vec![Some(Why::NotSubmitted); frames.len().div_ceil(size)];
    for period in periods {
        let why = match (&period.payload, period.completed) {
            (Some(payload), _) if right(frames, size, period.offset, payload) => None,
            (Some(_), _) => Some(Why::OtherBytes),
            (None, Some(completed)) => Some(Why::Status(completed.status)),
            (None, None) => Some(Why::NotCompleted),
        };
        if let Some(place) = missing.get_mut(period.offset / size) {
            *place = why;
        }
    }
    missing
}

#[cfg(test)]
mod tests {
    use super::{Account, Gap, Same, Why};
    use crate::told::{Completed, Period, When};
    use snd::STATUS_OK;

    const FRAMES: &[u8] = b"aabbccd";

    fn accepted(offset: usize, payload: &[u8], when: When) -> Period {
        Period {
            slot: 0,
            offset,
            length: payload.len(),
            submitted: 1,
            completed: Some(Completed {
                when,
                status: STATUS_OK,
            }),
            payload: Some(payload.to_vec()),
        }
    }

    fn given(offset: usize, payload: &[u8]) -> Period {
        accepted(offset, payload, When::Transfer(1))
    }

    #[test]
    fn all_in_order() {
        let periods = [given(0, b"aa"), given(2, b"bb"), given(4, b"cc"), given(6, b"d")];
        let account = Account::new(FRAMES, 2, &periods);
        assert!(account.whole(FRAMES) && account.gaps.is_empty());
        assert_eq!(account.accepted.sha256, Some(sha256::sum(FRAMES)));
        assert_eq!(account.drained.same, Same::Nothing);
    }

    /// The same bytes, all of them, in another order: not the announcement.
    #[test]
    fn out_of_order() {
        let periods = [given(2, b"bb"), given(0, b"aa"), given(4, b"cc"), given(6, b"d")];
        let account = Account::new(FRAMES, 2, &periods);
        assert_eq!(account.accepted.same, Same::Places);
        assert!(!account.whole(FRAMES));
    }

    #[test]
    fn other_bytes_are_named() {
        let periods = [given(0, b"aa"), given(2, b"bx"), given(4, b"cc"), given(6, b"d")];
        let account = Account::new(FRAMES, 2, &periods);
        assert_eq!(account.accepted.same, Same::Not { period: 2 });
        assert!(!account.whole(FRAMES));
        let gap = Gap {
            first: 2,
            last: 2,
            offset: 2,
            length: 2,
            why: Why::OtherBytes,
        };
        assert_eq!(account.gaps, [gap]);
    }

    /// A payload cut short, too long, off its place or past the end is not the frames' period.
    #[test]
    fn wrong_lengths_and_places() {
        let wrong: [(usize, &[u8]); 5] = [(0, b"a"), (0, b"aab"), (1, b"ab"), (8, b""), (6, b"d\0")];
        for (offset, payload) in wrong {
            let account = Account::new(FRAMES, 2, &[given(offset, payload)]);
            let period = offset / 2 + 1;
            assert_eq!(account.accepted.same, Same::Not { period }, "{offset} {payload:?}");
        }
    }

    #[test]
    fn gaps_by_reason() {
        let mut failed = given(2, b"bb");
        failed.payload = None;
        failed.completed = Some(Completed {
            when: When::Drain(1),
            status: 0x8003,
        });
        let periods = [given(0, b"aa"), failed, accepted(4, b"cc", When::Drain(2))];
        let account = Account::new(FRAMES, 2, &periods);
        assert_eq!(account.accepted.same, Same::Run { from: 0 });
        assert_eq!(account.drained.same, Same::Run { from: 4 });
        let places: Vec<_> = account
            .gaps
            .iter()
            .map(|gap| (gap.first, gap.offset, gap.length))
            .collect();
        assert_eq!(places, [(2, 2, 2), (4, 6, 1)]);
        let reasons: Vec<_> = account.gaps.iter().map(|gap| gap.why).collect();
        assert_eq!(reasons, [Why::Status(0x8003), Why::NotSubmitted]);
    }
}
