//! What is measured.
use crate::ways::Way;
use std::hint::black_box;

/// Periods of an announcement.
const PERIODS: usize = 10_000;

/// A piece of work.
#[derive(Clone, Copy, PartialEq, Eq)]
pub enum Work {
    Control,
    SetUp,
    Turn,
    TurnAlone,
    Announcement,
    LongTurn,
    LongTurnAlone,
    LongAnnouncement,
    Submission,
    LongSubmission,
    Capture,
    LongCapture,
    Event,
}

impl Work {
    pub const ALL: &[Self] = &[
        Self::Control,
        Self::SetUp,
        Self::Turn,
        Self::TurnAlone,
        Self::Announcement,
        Self::LongTurn,
        Self::LongTurnAlone,
        Self::LongAnnouncement,
        Self::Submission,
        Self::LongSubmission,
        Self::Capture,
        Self::LongCapture,
        Self::Event,
    ];

    pub const fn name(self) -> &'static str {
        match self {
            Self::Control => "control",
            Self::SetUp => "set-up",
            Self::Turn => "turn",
            Self::TurnAlone => "turn-alone",
            Self::Announcement => "announcement",
            Self::LongTurn => "long-turn",
            Self::LongTurnAlone => "long-turn-alone",
            Self::LongAnnouncement => "long-announcement",
            Self::Submission => "submission",
            Self::LongSubmission => "long-submission",
            Self::Capture => "capture",
            Self::LongCapture => "long-capture",
            Self::Event => "event",
        }
    }

    pub const fn title(self) -> &'static str {
        match self {
            Self::Control => "a control call with its answer",
            Self::SetUp => "set-up with full tables",
            Self::Turn => "one turn, with what it offers",
            Self::TurnAlone => "one turn alone",
            Self::Announcement => "an announcement of 10,000 periods",
            Self::LongTurn => "one turn, frames 1,000 times longer",
            Self::LongTurnAlone => "one turn alone, frames 1,000 times longer",
            Self::LongAnnouncement => "an announcement, frames 1,000 times longer",
            Self::Submission => "a submission, its mark and its finish",
            Self::LongSubmission => "the same, a period 1,000 times longer",
            Self::Capture => "one turn of a capture, with what it offers",
            Self::LongCapture => "the same, a period 1,000 times longer",
            Self::Event => "an event",
        }
    }

    /// Whether the Rust has it too: its loop cannot be taken turn by turn, so its turn is a part of an announcement; and it has no captures.
    pub const fn both(self) -> bool {
        !matches!(
            self,
            Self::TurnAlone | Self::LongTurnAlone | Self::Capture | Self::LongCapture
        )
    }

    /// Bytes of a period.
    const fn period(self) -> u32 {
        match self {
            Self::LongTurn
            | Self::LongTurnAlone
            | Self::LongAnnouncement
            | Self::LongSubmission
            | Self::LongCapture => 4000,
            _ => 4,
        }
    }

    /// The frames of its announcement, if it has one; of a submission its period.
    pub fn frames(self) -> Vec<u8> {
        match self {
            Self::Control | Self::SetUp | Self::Event => vec![],
            Self::Submission | Self::LongSubmission => vec![0x55; self.period() as usize],
            _ => vec![0x55; PERIODS * self.period() as usize],
        }
    }
}

/// Does it `times` times, and says how many units of it that were: turns for a turn, else `times`.
pub fn run(work: Work, way: &mut dyn Way, frames: &[u8], times: u64) -> u64 {
    if !frames.is_empty() {
        way.set_period(work.period());
    }
    let mut once = || {
        match work {
            Work::Control => way.control(),
            Work::SetUp => way.set_up(),
            Work::Event => way.event(),
            Work::Turn | Work::LongTurn => return way.announce(frames),
            Work::TurnAlone | Work::LongTurnAlone => return way.announce_blindly(frames),
            Work::Announcement | Work::LongAnnouncement => _ = way.announce(frames),
            Work::Submission | Work::LongSubmission => way.submit(frames),
            Work::Capture | Work::LongCapture => return way.capture(PERIODS, work.period() as usize),
        }
        1
    };
    // held back from the optimiser, so that the function below is called and not jumped to
    black_box(counted(&mut once, times))
}

/// tools/instructions counts inside this function, by its name.
#[inline(never)]
fn counted(once: &mut dyn FnMut() -> u64, times: u64) -> u64 {
    (0..times).map(|_| once()).sum()
}
