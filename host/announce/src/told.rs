//! What happened in one announcement, as it was seen.
pub use page::{Completed, Fault, GoingOn, Jacks, Refused, Virtio, What, When};
use snd::{Answer, ChannelRange};
use std::time::Duration;

/// A period that was submitted.
#[derive(Clone, PartialEq, Eq, Debug)]
pub struct Period {
    /// Of what does not wait, the token.
    pub slot: u32,
    /// Where it begins in the frames.
    pub offset: usize,
    pub length: usize,
    /// The turn of the transfer that submitted it.
    pub submitted: u64,
    pub completed: Option<Completed>,
    /// What the device took of it, if it accepted it.
    pub payload: Option<Vec<u8>>,
}

/// A control request, by its code, and how the device answered it.
#[derive(Clone, Copy, PartialEq, Eq, Debug)]
pub struct Control {
    pub code: u32,
    /// Bytes that it wrote.
    pub written: usize,
    /// The word at their front.
    pub status: u32,
}

#[derive(Default)]
pub struct Told {
    /// What the device showed of itself, where its version was named.
    pub virtio: Option<Virtio>,
    /// Known where the device cuts its answer to the query of jacks.
    pub jacks: Option<Jacks>,
    /// In the order in which they were sent, since the announcement before.
    pub controls: Vec<Control>,
    pub stream: Option<u32>,
    /// Known where it was spoken without waiting.
    pub going_on: Option<GoingOn>,
    pub channels: ChannelRange,
    pub refused: Option<Refused>,
    /// Turns that the budget allows.
    pub allowed: u64,
    /// Turns that are enough for this device: n·g + 1.
    pub enough: u64,
    pub turns: u64,
    /// In the order of submission.
    pub periods: Vec<Period>,
    /// In the order in which they came.
    pub faults: Vec<Fault>,
    /// Periods that were accepted by the driver's own count; none where they did not wait.
    pub spoken: Option<u64>,
    pub owed: u64,
    pub drain_turns: u64,
    pub drain_allowed: u64,
    /// What the transfer wrote, where a trace is asked for.
    pub trace: Vec<u8>,
    /// The longest turn of the transfer.
    pub longest: Duration,
    /// The whole transfer.
    pub time: Duration,
}

impl Told {
    pub fn answer(&self) -> Answer {
        self.refused.map_or(Answer::Ok, |(_call, refusal)| refusal.into())
    }

    /// The answer, what the device said where it refused, and to which call it was given.
    pub fn answered(&self) -> String {
        page::Answered(self.refused).to_string()
    }

    /// The same without what the device said, for a narrow place.
    pub fn answered_briefly(&self) -> String {
        let (answer, call) = (self.answer(), self.refused.map(|(call, _refusal)| call));
        let to = call.map_or(String::new(), |call| format!(", to {call}"));
        format!("{} {}{to}", answer.number(), answer.name())
    }

    /// Counts a turn of the transfer.
    pub fn turned(&mut self, time: Duration) {
        self.turns += 1;
        self.longest = self.longest.max(time);
    }

    /// No turn longer than the longest measured: how many seconds the budget allows. None where no turn ran.
    pub fn at_most(&self) -> Option<f64> {
        page::at_most(self.turns, self.allowed, self.longest)
    }
}
