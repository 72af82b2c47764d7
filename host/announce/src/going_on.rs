//! Speaks without waiting: periods are submitted, and the console goes on; it polls its breakers meanwhile.
use crate::breakers::Breakers;
use crate::form::Form;
use crate::progress::Progress;
use crate::speak::{Console, of};
use crate::told::{GoingOn, Refused, When};
use snd::{Format, Reading, Refusal, Submitted};
use std::time::Instant;

const CALL: &str = "submission";
const FINISH: &str = "finish";
/// No answer of the driver, which knows no budget here.
const BUDGET: &str = "the console's own budget";

/// A byte of silence. Of the formats that are spoken only one has its middle elsewhere than at 0.
const fn silence(form: Form) -> u8 {
    match form.format {
        Format::U8 => 0x80,
        _ => 0,
    }
}

impl Console {
    /// In every turn at most one period goes out, the breakers are polled, and the queue is looked at once. The turns allowed are the
    /// console's own here: no call of the driver waits for anything.
    pub fn go_on(&mut self, stream: u32, form: Form, period: usize, frames: &[u8]) -> Result<(), Refused> {
        let (mut breakers, mut offset) = (Breakers::default(), 0);
        self.most = 0;
        let ended = self.submit_all(stream, form, period, frames, &mut breakers, &mut offset);
        let whole = if offset == frames.len() { period } else { 1 };
        self.told.going_on = Some(GoingOn {
            polled: breakers.polled(),
            opened: breakers.opened(),
            most: self.most,
            filled: offset.next_multiple_of(whole) - offset,
        });
        ended
    }

    fn submit_all(
        &mut self,
        stream: u32,
        form: Form,
        period: usize,
        frames: &[u8],
        breakers: &mut Breakers,
        offset: &mut usize,
    ) -> Result<(), Refused> {
        let mut progress = Progress::new(frames.len());
        loop {
            let pending = of(CALL, self.sound.pending_count())?;
            if *offset == frames.len() && pending == 0 {
                return Ok(());
            }
            if self.told.turns == self.told.allowed {
                return Err((BUDGET, Refusal::OutOfTurns));
            }
            let (turn, began) = (self.told.turns + 1, Instant::now());
            let next = frames.get(*offset..).unwrap_or_default();
            let next = next.get(..period).unwrap_or(next);
            if !next.is_empty() && self.submit(turn, stream, *offset, next, period, silence(form))? {
                *offset += next.len();
                progress.at(*offset);
            }
            self.most = self.most.max(of(CALL, self.sound.pending_count())?);
            breakers.poll();
            let reading = of("model device", self.device.poll(When::Transfer(turn)))?;
            let said = self.completed(reading);
            self.told.turned(began.elapsed());
            said?;
        }
    }

    /// Submits a period, the last of them filled up; false where every place is taken.
    fn submit(
        &mut self,
        turn: u64,
        stream: u32,
        offset: usize,
        period: &[u8],
        size: usize,
        silence: u8,
    ) -> Result<bool, Refused> {
        let mut payload = period.to_vec();
        payload.resize(size, silence);
        let said = self.sound.pcm_xfer_nb(&self.ring, stream, &payload, &mut self.places);
        match said {
            Ok(Submitted::Token(token)) => {
                let request = self.places.request(token).unwrap_or_default();
                self.device.submit(turn, token, offset, period.len(), request);
                Ok(true)
            }
            // the next turn tries again
            Err(Refusal::Full) => Ok(false),
            // set-up is done
            Ok(Submitted::SetUp(_)) => Err((CALL, Refusal::Unknown)),
            Err(refusal) => Err((CALL, refusal)),
        }
    }

    /// Marks what came back, and finishes it.
    fn completed(&mut self, reading: Reading) -> Result<(), Refused> {
        of("completion", self.sound.pcm_xfer_mark(reading))?;
        match reading {
            Reading::Quiet => Ok(()),
            Reading::Completed { slot: token, .. } => of(FINISH, self.sound.pcm_xfer_ok(&mut self.places, token)),
        }
    }

    /// After an announcement that was broken off: takes back what is pending, in as many turns as a drain has.
    pub fn take_back(&mut self, slow: u64) -> Result<(), Refused> {
        self.told.owed = of(CALL, self.sound.pending_count())?;
        self.told.drain_allowed = slow.saturating_mul(self.told.owed + 1);
        for turn in 1..=self.told.drain_allowed {
            if of(CALL, self.sound.pending_count())? == 0 {
                return Ok(());
            }
            let reading = of("model device", self.device.poll(When::Drain(turn)))?;
            self.told.drain_turns = turn;
            match self.completed(reading) {
                // its place is free, whatever its status was
                Ok(()) | Err((_, Refusal::IoError(_))) => {}
                Err(refused) => return Err(refused),
            }
        }
        match of(CALL, self.sound.pending_count())? {
            0 => Ok(()),
            _still_pending => Err((BUDGET, Refusal::OutOfTurns)),
        }
    }
}
