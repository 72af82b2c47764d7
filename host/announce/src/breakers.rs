//! What the console has to do besides: a made-up breaker that it polls.

/// A feeder's breaker, which opens when it is polled for the 20th time, and stays open.
#[derive(Default)]
pub struct Breakers {
    polled: u64,
}

impl Breakers {
    const OPENS: u64 = 20;

    /// Looks at it once.
    pub fn poll(&mut self) {
        self.polled += 1;
    }

    /// How often it was polled.
    pub const fn polled(&self) -> u64 {
        self.polled
    }

    /// At which poll it was seen to be open first.
    pub fn opened(&self) -> Option<u64> {
        (self.polled >= Self::OPENS).then_some(Self::OPENS)
    }
}
