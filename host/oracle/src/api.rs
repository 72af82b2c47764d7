//! What the outside sees of the Rust driver, and what the driver's stand-ins ask of the outside.

/// A call of the driver, by the Rust's own name.
#[derive(Copy, Clone, Debug)]
pub enum Call<'a> {
    JackRemap(u32, u32, u32),
    PcmSetParams {
        stream: u32,
        buffer: u32,
        period: u32,
        features: u32,
        channels: u8,
        format: u8,
        rate: u8,
    },
    PcmPrepare(u32),
    PcmRelease(u32),
    PcmStart(u32),
    PcmStop(u32),
    PcmXfer(u32, &'a [u8]),
    PcmXferNb(u32, &'a [u8]),
    /// by the queue's own token
    PcmXferOk(u16),
    OutputStreams,
    InputStreams,
    RatesSupported(u32),
    FormatsSupported(u32),
    ChannelRangeSupported(u32),
    FeaturesSupported(u32),
    LatestNotification,
}

/// How a call ended.
#[derive(Clone, Debug, PartialEq, Eq)]
pub enum End {
    /// Ok is 0, an error has document 01's number, the queue's own failure 7; that it has no room 15, and that nothing is completed 16
    Number(u8),
    /// it panicked, and said this
    Panic(String),
    /// it would have gone on: the outside ended it
    Spins,
    /// it waits for an answer that the outside has not
    Waits,
}

/// What a control request comes to.
#[derive(Copy, Clone, Debug, PartialEq, Eq)]
pub enum Control {
    Answered,
    Failed,
    NoAnswer,
}

/// What the queues ask during one call.
pub trait Outside {
    /// A control request; the page is the driver's own and keeps what is not written.
    fn control(&mut self, request: &[u8], page: &mut [u8]) -> Control;
    /// A turn of a transfer begins, with so many descriptors free; false ends the run.
    fn turn(&mut self, free: usize) -> bool;
    /// Two buffers were added at a slot.
    fn submit(&mut self, slot: u16, stream: &[u8], payload: &[u8]);
    /// One buffer was added, under a token: what does not wait.
    fn submit_one(&mut self, token: u16, buffer: &[u8]);
    /// What this turn reads, given the slots in flight, oldest first: a slot and its status.
    fn reading(&mut self, flight: &[u16]) -> Option<(u32, u32)>;
    fn event(&mut self) -> Option<Vec<u8>>;
}

/// How the stand-in queue names what is in flight: by its slot, or by its first descriptor, as the real one does.
#[derive(Copy, Clone, Debug, PartialEq, Eq)]
pub enum Tokens {
    Slots,
    Descriptors,
}

/// What only a child module of sound.rs can see.
#[derive(Clone, Debug, PartialEq, Eq)]
pub struct Inside {
    pub set_up: bool,
    /// set or not, buffer, period, features, channels, format, rate
    pub params: Vec<[u32; 7]>,
    /// the records of jacks, streams, maps; none while set-up is not done
    pub tables: [Vec<Vec<u8>>; 3],
}

pub trait Sound {
    /// Makes a call; afterwards the outside is handed back.
    fn call(&mut self, call: Call, outside: Box<dyn Outside>) -> (End, Vec<u64>);
    fn counts(&self) -> [u32; 3];
    fn inside(&self) -> Inside;
    /// The slots in flight, oldest first.
    fn in_flight(&self) -> Vec<u16>;
    /// No call of the Rust: what a drain turn does to the queue, the slot being the oldest or not.
    fn drain(&mut self, slot: u32);
    /// The queue's tokens of what does not wait, as the driver keeps them.
    fn tokens(&self) -> Vec<u16>;
    /// No call of the Rust: the device has used what stands under a token.
    fn complete(&mut self, token: u16, status: u32);
}

/// The model device.
pub trait Model {
    /// One request; Err is what it panicked with.
    fn control(&mut self, request: &[u8]) -> Result<Vec<u8>, String>;
    fn transfer(&mut self, request: &[u8]) -> Result<Vec<u8>, String>;
    fn params(&self) -> Vec<Option<Vec<u8>>>;
    fn played(&self) -> Vec<Vec<u8>>;
}
