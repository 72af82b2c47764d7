//! What is tried: a device, and steps on its driver. A case can be written as one line and read again (text.rs).
use oracle::Tokens;
use rules::sound::Call;
use rules::wire::SIZES;

#[derive(Clone, Debug, PartialEq)]
pub struct Case {
    /// configured: jacks, streams, maps
    pub counts: [u32; 3],
    pub tokens: Tokens,
    /// the seed of a model device's tables, each as long as configured
    pub model: Option<u64>,
    /// each feed carries the length that the device wrote
    pub strict: bool,
    /// the state is made with the guard over each stream's lifecycle
    pub guard: bool,
    /// indirect descriptors are negotiated: the ring is made for them
    pub indirect: bool,
    pub steps: Vec<Step>,
}

#[derive(Clone, Debug, PartialEq)]
pub enum Step {
    Control {
        call: Call,
        answers: Vec<Answer>,
    },
    Transfer {
        stream: u32,
        frames: Frames,
        budget: u64,
        readings: Vec<Reading>,
        answers: Vec<Answer>,
    },
    /// drain turns
    Drain(Vec<Reading>),
    /// a capture of so many periods into a recording that holds these bytes before
    Capture {
        stream: u32,
        periods: u64,
        recording: Frames,
        budget: u64,
        heard: Vec<Heard>,
        answers: Vec<Answer>,
    },
    /// a submission that does not wait, with so many bytes of places lent
    Submit {
        stream: u32,
        payload: Frames,
        places: u32,
        answers: Vec<Answer>,
    },
    /// completion readings: the oldest is the lowest token that waits
    Mark(Vec<Reading>),
    /// the finish of a token
    Finish(u32),
    /// what the event queue holds
    Event(Option<Vec<u8>>),
    /// a request to the model device itself
    ModelControl(Vec<u8>),
    ModelTransfer(Vec<u8>),
    /// the configured counts
    Counts,
}

/// So many bytes that are told apart by a seed.
#[derive(Copy, Clone, Debug, PartialEq, Eq)]
pub struct Frames {
    pub len: u32,
    pub seed: u8,
}

impl Frames {
    pub fn bytes(&self) -> Vec<u8> {
        let byte = |i: u32| (i.wrapping_mul(167) ^ (i >> 8)).wrapping_add(self.seed as u32) as u8;
        (0..self.len).map(byte).collect()
    }
}

/// What the device makes of a control request.
#[derive(Clone, Debug, PartialEq, Eq)]
pub enum Answer {
    /// it writes the first `wrote` bytes of a status and a body; the rest of the page stays as it was. More than a page is what the queue
    /// says, and a page is written
    Wrote { status: u32, body: Body, wrote: u64 },
    /// the queue reports failure
    Failed,
    /// the model device answers
    Model,
}

impl Answer {
    pub fn page(status: u32) -> Self {
        Answer::Wrote { status, body: Body::ZERO, wrote: 4096 }
    }
    pub fn ok() -> Self {
        Self::page(0x8000)
    }
}

/// The bytes after the status, by a seed, with single bytes damaged.
#[derive(Clone, Debug, PartialEq, Eq)]
pub struct Body {
    pub kind: Kind,
    pub seed: u64,
    pub damage: Vec<(u16, u8)>,
}

#[derive(Copy, Clone, Debug, PartialEq, Eq)]
pub enum Kind {
    Zero,
    Noise,
    Jacks,
    Streams,
    Maps,
}

impl Body {
    pub const ZERO: Body = Body { kind: Kind::Zero, seed: 0, damage: vec![] };

    pub fn of(kind: Kind, seed: u64) -> Self {
        Body { kind, seed, damage: vec![] }
    }

    /// 4,092 bytes.
    pub fn bytes(&self) -> Vec<u8> {
        let mut bytes = vec![0; 4092];
        if self.kind != Kind::Zero {
            let mut rng = Rng(self.seed);
            bytes.chunks_mut(8).for_each(|b| b.copy_from_slice(&rng.word().to_le_bytes()[..b.len()]));
        }
        match self.kind {
            Kind::Zero | Kind::Noise => {}
            // half of the jacks can be remapped
            Kind::Jacks => bytes.chunks_mut(SIZES[0]).for_each(|r| r[4] &= 0x83),
            Kind::Streams => {
                bytes.chunks_exact_mut(SIZES[1]).for_each(|r| r[24] = [0, 0, 1, 1, 2, 255][r[24] as usize % 6])
            }
            Kind::Maps => bytes.chunks_exact_mut(SIZES[2]).for_each(|r| (r[4], r[5]) = (r[4] % 3, r[5] % 19)),
        }
        for &(at, byte) in &self.damage {
            bytes[at as usize % 4092] = byte;
        }
        bytes
    }
}

/// The tables of a model device: so many records of each kind.
pub fn model_tables(counts: [u32; 3], seed: u64) -> [Vec<Vec<u8>>; 3] {
    let kinds = [Kind::Jacks, Kind::Streams, Kind::Maps];
    std::array::from_fn(|t| {
        let bytes = Body::of(kinds[t], seed ^ t as u64).bytes();
        bytes.chunks_exact(SIZES[t]).take(counts[t] as usize).map(<[u8]>::to_vec).collect()
    })
}

/// What a turn reads.
#[derive(Copy, Clone, Debug, PartialEq, Eq)]
pub enum Reading {
    Quiet,
    /// the oldest in flight (slot 99 where there is none)
    Oldest {
        status: u32,
    },
    /// the k-th after the oldest; past the last in flight it is no slot in flight
    Later {
        k: u8,
        status: u32,
    },
    Slot {
        slot: u32,
        status: u32,
    },
    /// the oldest, with the status that the model device gives
    Device,
}

impl Reading {
    pub const DONE: Reading = Reading::Oldest { status: 0x8000 };
}

/// What a capture's turn reads: the length that the device says it wrote, and how many bytes the host lends. The reading's status stands
/// behind the payload, as far as it is lent.
#[derive(Copy, Clone, Debug, PartialEq, Eq)]
pub struct Heard {
    pub reading: Reading,
    pub written: u32,
    pub lent: u32,
}

impl Heard {
    pub const QUIET: Heard = Heard { reading: Reading::Quiet, written: 0, lent: 0 };

    /// Just what was written is lent.
    pub fn of(reading: Reading, written: u32) -> Self {
        Heard { reading, written, lent: written }
    }

    /// The bytes that are lent, with this status.
    pub fn bytes(&self, status: u32, seed: u8) -> Vec<u8> {
        lent_bytes(self.lent, self.written, status, seed)
    }
}

/// So many bytes of a device's buffer, told apart by a seed; the status stands 8 bytes before the end of what was written.
pub fn lent_bytes(lent: u32, written: u32, status: u32, seed: u8) -> Vec<u8> {
    let mut bytes = Frames { len: lent, seed }.bytes();
    let place = bytes.iter_mut().skip(written.saturating_sub(8) as usize);
    place.zip(status.to_le_bytes()).for_each(|(byte, of_status)| *byte = of_status);
    bytes
}

/// Numbers from a seed (splitmix64).
pub struct Rng(pub u64);

impl Rng {
    pub fn word(&mut self) -> u64 {
        self.0 = self.0.wrapping_add(0x9e37_79b9_7f4a_7c15);
        let mut z = self.0;
        z = (z ^ (z >> 30)).wrapping_mul(0xbf58_476d_1ce4_e5b9);
        z = (z ^ (z >> 27)).wrapping_mul(0x94d0_49bb_1331_11eb);
        z ^ (z >> 31)
    }
    pub fn below(&mut self, n: u64) -> u64 {
        self.word() % n
    }
    pub fn pick<T: Copy>(&mut self, from: &[T]) -> T {
        from[self.below(from.len() as u64) as usize]
    }
    pub fn one_in(&mut self, n: u64) -> bool {
        self.below(n) == 0
    }
}
