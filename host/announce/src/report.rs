//! All that page, log and picture tell of an announcement.
use crate::account::{self, Account, Gap};
use crate::options::Options;
use crate::recording::Recording;
use crate::told::Told;
use page::{Built, Drain, Joined, Page, Stream, Times, Turns};

pub struct Report<'r> {
    pub options: &'r Options,
    pub recording: &'r Recording,
    parts: Vec<Joined<'r>>,
    pub told: Told,
    pub account: Account,
}

impl<'r> Report<'r> {
    pub fn new(options: &'r Options, recording: &'r Recording, told: Told) -> Self {
        let account = Account::new(&recording.frames, options.period as usize, &told.periods);
        let parts = recording.parts.iter().map(|part| Joined {
            name: &part.name,
            offset: part.offset,
            bytes: part.bytes,
        });
        Self {
            options,
            recording,
            parts: parts.collect(),
            told,
            account,
        }
    }

    /// The page of it.
    pub fn page<'p>(&'p self, built: Built<'p>) -> Page<'p> {
        let (options, recording, told, account) = (self.options, self.recording, &self.told, &self.account);
        Page {
            name: &recording.name,
            bytes: recording.frames.len(),
            file: recording.file,
            sha256: recording.sha256,
            parts: &self.parts,
            params: recording.form.params(options.buffer, options.period),
            strict: options.strict,
            guard: options.guard,
            indirect: options.indirect,
            virtio: told.virtio,
            jacks: told.jacks,
            going_on: told.going_on,
            stream: told.stream.map(|number| Stream {
                number,
                output: true,
                channels: told.channels,
            }),
            turns: Turns {
                run: told.turns,
                allowed: told.allowed,
                enough: told.enough,
                slow: options.slow,
            },
            submitted: told.periods.len() as u64,
            accepted: account.accepted,
            spoken: told.spoken,
            faults: &told.faults,
            owed: told.owed,
            drain: Drain {
                run: told.drain_turns,
                allowed: told.drain_allowed,
                accepted: account.drained,
            },
            gaps: &account.gaps,
            refused: told.refused,
            times: Times {
                longest: told.longest,
                whole: told.time,
            },
            built,
        }
    }

    /// The bytes that the device had accepted when the transfer answered.
    pub fn accepted(&self) -> impl Iterator<Item = &u8> {
        account::before_the_answer(&self.told.periods).flatten()
    }

    /// Whether the announcement was given: Ok, and the device had accepted all of it.
    pub fn given(&self) -> bool {
        self.told.answer() == snd::Answer::Ok && self.account.whole(&self.recording.frames)
    }

    /// Where speech broke off: the first place that was not accepted.
    pub fn broke_off(&self) -> Option<&Gap> {
        self.account.gaps.first()
    }

    /// How long the recording is, in seconds.
    pub fn seconds(&self) -> f64 {
        self.recording.form.second(self.recording.frames.len())
    }
}
