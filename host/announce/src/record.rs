//! Records from the microphone: the capture, the drain, and what was kept.
use crate::microphone::Microphone;
use crate::options::Options;
use crate::speak::{Console, drained, of, turns_enough};
use crate::told::{Refused, Told, When};
use page::{Built, CapturePage, Heard, Recorded, Stream, Times, Turns};
use snd::{Captured, Reading, Turn};
use std::time::Instant;

/// What stands in the recording before: a byte that is none of the tone's silence.
const BEFORE: u8 = 0xa5;

/// What came of it.
pub struct Recording {
    told: Told,
    /// Room for all the periods.
    room: Vec<u8>,
    /// How much of it the driver kept.
    kept: usize,
    submitted: u64,
    heard: Heard,
}

/// Records, and tells what happened, whatever it is.
pub fn all(options: &Options) -> Result<Recording, String> {
    let refused = |refusal| format!("there is no device: {refusal}");
    let mut console = Console::new(options, options.form().channels).map_err(refused)?;
    let mut microphone = Microphone::new(options);
    let enough = turns_enough(options, options.periods);
    console.told.enough = enough;
    console.told.allowed = options.budget.unwrap_or(enough);
    let mut room = vec![BEFORE; options.periods as usize * options.period as usize];
    let ended = console.record(options, &mut microphone, &mut room);
    console.told.refused = ended.err();
    let kept = console.ring.kept().map_err(refused)?;
    let heard = heard(&microphone.heard, &room, kept, options.period as usize);
    let mut told = console.told;
    told.faults = microphone.faults;
    Ok(Recording {
        told,
        room,
        kept,
        submitted: microphone.submitted,
        heard,
    })
}

/// What came back well, against what was kept of it.
fn heard(payloads: &[Vec<u8>], room: &[u8], kept: usize, period: usize) -> Heard {
    let joined = payloads.concat();
    let (recorded, behind) = room.split_at(kept.min(room.len()));
    let same = recorded == joined && behind.iter().all(|byte| *byte == BEFORE);
    Heard {
        periods: payloads.len() as u64,
        short: payloads.iter().filter(|payload| payload.len() < period).count() as u64,
        bytes: joined.len(),
        recorded: if same { Recorded::Same } else { Recorded::Not },
    }
}

impl Console {
    fn record(&mut self, options: &Options, microphone: &mut Microphone, room: &mut [u8]) -> Result<(), Refused> {
        let stream = self.open_input(options, options.form())?;
        let began = Instant::now();
        let ended = self.capture(options.periods, microphone, stream, room);
        self.told.time = began.elapsed();
        let Self { ring, told, .. } = self;
        // the stream is drained and stopped however the capture ended, whose answer comes first
        let over = drained(ring, told, options.slow, |when| {
            Ok(Reading::from(microphone.poll(when)))
        });
        let closed = over.and_then(|()| self.close(stream));
        ended.and(closed)
    }

    /// The loop: submit room where it is offered, poll, turn.
    fn capture(
        &mut self,
        periods: u64,
        microphone: &mut Microphone,
        stream: u32,
        room: &mut [u8],
    ) -> Result<(), Refused> {
        const CALL: &str = "capture";
        let budget = self.told.allowed;
        let started = self
            .sound
            .pcm_capture_start(&mut self.ring, stream, periods, room, budget);
        // set-up is done, so it runs at once
        let _runs = of(CALL, started)?;
        loop {
            let (turn, began) = (self.told.turns + 1, Instant::now());
            if let Some(room) = of(CALL, self.ring.capture_offered(room))? {
                microphone.submit(room);
            }
            let seen: Captured<'_> = microphone.poll(When::Transfer(turn));
            let said = self.ring.capture_turn(room, seen);
            self.told.turned(began.elapsed());
            if of(CALL, said)? == Turn::Done {
                return Ok(());
            }
        }
    }
}

impl Recording {
    /// What the driver kept.
    pub fn kept(&self) -> &[u8] {
        self.room.get(..self.kept).unwrap_or_default()
    }

    pub fn page<'p>(&'p self, options: &Options, name: &'p str, built: Built<'p>) -> CapturePage<'p> {
        let told = &self.told;
        CapturePage {
            name,
            periods: options.periods,
            params: options.form().params(options.buffer, options.period),
            strict: options.strict,
            guard: options.guard,
            indirect: options.indirect,
            stream: told.stream.map(|number| Stream {
                number,
                output: false,
                channels: told.channels,
            }),
            turns: Turns {
                run: told.turns,
                allowed: told.allowed,
                enough: told.enough,
                slow: options.slow,
            },
            submitted: self.submitted,
            heard: self.heard,
            kept: self.kept,
            sha256: sha256::sum(self.kept()),
            faults: &told.faults,
            owed: told.owed,
            drain: (told.drain_turns, told.drain_allowed),
            refused: told.refused,
            times: Times {
                longest: told.longest,
                whole: told.time,
            },
            built,
        }
    }
}
