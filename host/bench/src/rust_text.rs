//! The Rust's own text, where it is at hand: compiled as it stands over the comparison's stand-ins for queue and transport, whose cost is in
//! the figures.
use crate::ways::{EVENT, FULL, Way, full_pages, page};
use oracle::{Call, Control, End, Outside, Tokens};
use snd::{PAGE_SIZE, PcmInfo, STATUS_OK};
use std::cell::Cell;
use std::rc::Rc;

/// The Rust driver as a way to get the work done; none where its text is not at hand.
pub fn way() -> Option<Box<dyn Way>> {
    let sound = oracle::sound([0, 1, 0], Tokens::Slots, false)?;
    let turns = Rc::new(Cell::new(0));
    let ok = Rc::new([page(&[])]);
    let mut text = Text {
        sound,
        ok,
        full: Rc::new(full_pages()),
        turns,
    };
    let one_stream = [page(&[]), page(&PcmInfo::output(1, 2).to_bytes()), page(&[])];
    text.make(Call::OutputStreams, Rc::new(one_stream));
    Some(Box::new(text))
}

struct Text {
    sound: Box<dyn oracle::Sound>,
    ok: Pages<1>,
    full: Pages<3>,
    turns: Rc<Cell<u64>>,
}

type Pages<const N: usize> = Rc<[[u8; PAGE_SIZE]; N]>;

/// Prepared answers, one for each request, and a device that completes each period in its own turn.
struct Prepared<const N: usize> {
    answers: Pages<N>,
    next: usize,
    turns: Rc<Cell<u64>>,
}

impl<const N: usize> Outside for Prepared<N> {
    fn control(&mut self, _request: &[u8], page: &mut [u8]) -> Control {
        page.copy_from_slice(&self.answers[self.next]);
        self.next += 1;
        Control::Answered
    }

    fn turn(&mut self, _free: usize) -> bool {
        self.turns.set(self.turns.get() + 1);
        true
    }

    fn submit(&mut self, _slot: u16, _stream: &[u8], _payload: &[u8]) {}

    fn submit_one(&mut self, _token: u16, _buffer: &[u8]) {}

    fn reading(&mut self, flight: &[u16]) -> Option<(u32, u32)> {
        flight.first().map(|&oldest| (oldest.into(), STATUS_OK))
    }

    fn event(&mut self) -> Option<Vec<u8>> {
        Some(EVENT.to_vec())
    }
}

impl Text {
    fn make<const N: usize>(&mut self, call: Call, answers: Pages<N>) -> Vec<u64> {
        make(self.sound.as_mut(), call, answers, &self.turns)
    }
}

fn make<const N: usize>(
    sound: &mut dyn oracle::Sound,
    call: Call,
    answers: Pages<N>,
    turns: &Rc<Cell<u64>>,
) -> Vec<u64> {
    let (end, values) = sound.call(
        call,
        Box::new(Prepared {
            answers,
            next: 0,
            turns: turns.clone(),
        }),
    );
    assert_eq!(end, End::Number(0));
    values
}

impl Way for Text {
    fn set_period(&mut self, period: u32) {
        let (buffer, features, channels, format, rate) = (period * 2, 0, 2, 5, 7);
        let ok = self.ok.clone();
        self.make(
            Call::PcmSetParams {
                stream: 0,
                buffer,
                period,
                features,
                channels,
                format,
                rate,
            },
            ok,
        );
    }

    fn control(&mut self) {
        let ok = self.ok.clone();
        self.make(Call::PcmPrepare(0), ok);
    }

    fn set_up(&mut self) {
        let mut full = oracle::sound(FULL, Tokens::Slots, false).expect("its text is at hand");
        make(full.as_mut(), Call::OutputStreams, self.full.clone(), &self.turns);
    }

    fn announce(&mut self, frames: &[u8]) -> u64 {
        self.turns.set(0);
        let ok = self.ok.clone();
        self.make(Call::PcmXfer(0, frames), ok);
        self.turns.get()
    }

    fn announce_blindly(&mut self, frames: &[u8]) -> u64 {
        self.announce(frames)
    }

    fn capture(&mut self, _periods: usize, _period: usize) -> u64 {
        unreachable!("the Rust has no captures")
    }

    fn submit(&mut self, period: &[u8]) {
        let ok = self.ok.clone();
        let token = self.make(Call::PcmXferNb(0, period), ok.clone())[0] as u16;
        self.sound.complete(token, STATUS_OK);
        self.make(Call::PcmXferOk(token), ok);
    }

    fn event(&mut self) {
        let ok = self.ok.clone();
        self.make(Call::LatestNotification, ok);
    }
}
