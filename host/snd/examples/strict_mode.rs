//! Strict mode as docs/HOST.md has it, tried on the model device: `cargo run -p snd --example strict_mode`.

use snd::{Exchange, Page, Refusal, Sound, Step, Unfed, Value};

/// Feeds what came of a request: how many bytes the queue reports as written to the page, or that it failed.
fn feed<T: Value>(
    sound: &mut Sound,
    exchange: Exchange<T>,
    page: &Page,
    written: Option<usize>,
) -> Result<Step<T>, Refusal> {
    let Some(written) = written else {
        return sound.feed_failure(exchange);
    };
    match sound.feed_written(exchange, page, written) {
        Ok(step) => Ok(step),
        Err(Unfed::Refused(refusal)) => Err(refusal),
        Err(Unfed::TooLong(exchange)) => sound.feed_failure(exchange), // more than a page has: nothing that this queue says can be trusted
    }
}

// Up to here the text of the page. What follows tries it.
use snd::{JackInfo, Model, PcmInfo, Ring, Status};

/// A remap of jack 0, where the query of jacks has this length and all else the device's own. The page holds a jack from the start.
fn remap(of_jacks: Option<usize>) -> Result<(), Refusal> {
    let jack = JackInfo {
        features: JackInfo::REMAP,
        ..JackInfo::default()
    };
    let mut device = Model::new(&[jack.to_bytes()], &[PcmInfo::output(1, 2).to_bytes()], &[])?;
    let (mut sound, mut page) = (Sound::new(1, 1, 0), Page::new());
    let mut step = sound.jack_remap(&Ring::new(), 0, 1, 2)?;
    while let Step::Send(exchange) = step {
        let is_first = exchange.bytes().first() == Some(&1);
        let written = device.control(exchange.bytes(), &mut page)?;
        step = feed(
            &mut sound,
            exchange,
            &page,
            if is_first { of_jacks } else { Some(written) },
        )?;
    }
    Ok(())
}

/// The answer whole, its header alone, no answer, and one longer than a page.
pub fn main() -> Result<(), Refusal> {
    // the jack is known, and its remap sent; the model device knows no such request, and calls it a bad message
    assert_eq!(remap(Some(4 + 24)), Err(Refusal::Unsupported(Some(Status::BadMessage))));
    for of_jacks in [Some(4), None, Some(4097)] {
        assert_eq!(remap(of_jacks), Err(Refusal::NoInfo));
    }
    Ok(())
}
