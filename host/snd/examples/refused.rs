//! What the device said, as docs/HOST.md has it, tried on a device that refuses: `cargo run -p snd --example refused`.

use snd::{Refusal, Status};

/// What support reads of a refused call, and what to do about it.
fn told(call: &str, refusal: Refusal) -> (String, &'static str) {
    let what = match refusal.cause() {
        Some(Some(Status::NotSupported)) => "ask what the stream supports, and set that",
        Some(Some(Status::BadMessage)) => "the device finds the request wrong: look at its numbers",
        Some(Some(Status::IoError)) => "the device failed: try again",
        Some(Some(Status::Other(0))) => "the device wrote nothing: is the page still all zeros?",
        Some(Some(Status::Other(_))) => "the device says what no standard names: ask its maker",
        Some(None) => "no status was the cause: the driver refused it by itself",
        None => "see the table of answers",
    };
    (format!("{call}: {refusal}"), what)
}

// Up to here the text of the page. What follows tries it.
use snd::{Model, Page, PcmInfo, Ring, Sound, Step};

/// A start of stream 0 that the device answers by a page with this word in front, all else zeros.
fn refused(word: u32) -> Result<(), Refusal> {
    let mut device = Model::new(&[], &[PcmInfo::output(1, 2).to_bytes()], &[])?;
    let (mut sound, mut page) = (Sound::new(0, 1, 0), Page::new());
    let mut step = sound.pcm_start(&Ring::new(), 0)?;
    while let Step::Send(exchange) = step {
        if exchange.bytes().first_chunk() == Some(&[4, 1]) {
            page = Page::new();
            page.bytes_mut()[..4].copy_from_slice(&word.to_le_bytes());
        } else {
            device.control(exchange.bytes(), &mut page)?;
        }
        step = sound.feed(exchange, &page)?;
    }
    Ok(())
}

/// Each of the standard's three, a page that was not written, a number without a name; no status; no cause at all.
pub fn main() -> Result<(), Refusal> {
    let said = [
        (0x8001, "0x8001, bad message", "the device finds"),
        (0x8002, "0x8002, not supported", "ask what the stream"),
        (0x8003, "0x8003, I/O error", "the device failed"),
        (
            0,
            "0x00000000, no status that the standard names",
            "the device wrote nothing",
        ),
        (7, "0x00000007, no status that the standard names", "the device says"),
    ];
    for (word, named, todo) in said {
        let (line, what) = refused(word).map_err(|refusal| told("start", refusal)).unwrap_err();
        assert_eq!(line, format!("start: 2 IoError: the device said {named}"));
        assert!(what.starts_with(todo), "{what}");
    }
    assert_eq!(refused(0x8000), Ok(()));
    let event = snd::latest_notification(&[0; 8]).map_err(|refusal| told("event", refusal));
    let (line, what) = event.unwrap_err();
    assert_eq!(line, "event: 2 IoError: no status caused it");
    assert!(what.starts_with("no status was the cause"), "{what}");
    assert!(told("stop", Refusal::Busy).1.starts_with("see the table"));
    Ok(())
}
