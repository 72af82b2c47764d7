//! An announcement from a WAVE file as docs/HOST.md has it: `cargo run -p snd --example wave_file`.

use snd::{Params, Refusal, wav};

/// What a stream is set to for a file, and its frames, which are a part of the file.
fn announcement(file: &[u8]) -> Result<(Params, &[u8]), Refusal> {
    let wave = wav::read(file)?;
    let period = 960 * u32::from(wave.channels); // whole frames: 1, 2, 3 or 4 bytes a sample
    let to = Params {
        buffer: 4 * period,
        period,
        features: 0,
        channels: wave.channels,
        format: wave.format,
        rate: wave.rate,
    };
    Ok((to, wave.frames))
}

// Up to here the text of the page. What follows tries it.
use snd::wav::Wave;
use snd::{Format, Rate};

/// A file of two channels, then one that is cut short.
pub fn main() -> Result<(), Refusal> {
    let wave = Wave {
        channels: 2,
        format: Format::S24In3,
        rate: Rate::Hz44100,
        frames: b"two frames..",
    };
    let mut file = [0; 56];
    assert_eq!(wav::write(&wave, &mut file), Ok(56));
    let (to, frames) = announcement(&file)?;
    assert_eq!((to.period, to.format, frames), (1920, Format::S24In3, wave.frames));
    assert_eq!(to.period % (2 * 3), 0);
    assert_eq!(announcement(&file[..55]), Err(Refusal::NotWave));
    Ok(())
}
