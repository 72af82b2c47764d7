//! WAVE files: a recording that says its own form, and what was accepted as a file for any player.
use crate::form::Form;
use crate::options::Options;
use crate::recording::Recording;
use snd::wav::{self, Wave};
use snd::{Rate, Refusal};
use std::ops::Range;

/// A file that begins so is read as a WAVE file, whatever its name.
pub fn begins(file: &[u8]) -> bool {
    file.starts_with(b"RIFF")
}

/// The form of a file's frames, and where in it the frames are.
pub fn read(options: &Options, name: &str, file: &[u8]) -> Result<(Form, Range<usize>), String> {
    let given = [
        ("--rate", options.rate.is_some()),
        ("--channels", options.channels.is_some()),
    ];
    if let Some((option, _)) = given.into_iter().find(|(_, given)| *given) {
        return Err(format!(
            "{name} says its own rate, channels and format: leave {option} out"
        ));
    }
    let wave = wav::read(file).map_err(|refusal| refused(name, file, refusal))?;
    let Wave {
        channels,
        format,
        rate,
        frames,
    } = wave;
    // the frames are a part of the file
    let start = frames.as_ptr().addr().saturating_sub(file.as_ptr().addr());
    let form = Form { channels, format, rate };
    Ok((form, start..start + frames.len()))
}

/// What is wrong with a file, and what to do.
fn refused(name: &str, file: &[u8], refusal: Refusal) -> String {
    match refusal {
        Refusal::NotWave => format!(
            "{name} is no whole WAVE file ({refusal}): it is cut short, went through a pipe, or a chunk of it lacks bytes or a pad; \
             sox {name} -t wavpcm out.wav may mend it"
        ),
        Refusal::BadSound if extensible(file) => format!(
            "{name} has an extensible header, which the driver does not take ({refusal}); \
             sox {name} -t wavpcm out.wav writes the same sound with a plain one"
        ),
        Refusal::BadSound => {
            let rates: Vec<_> = Rate::ALL.iter().map(|rate| rate.hz().to_string()).collect();
            format!(
                "{name} has a sound that the driver does not take ({refusal}): it takes PCM of 8, 16, 24 or 32 bits at {} Hz; \
                 sox {name} -b 16 -r 48000 -t wavpcm out.wav writes such a file",
                rates.join(", ")
            )
        }
        _ => format!("{name}: the driver answers {refusal}"),
    }
}

/// Whether the format tag is that of an extensible header, in a file whose first chunk is `fmt `.
fn extensible(file: &[u8]) -> bool {
    file.get(12..16) == Some(b"fmt ") && file.get(20..22) == Some(&[0xfe, 0xff])
}

/// A WAVE file has frames of one form: where one is to be written, all announcements must have it.
pub fn one_form(options: &Options, recordings: &[Recording]) -> Result<(), String> {
    match two_forms(recordings).filter(|_| options.wav.is_some()) {
        None => Ok(()),
        Some(both) => Err(format!(
            "--wav writes one file, and the announcements have frames of two forms: {both}"
        )),
    }
}

/// What two of them have, where not all have frames of one form.
pub fn two_forms(recordings: &[Recording]) -> Option<String> {
    let (first, rest) = recordings.split_first()?;
    let other = rest.iter().find(|other| other.form != first.form)?;
    Some(format!(
        "{} has {}, and {} has {}",
        first.name,
        first.form.shown(),
        other.name,
        other.form.shown()
    ))
}

/// The file of these bytes. A frame that was accepted in part is left out.
pub fn file(form: Form, accepted: &[u8]) -> Result<Vec<u8>, String> {
    let Form { channels, format, rate } = form;
    let whole = accepted.len() - accepted.len() % form.frame();
    let frames = accepted.get(..whole).unwrap_or_default();
    let wave = Wave {
        channels,
        format,
        rate,
        frames,
    };
    let mut file = vec![0; wav::file_len(whole)];
    match wav::write(&wave, &mut file) {
        Ok(_len) => Ok(file),
        Err(refusal) => Err(format!("{whole} bytes of frames fit no WAVE file ({refusal})")),
    }
}
