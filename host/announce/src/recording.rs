//! What is to be spoken.
use crate::form::Form;
use crate::options::{Options, Source};
use crate::{join, sizes, tone, wave};
use page::InFile;
use sha256::Sum;
use std::io::Read;

pub struct Recording {
    /// As the page names it.
    pub name: String,
    pub frames: Vec<u8>,
    pub form: Form,
    /// Where the frames stood, if a WAVE file was read.
    pub file: Option<InFile>,
    pub sha256: Sum,
    /// Where it was joined, its parts in order.
    pub parts: Vec<Part>,
}

/// A part of a recording that was joined.
pub struct Part {
    /// As the page names it.
    pub name: String,
    /// Where it begins in the frames.
    pub offset: usize,
    pub bytes: usize,
}

/// Reads all of them, or says what cannot be read.
pub fn all(options: &Options) -> Result<Vec<Recording>, String> {
    let recordings: Result<Vec<_>, _> = options.sources.iter().map(|source| read(options, source)).collect();
    let recordings = recordings?;
    if options.join {
        return Ok(vec![join::of(options, recordings)?]);
    }
    wave::one_form(options, &recordings)?;
    Ok(recordings)
}

fn read(options: &Options, source: &Source) -> Result<Recording, String> {
    let name = name(options, source);
    let bytes = match source {
        Source::Tone => Ok(tone::of(options.seconds, options.form())),
        Source::Input => input(),
        Source::File(file) => std::fs::read(file),
    };
    let bytes = bytes.map_err(|why| format!("cannot read {name}: {why}"))?;
    let (frames, form, file) = if wave::begins(&bytes) {
        let (form, place) = wave::read(options, &name, &bytes)?;
        let file = InFile {
            bytes: bytes.len(),
            offset: place.start,
        };
        (bytes.get(place).unwrap_or_default().to_vec(), form, Some(file))
    } else {
        (bytes, options.form(), None)
    };
    sizes::periods(&name, frames.len(), options.period)?;
    let sha256 = sha256::sum(&frames);
    Ok(Recording {
        name,
        frames,
        form,
        file,
        sha256,
        parts: Vec::new(),
    })
}

fn input() -> std::io::Result<Vec<u8>> {
    let mut bytes = Vec::new();
    std::io::stdin().read_to_end(&mut bytes)?;
    Ok(bytes)
}

fn name(options: &Options, source: &Source) -> String {
    match source {
        Source::Tone => format!("a tone of {} s", options.seconds),
        Source::Input => "standard input".into(),
        Source::File(file) => plain(&file.to_string_lossy()),
    }
}

/// A name on one line: a file's name may have a line's end in it, and would then write lines of the page.
pub fn plain(name: &str) -> String {
    let mut plain = String::new();
    for letter in name.chars() {
        if letter.is_control() {
            plain.extend(letter.escape_default());
        } else {
            plain.push(letter);
        }
    }
    plain
}

impl Recording {
    /// What a user should know of the frames before all else.
    pub fn warnings(&self, options: &Options) -> Vec<String> {
        let params = self.form.params(options.buffer, options.period);
        let warnings = page::warnings(&params, self.frames.len());
        warnings.map(|warning| warning.to_string()).collect()
    }
}
