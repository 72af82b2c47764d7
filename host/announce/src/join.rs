//! Several recordings as one announcement: words that are joined to a sentence. Where each but the last is a whole number of periods, the device gets the
//! periods of the first, then those of the second, and so on (`cut-of-parts`, crates/turns/specs/Joining.antt).
use crate::options::Options;
use crate::recording::{Part, Recording};
use crate::{sizes, wave};

/// The one announcement, or which part does not fit, and why.
pub fn of(options: &Options, parts: Vec<Recording>) -> Result<Recording, String> {
    if let Some(both) = wave::two_forms(&parts) {
        return Err(format!(
            "--join makes one announcement, and its parts have frames of two forms: {both}"
        ));
    }
    whole(options.period as usize, &parts)?;
    let names: Vec<_> = parts.iter().map(|part| part.name.as_str()).collect();
    let name = names.join(" + ");
    let form = parts.first().map_or_else(|| options.form(), |part| part.form);
    let (mut frames, mut places) = (Vec::new(), Vec::new());
    for part in parts {
        places.push(Part {
            offset: frames.len(),
            bytes: part.frames.len(),
            name: part.name,
        });
        frames.extend(part.frames);
    }
    sizes::periods("what is joined", frames.len(), options.period)?;
    Ok(Recording {
        name,
        sha256: sha256::sum(&frames),
        frames,
        form,
        file: None,
        parts: places,
    })
}

/// Whether each but the last is a whole number of periods; none counts.
fn whole(period: usize, parts: &[Recording]) -> Result<(), String> {
    let before = parts.split_last().map_or(&[][..], |(_last, before)| before);
    let lacks = before.iter().filter_map(|part| {
        let (name, bytes) = (&part.name, part.frames.len());
        let missing = bytes.next_multiple_of(period) - bytes;
        (missing > 0).then(|| format!("{name} has {bytes} bytes of frames, and {missing} more would pad it"))
    });
    let lacks: Vec<_> = lacks.collect();
    if lacks.is_empty() {
        return Ok(());
    }
    Err(format!(
        "each part but the last is a whole number of periods of {period} bytes: {}",
        lacks.join("; ")
    ))
}
