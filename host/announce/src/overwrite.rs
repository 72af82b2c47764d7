//! No write destroys what was read, and no two writes meet in one file: refused before anything is done.
use crate::options::{Options, Source};
use std::fs;
use std::os::unix::fs::MetadataExt;
use std::path::{Path, PathBuf};

/// How many links a path may lead over, as in Linux.
const LINKS: u32 = 40;

/// The file that a path leads to, however it is spelled.
#[derive(PartialEq, Eq)]
enum Place {
    There {
        device: u64,
        node: u64,
    },
    /// Not there yet: its folder's true path and its name.
    New(PathBuf),
}

/// Refuses outputs that are inputs, or each other.
pub fn refuse(options: &Options) -> Result<(), String> {
    let mut written: Vec<(String, Place)> = Vec::new();
    for (output, path) in outputs(options) {
        let Some(place) = place(&path) else {
            continue;
        };
        if let Some(input) = options.sources.iter().find(|source| reads(source, &place)) {
            return Err(format!("{output} would overwrite the input {}", input.shown()));
        }
        if let Some((other, _)) = written.iter().find(|(_, written)| *written == place) {
            return Err(format!("{other} and {output} are the same file"));
        }
        written.push((output, place));
    }
    Ok(())
}

/// Every output, as the sentence names it, and its path.
fn outputs(options: &Options) -> Vec<(String, PathBuf)> {
    let mut outputs = vec![("standard output".to_string(), "/dev/stdout".into())];
    for (option, path) in options.outputs() {
        outputs.push((format!("{option} {}", path.display()), path.clone()));
    }
    outputs
}

fn reads(source: &Source, written: &Place) -> bool {
    let read = match source {
        Source::Tone => None,
        Source::Input => place(Path::new("/dev/stdin")),
        Source::File(file) => place(file),
    };
    read.as_ref() == Some(written)
}

/// None for a terminal, a pipe or the like, where nothing is lost, and for a path that leads nowhere.
fn place(path: &Path) -> Option<Place> {
    match fs::metadata(path) {
        Ok(found) if found.is_file() => Some(Place::There {
            device: found.dev(),
            node: found.ino(),
        }),
        Ok(_) => None,
        Err(_) => end(path, LINKS).map(Place::New),
    }
}

/// Where a write would make a new file: a link may lead to one that is not there.
fn end(path: &Path, links: u32) -> Option<PathBuf> {
    let folder = match path.parent()? {
        folder if folder.as_os_str().is_empty() => Path::new("."),
        folder => folder,
    };
    match fs::read_link(path) {
        Ok(next) => end(&folder.join(next), links.checked_sub(1)?),
        Err(_) => Some(folder.canonicalize().ok()?.join(path.file_name()?)),
    }
}
