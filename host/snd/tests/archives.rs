//! What the build says of an SND_LIB that is not the driver's archive: a sentence, and no linker's error.
use std::path::{Path, PathBuf};
use std::process::Command;
use std::{env, fs};

/// Builds the crate with this SND_LIB, apart from the build that runs the test, and gives what it said.
fn build(archive: &Path) -> Result<(), String> {
    let built = Command::new(env!("CARGO"))
        .args(["build", "--offline", "--quiet", "--manifest-path"])
        .arg(Path::new(env!("CARGO_MANIFEST_DIR")).join("Cargo.toml"))
        .arg("--target-dir")
        .arg(Path::new(env!("CARGO_TARGET_TMPDIR")).join("archives"))
        .env("SND_LIB", archive)
        .output()
        .expect("cargo runs");
    match built.status.success() {
        true => Ok(()),
        false => Err(String::from_utf8_lossy(&built.stderr).into_owned()),
    }
}

/// Holds what is said of an archive to a sentence.
fn refused(archive: &Path, sentence: &str) {
    let said = build(archive).expect_err("it is not the driver's archive");
    let wanted = format!("SND_LIB: {}: {sentence}", archive.display());
    assert!(said.contains(&wanted), "wanted: {wanted}\nsaid: {said}");
}

fn file(folder: &Path, name: &str, bytes: &[u8]) -> PathBuf {
    let file = folder.join(name);
    fs::write(&file, bytes).unwrap();
    file
}

// one test: the builds share a target directory
#[test]
fn a_wrong_archive_is_told_in_words() {
    let folder = Path::new(env!("CARGO_TARGET_TMPDIR")).join("archives-tried");
    fs::create_dir_all(&folder).unwrap();
    refused(
        Path::new(""),
        "it is set and names nothing; unset it, or name the archive",
    );
    refused(
        &folder,
        "a directory; name the archive in it, as in DIRECTORY/libconsole.a",
    );
    refused(
        &folder.join("missing.a"),
        "no archive can be read there: No such file or directory",
    );
    refused(
        Path::new("missing.a"),
        "no archive can be read there, seen from host/snd: No such file or directory",
    );
    let text = file(&folder, "text.a", b"snd_new\0");
    refused(&text, "no archive: its first bytes are not '!<arch>'");
    let other = file(&folder, "other.a", b"!<arch>\nsnd_new_one\0");
    refused(
        &other,
        "an archive, but not the driver's: it has no snd_new; tools/staticlib makes it",
    );
    assert_eq!(build(Path::new(env!("SND_ARCHIVE"))), Ok(()));
}
