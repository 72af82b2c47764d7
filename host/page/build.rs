//! Tells the program what it is built with: the kit that the repository names, and the sha256 of the archive that snd links. The archive
//! is found as snd's build script finds it, which cargo has run before this one.
use std::path::{Path, PathBuf};
use std::{env, fs};

fn main() {
    println!("cargo:rerun-if-changed=build.rs");
    println!("cargo:rerun-if-env-changed=SND_LIB");
    let here = PathBuf::from(env::var_os("CARGO_MANIFEST_DIR").expect("cargo sets it"));
    let repository = here.join("../..");
    let kit = read(&repository.join(".ci/kit"));
    let kit = kit.and_then(|text| String::from_utf8(text).ok());
    tell("PAGE_KIT", kit.map(|text| text.trim().replace('\n', " ")));
    let archive = match env::var_os("SND_LIB") {
        Some(path) => PathBuf::from(path),
        None => repository.join("target/staticlib/libconsole.a"),
    };
    // the path is for a test
    tell("PAGE_ARCHIVE", archive.to_str().map(String::from));
    let sum = read(&archive).map(|bytes| sha256::hex(&bytes));
    tell("PAGE_ARCHIVE_SHA256", sum);
}

/// A file that may not be there. Cargo is told of one that is; it would build anew each time for one that is not.
fn read(file: &Path) -> Option<Vec<u8>> {
    let bytes = fs::read(file).ok()?;
    println!("cargo:rerun-if-changed={}", file.display());
    Some(bytes)
}

/// Empty says that it is not known.
fn tell(name: &str, text: Option<String>) {
    println!("cargo:rustc-env={name}={}", text.unwrap_or_default());
}
