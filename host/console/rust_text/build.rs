//! Finds the Rust driver's text, which is no part of this repository, and has it compiled as it stands. VIRTIO_SOUND_SRC names its folder; else it is looked
//! for beside the repository, as host/oracle does.
use std::path::{Path, PathBuf};
use std::{env, fs};

/// Each file of the text, by the two names under which it may stand: the flat one, or the crate's own tree.
const SOUND: [&str; 2] = ["src--src--device--sound.rs.txt", "src/device/sound.rs"];
const COMMON: [&str; 2] = ["src--src--device--common.rs.txt", "src/device/common.rs"];

fn main() {
    println!("cargo:rerun-if-env-changed=VIRTIO_SOUND_SRC");
    println!("cargo:rerun-if-changed=build.rs");
    let here = PathBuf::from(env::var("CARGO_MANIFEST_DIR").expect("cargo sets it"));
    let named = env::var_os("VIRTIO_SOUND_SRC").map(PathBuf::from);
    let folder = named.unwrap_or(here.join("../../../../shared/docs/src"));
    let (Some(sound), Some(common)) = (find(&folder, &SOUND), find(&folder, &COMMON)) else {
        eprintln!("the Rust driver's text is not at hand: VIRTIO_SOUND_SRC names its folder");
        std::process::exit(1);
    };
    let out = PathBuf::from(env::var("OUT_DIR").expect("cargo sets it"));
    let text = format!("#[path = {common:?}]\npub mod common;\n#[path = {sound:?}]\npub mod sound;\n");
    fs::write(out.join("device.rs"), text).expect("the output folder is writable");
}

fn find(folder: &Path, names: &[&str; 2]) -> Option<PathBuf> {
    let path = names.iter().map(|name| folder.join(name)).find(|path| path.exists())?;
    println!("cargo:rerun-if-changed={}", path.display());
    fs::canonicalize(path).ok()
}
