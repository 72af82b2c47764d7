//! Finds the Rust driver's text, which is no part of this repository, and has it compiled byte for byte. VIRTIO_SOUND_SRC names its
//! folder; else it is looked for beside the repository. Where it is not there the crate builds without it (no `have_rust`).
use std::path::{Path, PathBuf};
use std::{env, fs};

/// Each file of the text, by the two names under which it may stand: the flat one, or the crate's own tree.
const FILES: [[&str; 2]; 3] = [
    ["src--src--device--sound.rs.txt", "src/device/sound.rs"],
    ["src--src--device--sound--fake.rs.txt", "src/device/sound/fake.rs"],
    ["src--src--device--common.rs.txt", "src/device/common.rs"],
];

fn main() {
    println!("cargo:rerun-if-env-changed=VIRTIO_SOUND_SRC");
    println!("cargo:rerun-if-changed=build.rs");
    println!("cargo:rustc-check-cfg=cfg(have_rust)");
    let here = PathBuf::from(env::var("CARGO_MANIFEST_DIR").expect("cargo sets it"));
    let named = env::var_os("VIRTIO_SOUND_SRC").map(PathBuf::from);
    let folder = named.unwrap_or(here.join("../../../shared/docs/src"));
    println!("cargo:rerun-if-changed={}", folder.display());
    let found: Vec<PathBuf> = FILES.iter().filter_map(|names| find(&folder, names)).collect();
    if let [sound, fake, common] = &found[..] {
        compile(&here, sound, fake, common);
    }
}

fn find(folder: &Path, names: &[&str; 2]) -> Option<PathBuf> {
    let path = names.iter().map(|name| folder.join(name)).find(|path| path.exists())?;
    println!("cargo:rerun-if-changed={}", path.display());
    fs::canonicalize(path).ok()
}

fn compile(here: &Path, sound: &Path, fake: &Path, common: &Path) {
    let out = PathBuf::from(env::var("OUT_DIR").expect("cargo sets it"));
    let write = |name: &str, text: String| fs::write(out.join(name), text).expect("the output folder is writable");
    // copied byte for byte, because its `mod fake;` is looked up beside it
    let copy = out.join("sound.rs");
    fs::copy(sound, &copy).expect("the text is readable");
    // what that `mod fake;` finds: the text of fake.rs as `model`, and our probe, which as a child sees private fields
    let probe = here.join("src/probe.rs");
    write(
        "fake.rs",
        format!(
            "#[allow(unused_imports)]\nuse super::*;\n#[path = {fake:?}]\nmod model;\n#[path = {probe:?}]\nmod probe;\n"
        ),
    );
    write("device.rs", format!("#[path = {common:?}]\npub mod common;\n#[path = {copy:?}]\npub mod sound;\n"));
    let bytes = |name: &str, path: &Path| format!("(\"{name}\", include_bytes!({path:?}) as &[u8])");
    let all = [bytes("sound.rs", &copy), bytes("fake.rs", fake), bytes("common.rs", common)];
    write("text.rs", format!("[{}]", all.join(", ")));
    println!("cargo:rustc-cfg=have_rust");
    // sound.rs has `#[cfg(test)] mod fake;`
    println!("cargo:rustc-cfg=test");
}
