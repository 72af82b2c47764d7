//! Links the console as a guest: by its own script, with nothing of the system's.
fn main() {
    let here = std::env::var("CARGO_MANIFEST_DIR").expect("cargo sets it");
    let script = format!("-Wl,-T,{here}/console.ld");
    let words = [
        "-nostdlib",
        "-nostartfiles",
        "-static",
        "-no-pie",
        "-Wl,--build-id=none",
        "-Wl,-z,noexecstack",
        &script,
    ];
    for word in words {
        println!("cargo:rustc-link-arg-bins={word}");
    }
    for file in ["build.rs", "console.ld", "boot.s", "memory.s", "timer.s"] {
        println!("cargo:rerun-if-changed={file}");
    }
}
