//! The crate needs no operating system and has no panic in it: a guest that makes every call, feed, turn and read, built as one unit, asks for no panic.
use std::path::Path;
use std::process::Command;

#[test]
fn no_function_can_panic() {
    let guest = Path::new(env!("CARGO_MANIFEST_DIR")).join("../guest");
    let target = Path::new(env!("CARGO_TARGET_TMPDIR")).join("guest");
    let built = Command::new(env!("CARGO"))
        .args(["build", "--offline", "--quiet", "--release", "--manifest-path"])
        .arg(guest.join("Cargo.toml"))
        .arg("--target-dir")
        .arg(&target)
        .env("SND_LIB", env!("SND_ARCHIVE"))
        .output()
        .expect("cargo runs");
    assert!(built.status.success(), "{}", String::from_utf8_lossy(&built.stderr));
    let listed = Command::new("nm")
        .arg(target.join("release/libguest.a"))
        .output()
        .expect("nm is there");
    let symbols = String::from_utf8_lossy(&listed.stdout);
    assert!(symbols.contains(" T guest_main"), "the guest is not in its archive");
    assert!(
        !symbols.contains("a_panic_can_be_reached"),
        "a function of the crate can panic"
    );
}
