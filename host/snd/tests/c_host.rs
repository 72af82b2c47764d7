//! The header serves a host in C: host/tests/ten_bytes.c is compiled by gcc with every warning an error, linked and run.
use std::path::Path;
use std::process::Command;
use std::{env, fs};

const WANTED: &str = "\
set parameters: 0001/16 0100/16 0200/16 0101/24 -> 0
start: 0104/8 -> 0
accepted: ten\u{20}
accepted: byte
accepted: s.
turns: 4 of 4
stop: 0105/8 -> 0
stop: -> 2, the device said 0x8001
stop: -> 2, the device said 0x8002
stop: -> 2, the device said 0x8003
stop: -> 2, the device said 0x0000
event: -> 2, by no status
set parameters: 0101/24 -> 0
capture of an output: -> 1
recorded: gate two----, kept 8 -> 0
recorded: door two----, kept 4 -> 17
traced: -> 2, the device said 0x8003
judged: 19 at 58 of 59 bytes
scanned: 55
";

#[test]
fn ten_bytes_from_c() {
    let host = Path::new(env!("CARGO_MANIFEST_DIR")).join("..");
    let program = env::temp_dir().join(format!("ten-bytes-{}", std::process::id()));
    let made = Command::new("gcc")
        .args(["-std=c99", "-Wall", "-Wextra", "-Wpedantic", "-Werror", "-O2", "-I"])
        .arg(host.join("include"))
        .arg(host.join("tests/ten_bytes.c"))
        .arg(env!("SND_ARCHIVE"))
        .arg("-o")
        .arg(&program)
        .output()
        .expect("gcc is there");
    assert!(made.status.success(), "{}", String::from_utf8_lossy(&made.stderr));
    let ran = Command::new(&program).output().expect("the program runs");
    fs::remove_file(&program).expect("it is ours");
    assert_eq!(String::from_utf8_lossy(&ran.stdout), WANTED);
    assert!(ran.status.success());
}
