//! What the tests share: a folder of their own, programs run in it, stored texts, and traces by their fields.
#![allow(dead_code)]
use snd::STATUS_OK;
use std::path::{Path, PathBuf};
use std::process::{Command, Output};
use std::sync::atomic::{AtomicUsize, Ordering};
use std::{env, fs};

/// A folder that is gone when the test is over.
pub struct Folder(pub PathBuf);

impl Folder {
    pub fn new(name: &str) -> Self {
        static MADE: AtomicUsize = AtomicUsize::new(0);
        let number = MADE.fetch_add(1, Ordering::Relaxed);
        let folder = env::temp_dir().join(format!("trace-{}-{number}-{name}", std::process::id()));
        fs::create_dir(&folder).unwrap();
        Self(folder)
    }

    pub fn write(&self, name: &str, bytes: &[u8]) {
        fs::write(self.0.join(name), bytes).unwrap();
    }

    /// Runs a program with the words between spaces.
    pub fn run(&self, program: &str, words: &str) -> Output {
        let mut command = Command::new(program);
        command.args(words.split_whitespace()).current_dir(&self.0);
        command.output().unwrap()
    }
}

impl Drop for Folder {
    fn drop(&mut self) {
        let _ = fs::remove_dir_all(&self.0);
    }
}

/// Holds what a run said to a stored page and a status. With STORE_TEXTS set the page is stored anew: read the difference before you keep it.
pub fn held(output: &Output, name: &str, status: i32) {
    let file = Path::new(env!("CARGO_MANIFEST_DIR")).join("tests/pages").join(name);
    let text = String::from_utf8(output.stdout.clone()).unwrap();
    if env::var_os("STORE_TEXTS").is_some() {
        fs::write(&file, &text).unwrap();
    }
    let wanted = fs::read_to_string(&file).unwrap_or_else(|why| panic!("{}: {why}", file.display()));
    assert_eq!(text, wanted, "{name}");
    assert_eq!(String::from_utf8_lossy(&output.stderr), "", "{name}");
    assert_eq!(output.status.code(), Some(status), "{name}");
}

/// One sentence, status 2, nothing else.
pub fn complains(output: &Output, sentence: &str) {
    assert_eq!(String::from_utf8_lossy(&output.stderr), format!("{sentence}\n"));
    assert_eq!((output.stdout.len(), output.status.code()), (0, Some(2)), "{sentence}");
}

fn words(numbers: &[u32]) -> Vec<u8> {
    numbers.iter().flat_map(|number| number.to_le_bytes()).collect()
}

pub fn start(stream: u32, length: u32, period: u32) -> Vec<u8> {
    [&[0, 12, 0][..], &words(&[stream, length, period])].concat()
}

pub fn submitted(slot: u8, offset: u32, length: u32) -> Vec<u8> {
    [&[1, 9, 0, slot][..], &words(&[offset, length])].concat()
}

pub fn completed(slot: u8, status: u32) -> Vec<u8> {
    [&[2, 5, 0, slot][..], &words(&[status])].concat()
}

pub fn good(slot: u8) -> Vec<u8> {
    completed(slot, STATUS_OK)
}

pub fn end(answer: u8) -> Vec<u8> {
    vec![3, 1, 0, answer]
}

/// The fields of docs/TRACE.md: ten bytes in periods of 4, each completed in the turn that submitted it.
pub fn ten_fields() -> Vec<Vec<u8>> {
    let mut fields = vec![start(0, 10, 4)];
    for (slot, length) in [(0, 4), (1, 4), (2, 2)] {
        fields.extend([submitted(slot, 4 * u32::from(slot), length), good(slot)]);
    }
    fields.push(end(0));
    fields
}

/// The same whose second period failed.
pub fn failed_fields() -> Vec<Vec<u8>> {
    let mut fields = ten_fields();
    fields.truncate(4);
    fields.extend([completed(1, 0x8003), end(2)]);
    fields
}

/// The block of docs/TRACE.md that follows this line, without its four spaces.
pub fn shown(line: &str) -> String {
    let page = include_str!("../../../../docs/TRACE.md");
    let (_, block) = page
        .split_once(&format!("\n{line}\n\n"))
        .unwrap_or_else(|| panic!("docs/TRACE.md has no line\n{line}"));
    let lines = block.lines().take_while(|line| line.starts_with("    "));
    lines.map(|line| format!("{}\n", &line[4..])).collect()
}
