//! What the tests share: a folder of their own, the program run in it, stored texts.
#![allow(dead_code)]
pub mod json;

use std::io::Write;
use std::path::{Path, PathBuf};
use std::process::{Command, Output, Stdio};
use std::sync::atomic::{AtomicUsize, Ordering};
use std::{env, fs};

/// A folder that is gone when the test is over.
pub struct Folder(pub PathBuf);

impl Folder {
    pub fn new(name: &str) -> Self {
        static MADE: AtomicUsize = AtomicUsize::new(0);
        let number = MADE.fetch_add(1, Ordering::Relaxed);
        let folder = env::temp_dir().join(format!("announce-{}-{number}-{name}", std::process::id()));
        fs::create_dir(&folder).unwrap();
        Self(folder)
    }

    pub fn write(&self, name: &str, bytes: &[u8]) {
        fs::write(self.0.join(name), bytes).unwrap();
    }

    pub fn read(&self, name: &str) -> Vec<u8> {
        fs::read(self.0.join(name)).unwrap()
    }

    pub fn text(&self, name: &str) -> String {
        String::from_utf8(self.read(name)).unwrap()
    }

    pub fn command(&self, words: &[&str]) -> Command {
        let mut command = Command::new(env!("CARGO_BIN_EXE_announce"));
        command.args(words).current_dir(&self.0);
        command
    }

    /// Runs the program with the words between spaces.
    pub fn run(&self, words: &str) -> Output {
        let words: Vec<_> = words.split_whitespace().collect();
        self.command(&words).output().unwrap()
    }

    /// Runs it with something on standard input.
    pub fn run_with(&self, words: &str, input: &[u8]) -> Output {
        let words: Vec<_> = words.split_whitespace().collect();
        let mut command = self.command(&words);
        command
            .stdin(Stdio::piped())
            .stdout(Stdio::piped())
            .stderr(Stdio::piped());
        let mut child = command.spawn().unwrap();
        child.stdin.take().unwrap().write_all(input).unwrap();
        child.wait_with_output().unwrap()
    }
}

impl Drop for Folder {
    fn drop(&mut self) {
        let _ = fs::remove_dir_all(&self.0);
    }
}

/// Frames that no other place repeats.
pub fn frames(bytes: u32) -> Vec<u8> {
    (0..bytes).map(|n| ((n * n) >> 5) as u8).collect()
}

/// A WAVE file of these frames.
pub fn wave(channels: u8, format: snd::Format, rate: snd::Rate, frames: &[u8]) -> Vec<u8> {
    let mut file = vec![0; snd::wav::file_len(frames.len())];
    let wave = snd::wav::Wave {
        channels,
        format,
        rate,
        frames,
    };
    snd::wav::write(&wave, &mut file).unwrap();
    file
}

/// Holds a text to the stored one. With STORE_TEXTS set it is stored anew: read the difference before you keep it.
pub fn stored(name: &str, text: &str) {
    let file = Path::new(env!("CARGO_MANIFEST_DIR")).join("tests").join(name);
    if env::var_os("STORE_TEXTS").is_some() {
        fs::write(&file, text).unwrap();
    }
    let wanted = fs::read_to_string(&file).unwrap_or_else(|why| panic!("{}: {why}", file.display()));
    assert_eq!(text, wanted, "{name}");
}

/// One sentence, status 2, no page.
pub fn complains(output: &Output, sentence: &str) {
    assert_eq!(
        String::from_utf8_lossy(&output.stderr),
        format!("announce: {sentence}\n")
    );
    assert_eq!((output.stdout.len(), output.status.code()), (0, Some(2)), "{sentence}");
}
