//! Links the driver's archive: the one that SND_LIB names, or target/staticlib/libconsole.a of this repository. The latter is made by
//! tools/staticlib where it is missing or older than the proved sources, since making it proves all of them again.
use std::fs::{File, OpenOptions};
use std::io::{BufRead, BufReader, Write};
use std::path::{Path, PathBuf};
use std::process::{Command, Stdio};
use std::time::{Instant, SystemTime};
use std::{env, fs};

fn main() {
    println!("cargo:rerun-if-env-changed=SND_LIB");
    println!("cargo:rerun-if-changed=build.rs");
    let (archive, name) = match env::var_os("SND_LIB") {
        Some(path) => (PathBuf::from(path), "SND_LIB"),
        None => (own_archive(), "the archive of this repository"),
    };
    if let Err(why) = look(&archive) {
        stop(&format!("{name}: {}: {why}", archive.display()));
    }
    let archive = archive.canonicalize().unwrap_or(archive);
    println!("cargo:rerun-if-changed={}", archive.display());
    // for the test that links a host in C
    println!("cargo:rustc-env=SND_ARCHIVE={}", archive.display());
    link(&archive);
}

/// Says in words what is wrong with an archive, before the linker does so in others.
fn look(archive: &Path) -> Result<(), String> {
    if archive.as_os_str().is_empty() {
        return Err("it is set and names nothing; unset it, or name the archive".into());
    }
    if archive.is_dir() {
        return Err("a directory; name the archive in it, as in DIRECTORY/libconsole.a".into());
    }
    // a relative path begins at the manifest, not where cargo was called
    let from = if archive.is_relative() {
        ", seen from host/snd"
    } else {
        ""
    };
    let bytes = fs::read(archive).map_err(|why| format!("no archive can be read there{from}: {why}"))?;
    if !bytes.starts_with(b"!<arch>\n") {
        return Err("no archive: its first bytes are not '!<arch>'".into());
    }
    // a symbol's name ends in a zero byte, in the archive's table as in those of its objects
    if !bytes.windows(8).any(|name| name == b"snd_new\0") {
        return Err("an archive, but not the driver's: it has no snd_new; tools/staticlib makes it".into());
    }
    Ok(())
}

/// The archive of this repository, made anew where it is stale.
fn own_archive() -> PathBuf {
    let manifest = env::var("CARGO_MANIFEST_DIR").expect("cargo sets it");
    let repository = Path::new(&manifest).join("../..");
    let archive = repository.join("target/staticlib/libconsole.a");
    let mut proved = changed(&repository.join("crates.txt"));
    for source in ["crates.txt", "tools/staticlib"] {
        println!("cargo:rerun-if-changed={}", repository.join(source).display());
    }
    for folder in proved_folders(&repository) {
        println!("cargo:rerun-if-changed={}", folder.display());
        proved = proved.max(newest(&folder));
    }
    if changed(&archive) < proved {
        make(&repository);
    }
    archive
}

/// What a proof reads of each crate. Beside it lies `out`, where proving leaves its work.
fn proved_folders(repository: &Path) -> Vec<PathBuf> {
    let crates = fs::read_dir(repository.join("crates")).into_iter().flatten().flatten();
    let parts = crates.flat_map(|of| ["src", "specs", "proofs"].map(|part| of.path().join(part)));
    parts.filter(|folder| folder.is_dir()).collect()
}

fn make(repository: &Path) {
    let script = repository.join("tools/staticlib");
    let (began, mut shown) = (Instant::now(), Shown::begin());
    let made = run(&script, |line| shown.line(line));
    let (done, said) = made.unwrap_or_else(|why| stop(&format!("bash {}: {why}", script.display())));
    if !done {
        stop(&format!("no archive was made (SND_LIB may name one):\n{said}"));
    }
    shown.tell(&format!("proved and made in {} s", began.elapsed().as_secs()));
}

/// Runs a script, and hands on each line as it comes: whether it succeeded, and all that it said.
fn run(script: &Path, mut hand_on: impl FnMut(&str)) -> std::io::Result<(bool, String)> {
    let both = "exec bash \"$0\" 2>&1";
    let mut command = Command::new("bash");
    let mut child = command.args(["-c", both]).arg(script).stdout(Stdio::piped()).spawn()?;
    let mut said = String::new();
    for line in BufReader::new(child.stdout.take().expect("it is piped")).split(b'\n') {
        let line = String::from_utf8_lossy(&line?).into_owned();
        hand_on(&line);
        said = said + &line + "\n";
    }
    Ok((child.wait()?.success(), said))
}

/// Where the proof shows how far it is. Cargo keeps what a build script says to itself, so it goes to the terminal. Where there is none, two
/// warnings are left, which cargo prints when the script has ended.
struct Shown(Option<File>);

impl Shown {
    fn begin() -> Self {
        let mut shown = Self(OpenOptions::new().write(true).open("/dev/tty").ok());
        shown.tell("there is no archive, or one older than the proved sources: they are proved, which takes minutes");
        shown
    }

    /// Of what the script says only what is about a whole crate.
    fn line(&mut self, line: &str) {
        let whole = line.starts_with("rt: ") || line.starts_with("tools/staticlib: ");
        if let (Some(terminal), true) = (&mut self.0, whole) {
            // over the line that cargo draws; that nobody sees it is no reason to stop
            let _ = writeln!(terminal, "\r\x1b[K{line}");
        }
    }

    /// The first line, or the last.
    fn tell(&mut self, line: &str) {
        match self.0 {
            Some(_) => self.line(&format!("tools/staticlib: {line}")),
            None => println!("cargo:warning={line}"),
        }
    }
}

/// Ends the build with a sentence, and no backtrace.
fn stop(why: &str) -> ! {
    eprintln!("{why}");
    std::process::exit(1)
}

/// When a file was last changed; long ago for one that is not there.
fn changed(file: &Path) -> SystemTime {
    let known = fs::metadata(file).and_then(|file| file.modified());
    known.unwrap_or(SystemTime::UNIX_EPOCH)
}

/// When the newest file below a folder was changed.
fn newest(folder: &Path) -> SystemTime {
    let entries = fs::read_dir(folder).into_iter().flatten().flatten();
    let times = entries.map(|entry| match entry.path() {
        path if path.is_dir() => newest(&path),
        path => changed(&path),
    });
    times.max().unwrap_or(SystemTime::UNIX_EPOCH)
}

/// An archive of any name: the linker is handed a copy called libconsole.a.
fn link(archive: &Path) {
    let out = PathBuf::from(env::var("OUT_DIR").expect("cargo sets it"));
    fs::copy(archive, out.join("libconsole.a")).expect("the archive is copied");
    println!("cargo:rustc-link-search=native={}", out.display());
    println!("cargo:rustc-link-lib=static=console");
}
