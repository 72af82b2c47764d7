//! Speaks announcements through the proved driver to the model device, and prints what an auditor wants to see.
#![forbid(unsafe_code)]
#![deny(clippy::unwrap_used, clippy::expect_used, clippy::panic, clippy::indexing_slicing)]

mod account;
mod breakers;
mod clock;
mod device;
mod form;
mod going_on;
mod help;
mod join;
mod json;
mod log;
mod microphone;
mod options;
mod overwrite;
mod picture;
mod progress;
mod record;
mod recording;
mod report;
mod sizes;
mod speak;
mod svg;
mod timeline;
mod told;
mod tone;
mod wave;

use options::{Asked, Options};
use page::Built;
use report::Report;
use std::io::Write;
use std::os::unix::ffi::OsStrExt;
use std::path::Path;
use std::process::ExitCode;
use std::time::SystemTime;

/// Exit status where every announcement was given whole.
const GIVEN: u8 = 0;
/// Exit status where one was not.
const NOT_GIVEN: u8 = 1;
/// Exit status where the options or the files are at fault.
const NOT_RUN: u8 = 2;

fn main() -> ExitCode {
    let words: Vec<_> = std::env::args_os().skip(1).collect();
    let outcome = match options::parse(&words) {
        Ok(Asked::Help(text)) => say(text).map(|()| GIVEN),
        Ok(Asked::Run(options)) => run(&options),
        Err(why) => Err(why),
    };
    let status = outcome.unwrap_or_else(|why| {
        eprintln!("announce: {why}");
        NOT_RUN
    });
    ExitCode::from(status)
}

/// Reads all, speaks all, writes the outputs, prints the pages.
fn run(options: &Options) -> Result<u8, String> {
    overwrite::refuse(options)?;
    let date = clock::utc(SystemTime::now());
    let built = Built::here(Some(&date));
    if let Some(file) = &options.record {
        return record(options, file, built);
    }
    let recordings = recording::all(options)?;
    let told = speak::all(options, &recordings);
    let pairs = recordings.iter().zip(told);
    let reports: Vec<_> = pairs
        .map(|(recording, told)| Report::new(options, recording, told))
        .collect();
    let status = if reports.iter().all(Report::given) {
        GIVEN
    } else {
        NOT_GIVEN
    };
    write_outputs(options, &reports, built, status)?;
    say(&pages(&reports, built))?;
    Ok(status)
}

/// Records, writes what was kept, and prints the page.
fn record(options: &Options, file: &Path, built: Built) -> Result<u8, String> {
    let recorded = record::all(options)?;
    let kept = recorded.kept();
    if file.as_os_str().as_bytes().ends_with(b".wav") {
        write(file, &wave::file(options.form(), kept)?)?;
    } else {
        write(file, kept)?;
    }
    let name = recording::plain(&file.to_string_lossy());
    let page = recorded.page(options, &name, built);
    say(&page.to_string())?;
    Ok(if page.given() { GIVEN } else { NOT_GIVEN })
}

fn write_outputs(options: &Options, reports: &[Report], built: Built, status: u8) -> Result<(), String> {
    let accepted: Vec<u8> = reports.iter().flat_map(Report::accepted).copied().collect();
    if let Some(file) = &options.accepted {
        write(file, &accepted)?;
    }
    if let (Some(file), Some(first)) = (&options.wav, reports.first()) {
        write(file, &wave::file(first.recording.form, &accepted)?)?;
    }
    if let Some(file) = &options.log {
        write(file, log::of(reports, built, status).as_bytes())?;
    }
    if let Some(file) = &options.picture {
        write(file, picture::of(reports).as_bytes())?;
    }
    if let (Some(file), Some(only)) = (&options.trace, reports.first()) {
        write(file, &only.told.trace)?;
    }
    Ok(())
}

fn write(file: &Path, bytes: &[u8]) -> Result<(), String> {
    std::fs::write(file, bytes).map_err(|why| format!("cannot write {}: {why}", file.display()))
}

/// A page for each, with an empty line between, and a closing line where there are several.
fn pages(reports: &[Report], built: Built) -> String {
    let pages: Vec<_> = reports.iter().map(|report| report.page(built).to_string()).collect();
    let given = reports.iter().filter(|report| report.given()).count();
    match pages.len() {
        1 => pages.concat(),
        all => pages.join("\n") + "\n" + &page::Together { all, given }.to_string(),
    }
}

fn say(text: &str) -> Result<(), String> {
    let written = std::io::stdout().write_all(text.as_bytes());
    written.map_err(|why| format!("cannot write to standard output: {why}"))
}
