//! Times the driver through its C entries, through the safe crate, and the Rust's own text where it is at hand: the same work, one run.
//!
//! `bench` prints the table. `bench WAY WORK TIMES` does one piece of work so many times, for tools/instructions to count.
#![deny(unsafe_code)]

mod entries;
mod rust_text;
mod safe;
mod ways;
mod work;

use std::time::{Duration, Instant};
use ways::Way;
use work::Work;

/// How long one reading of the clock covers, at least.
const LONG_ENOUGH: Duration = Duration::from_millis(20);
/// The best of so many readings counts: what disturbs a reading only makes it longer.
const READINGS: usize = 7;

fn main() {
    let words: Vec<String> = std::env::args().skip(1).collect();
    match words.as_slice() {
        [] => table(),
        [way, work, times] => once(way, work, times),
        _ => complain("no words, or: WAY WORK TIMES"),
    }
}

fn complain(usage: &str) -> ! {
    let names: Vec<_> = Work::ALL.iter().map(|work| work.name()).collect();
    eprintln!(
        "bench takes {usage}. Ways: entries, snd, rust. Work: {}",
        names.join(", ")
    );
    std::process::exit(2)
}

/// One piece of work, `times` times.
fn once(way: &str, work: &str, times: &str) {
    let work = Work::ALL.iter().find(|known| known.name() == work);
    let (Some(work), Ok(times)) = (work, times.parse()) else {
        complain("WAY WORK TIMES")
    };
    let mut way: Box<dyn Way> = match way {
        "entries" => Box::new(entries::Entries::new()),
        "snd" => Box::new(safe::Safe::new()),
        "rust" if matches!(work, Work::Capture | Work::LongCapture) => {
            complain("another work: the Rust has no captures")
        }
        "rust" => rust_text::way().unwrap_or_else(|| complain("a way that is at hand; the Rust's own text is not")),
        _ => complain("WAY WORK TIMES"),
    };
    let done = work::run(*work, way.as_mut(), &work.frames(), times);
    println!("{done}");
}

/// Nanoseconds for one unit of work: the best of several readings.
fn measure(work: Work, way: &mut dyn Way) -> f64 {
    let frames = work.frames();
    let mut times = 1;
    let mut best = f64::MAX;
    let mut readings = 0;
    while readings < READINGS {
        let began = Instant::now();
        let units = work::run(work, way, &frames, times);
        let took = began.elapsed();
        if took < LONG_ENOUGH {
            times *= 2;
            continue;
        }
        readings += 1;
        best = best.min(took.as_nanos() as f64 / units as f64);
    }
    best
}

fn table() {
    let (mut entries, mut safe, mut rust) = (entries::Entries::new(), safe::Safe::new(), rust_text::way());
    println!(
        "{:44} {:>12} {:>12} {:>12} {:>13}",
        "nanoseconds", "C entries", "crate snd", "the Rust", "entries/Rust"
    );
    for &work in Work::ALL {
        let ours = measure(work, &mut entries);
        let wrapped = measure(work, &mut safe);
        let (theirs, ratio) = match &mut rust {
            Some(rust) if work.both() => {
                let theirs = measure(work, rust.as_mut());
                (format!("{theirs:.1}"), format!("{:.2}", ours / theirs))
            }
            _ => ("-".into(), "-".into()),
        };
        println!(
            "{:44} {ours:>12.1} {wrapped:>12.1} {theirs:>12} {ratio:>13}",
            work.title()
        );
    }
    if rust.is_none() {
        println!("The Rust's own text is not at hand in this build: its columns are empty.");
    }
}
