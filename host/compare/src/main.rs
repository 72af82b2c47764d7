//! Runs the comparison. With no options: what the gate runs. Exit status: 0 all agreed, 1 a difference, 77 all that could be run agreed
//! but the Rust's text was not at hand, 2 an option that is not known or a run of no case.
mod options;

use compare::case::Case;
use compare::entries::Entries;
use compare::plain::Plain;
use compare::port::Port;
use compare::run::{Counts, With, report, run};
use compare::waves::{self, Kinds};
use compare::{captures, guarded, indirect, pending, raw, record, rust, short, shown, stages, traces, versions};
use options::{Options, Run, Seeds, USAGE, options};
use std::process::exit;
use std::time::Instant;

/// Random cases and sequences of entries that the gate runs.
const CASES: Seeds = 1..=60_000;
const STRICT: Seeds = 1..=10_000;
const GUARD: Seeds = 1..=10_000;
const PENDING: Seeds = 1..=10_000;
/// With indirect descriptors, of all these kinds.
const INDIRECT: Seeds = 1..=15_000;
/// A million turns of captures and more.
const CAPTURES: Seeds = 1..=10_000;
const ENTRIES: Seeds = 1..=8_000;
const WAVES: Seeds = 1..=200_000;
/// Each has one transfer that writes a trace, and five traces that it is changed to.
const TRACES: Seeds = 1..=20_000;
/// From so many files, or transfers, on every kind of fault must have been seen.
const ENOUGH: u64 = 10_000;
/// Entries in one sequence.
const LENGTH: usize = 60;
const RECORDED: &str = concat!(env!("CARGO_MANIFEST_DIR"), "/recorded.txt");

fn main() {
    let asked = options(std::env::args().skip(1), oracle::AT_HAND);
    let Options { with, run } = asked.unwrap_or_else(|why| {
        eprintln!("compare: {why}\n\n{USAGE}");
        exit(2)
    });
    rust::quiet_panics();
    for (name, sha) in oracle::text() {
        println!("{name} sha256 {sha}");
    }
    match run {
        Run::Record(file) => write(&file),
        Run::Check(file) => finish(check(&file)),
        // needs no text of the Rust's
        Run::Replay(file) => exit(if replay(&file) { 0 } else { 1 }),
        Run::Case(case) => finish(one(&case, with)),
        Run::Short => finish(short_cases(with)),
        Run::Differences => finish(shown::print() == 0),
        Run::Random { cases, strict, guard, pending, indirect, captures, entries, waves, traces } => {
            let agreed = cases.is_none_or(|seeds| random_cases(with, seeds));
            let agreed = agreed && strict.is_none_or(|seeds| strict_cases(with, seeds));
            let agreed = agreed && guard.is_none_or(|seeds| guarded_cases(with, seeds));
            let agreed = agreed && pending.is_none_or(|seeds| pending_cases(with, seeds));
            let agreed = agreed && indirect.is_none_or(|seeds| indirect_cases(with, seeds));
            let agreed = agreed && captures.is_none_or(|seeds| capture_cases(with, seeds));
            let agreed = agreed && entries.is_none_or(random_entries);
            let agreed = agreed && waves.is_none_or(|seeds| random_waves(seeds) && large_waves());
            finish(agreed && traces.is_none_or(random_traces))
        }
        Run::Gate { short } => finish(gate(with, short)),
    }
}

fn finish(agreed: bool) -> ! {
    if !agreed {
        exit(1);
    }
    if !oracle::AT_HAND {
        println!("skipped: the Rust's text is not at hand (VIRTIO_SOUND_SRC), so nothing was compared with it");
        exit(77);
    }
    exit(0)
}

fn gate(with: With, short: bool) -> bool {
    let short = !short || short_cases(with);
    let random = random_cases(with, CASES) && strict_cases(with, STRICT) && guarded_cases(with, GUARD);
    let random = random && pending_cases(with, PENDING) && indirect_cases(with, INDIRECT);
    let random = random && (!with.port || capture_cases(with, CAPTURES));
    let entries = !with.port || entries_by_stage() && random_entries(ENTRIES);
    let waves = !with.port || random_waves(WAVES) && large_waves();
    let traces = !with.port || random_traces(TRACES) && every_byte_of_traces();
    let versions = !with.port || by_version();
    let recorded = !with.port || replay(RECORDED);
    short && random && entries && waves && traces && versions && recorded
}

fn told(name: &str, counts: &Counts, since: Instant) {
    let Counts { cases, steps, turns, submissions, requests, .. } = counts;
    println!("{name}: {cases} cases, {steps} steps, {turns} turns, {submissions} submissions, {requests} requests");
    let Counts { rust_steps, rust_calls, rust_turns, .. } = counts;
    println!("  with the Rust: {rust_steps} steps, {rust_calls} of them control calls, {rust_turns} turns");
    if !counts.intended.is_empty() || !counts.outside.is_empty() {
        println!("  intended differences {:?}; outside the domain {:?}", counts.intended, counts.outside);
    }
    println!("  {:.1} s", since.elapsed().as_secs_f64());
}

/// Runs a case; a difference is printed with its smallest input.
fn agrees(case: &Case, with: With, counts: &mut Counts) -> bool {
    let agreed = run(case, with, counts).is_ok();
    if !agreed {
        println!("{}", report(case, with));
    }
    agreed
}

fn short_cases(with: With) -> bool {
    let (mut counts, since, mut agreed) = (Counts::default(), Instant::now(), true);
    for (_, group) in short::GROUPS
        .into_iter()
        .chain(short::STRICT)
        .chain(guarded::GROUPS)
        .chain(pending::GROUPS)
        .chain(captures::GROUPS)
        .chain(indirect::GROUPS)
        .chain([indirect::CAPTURES])
    {
        group(&mut |case| agreed = agreed && agrees(&case, with, &mut counts));
    }
    told("short cases", &counts, since);
    agreed & masks()
}

/// Document 01: a format or rate set has bit n for number n. No entry of the port shows the masks; its own proofs hold them to this.
fn masks() -> bool {
    let Some((formats, rates)) = oracle::masks() else { return true };
    let same = formats.iter().chain(&rates).eq((0..25).chain(0..14).map(|n| 1u64 << n).collect::<Vec<_>>().iter());
    if !same {
        println!("DIFFERENCE in the masks: formats {formats:x?}, rates {rates:x?}");
    }
    same
}

fn random_cases(with: With, seeds: Seeds) -> bool {
    from_seeds("cases", compare::random::case, with, seeds)
}

fn strict_cases(with: With, seeds: Seeds) -> bool {
    from_seeds("strict", compare::random::strict, with, seeds)
}

fn guarded_cases(with: With, seeds: Seeds) -> bool {
    from_seeds("guard", compare::random::guarded, with, seeds)
}

fn pending_cases(with: With, seeds: Seeds) -> bool {
    from_seeds("pending", compare::random::pending, with, seeds)
}

fn indirect_cases(with: With, seeds: Seeds) -> bool {
    from_seeds("indirect", compare::random::indirect, with, seeds)
}

fn capture_cases(with: With, seeds: Seeds) -> bool {
    from_seeds("captures", compare::random::capture, with, seeds)
}

fn from_seeds(option: &str, made: fn(u64) -> Case, with: With, seeds: Seeds) -> bool {
    let (mut counts, since, first) = (Counts::default(), Instant::now(), *seeds.start());
    for seed in seeds {
        if !agrees(&made(seed), with, &mut counts) {
            println!("repeat with --{option} 1 --seed {seed}");
            return false;
        }
    }
    let name = match option {
        "strict" => "random cases in strict mode",
        "guard" => "random cases under the guard",
        "pending" => "random cases of what does not wait",
        "indirect" => "random cases with indirect descriptors",
        "captures" => "random cases of captures",
        _ => "random cases",
    };
    told(&format!("{name} from seed {first}"), &counts, since);
    true
}

/// The sizes handed out, and every entry at every stage.
fn entries_by_stage() -> bool {
    let (port, rules) = ((Port::sizes(), Port::entry_size()), (Plain::sizes(), Plain::entry_size()));
    if port != rules {
        println!("DIFFERENCE in the sizes handed out: port {port:?}, rules {rules:?}");
        return false;
    }
    let since = Instant::now();
    let agreed = stages::all();
    match &agreed {
        Ok(count) => println!("entries at every stage, each length and each damage that both know in turn: {count}"),
        Err(text) => println!("DIFFERENCE\n{text}"),
    }
    println!("  {:.1} s", since.elapsed().as_secs_f64());
    agreed.is_ok()
}

fn random_entries(seeds: Seeds) -> bool {
    let (since, mut refused, mut entries, first) = (Instant::now(), 0, 0, *seeds.start());
    for seed in seeds {
        if let Err((ops, _)) = raw::sequence(seed, LENGTH) {
            let (ops, text) = raw::shrink(ops);
            println!("DIFFERENCE\n{ops:#x?}\n{text}\nrepeat with --entries 1 --seed {seed}");
            return false;
        }
        match raw::damaged(seed, LENGTH) {
            Ok(number) => (refused, entries) = (refused + number, entries + LENGTH),
            Err(text) => {
                println!("DIFFERENCE on damaged stores\n{text}\nrepeat with --entries 1 --seed {seed}");
                return false;
            }
        }
    }
    println!(
        "entries from seed {first}: {entries} on good stores, {entries} on damaged ones ({refused} refused with 1)"
    );
    println!("  {:.1} s", since.elapsed().as_secs_f64());
    true
}

fn random_waves(seeds: Seeds) -> bool {
    let (since, mut kinds, first) = (Instant::now(), Kinds::default(), *seeds.start());
    let count = (seeds.end() - first).saturating_add(1);
    for seed in seeds {
        if let Err(text) = waves::tried(seed, &mut kinds) {
            println!("DIFFERENCE\n{text}\nrepeat with --wav 1 --seed {seed}");
            return false;
        }
    }
    println!("WAVE files from seed {first}: {count} read, {count} written");
    println!("  {:?}", kinds.0);
    println!("  {:.1} s", since.elapsed().as_secs_f64());
    let missing = kinds.missing();
    let enough = count < ENOUGH || missing.is_empty();
    if !enough {
        println!("never seen: {missing:?}");
    }
    enough
}

/// A file of 64 MiB, and sizes around 2^32.
fn large_waves() -> bool {
    let since = Instant::now();
    let tried = waves::large().and_then(|count| Ok((count, waves::huge()?)));
    match &tried {
        Ok((count, Some(more))) => println!("large WAVE files: {count} of 64 MiB, {more} of about 4 GiB"),
        Ok((count, None)) => println!("large WAVE files: {count} of 64 MiB; there is no room for 4 GiB"),
        Err(text) => println!("DIFFERENCE\n{text}"),
    }
    println!("  {:.1} s", since.elapsed().as_secs_f64());
    tried.is_ok()
}

fn random_traces(seeds: Seeds) -> bool {
    let (since, mut tally, first) = (Instant::now(), traces::Tally::default(), *seeds.start());
    for seed in seeds {
        if let Err(text) = traces::tried(seed, &mut tally) {
            println!("DIFFERENCE\n{text}\nrepeat with --traces 1 --seed {seed}");
            return false;
        }
    }
    let traces::Tally { transfers, turns, ends, judged, compared } = &tally;
    println!("traces from seed {first}: {transfers} transfers that write one, {turns} turns, ended {ends:?}");
    println!("  {} judged: {judged:?}", judged.values().sum::<u64>());
    println!("  {} compared: {compared:?}", compared.values().sum::<u64>());
    println!("  {:.1} s", since.elapsed().as_secs_f64());
    let enough = *transfers < ENOUGH || tally.missing().is_empty();
    if !enough {
        println!("never seen: {:?}", tally.missing());
    }
    enough
}

fn every_byte_of_traces() -> bool {
    let since = Instant::now();
    let tried = traces::each_byte();
    match &tried {
        Ok(count) => println!("every byte of short traces, and long ones: {count} judged and compared"),
        Err(text) => println!("DIFFERENCE\n{text}"),
    }
    println!("  {:.1} s", since.elapsed().as_secs_f64());
    tried.is_ok()
}

/// Configurations and events of VirtIO 1.2 and 1.3.
fn by_version() -> bool {
    let since = Instant::now();
    let tried = versions::all();
    match &tried {
        Ok(count) => println!("configurations and events by version: {count}"),
        Err(text) => println!("DIFFERENCE\n{text}"),
    }
    println!("  {:.1} s", since.elapsed().as_secs_f64());
    tried.is_ok()
}

fn write(file: &str) {
    let Some(made) = record::made() else { finish(true) };
    std::fs::write(file, &made).unwrap_or_else(|why| panic!("{file}: {why}"));
    println!("{file}: {} lines, {} bytes", made.lines().count(), made.len());
}

fn recorded(file: &str) -> String {
    std::fs::read_to_string(file).unwrap_or_else(|why| panic!("{file}: {why}"))
}

fn check(file: &str) -> bool {
    let Some(made) = record::made() else { return true };
    let same = made == recorded(file);
    println!("{file}: recorded again, {}", if same { "the same bytes" } else { "OTHER BYTES" });
    same
}

fn replay(file: &str) -> bool {
    match record::replay(&recorded(file)) {
        Ok((_, 0)) => {
            println!("{file} has no step of the Rust's: there is nothing to replay");
            false
        }
        Ok((cases, steps)) => {
            println!("recorded list: {cases} cases, {steps} steps of the Rust replayed on the port");
            true
        }
        Err(text) => {
            println!("DIFFERENCE from the recorded list\n{text}");
            false
        }
    }
}

fn one(case: &Case, with: With) -> bool {
    for (who, told) in ["rust ", "rules", "port "].into_iter().zip(shown::last(case)) {
        println!("{who} {}", told.map_or("not at hand".into(), |(text, _)| text));
    }
    let mut counts = Counts::default();
    let agreed = run(case, with, &mut counts);
    if let Err(difference) = &agreed {
        println!("step {}: {}", difference.step + 1, difference.text);
    }
    agreed.is_ok()
}
