//! The recorded list: cases, and what the Rust did on them, as text.
use crate::case::Case;
use crate::driver::{DIGEST, Driver, Seen, digest};
use crate::host::Host;
use crate::judge::{intended, out_of_domain};
use crate::plain::Plain;
use crate::port::Port;
use crate::rust::Rust;
use crate::text::{case_of, case_text, hex, step_text};
use crate::{guarded, indirect, pending, random, short};
use oracle::End;

fn list<T>(items: &[T], text: impl Fn(&T) -> String) -> String {
    items.iter().map(text).collect::<Vec<_>>().join(",")
}

fn panics(text: &str) -> String {
    format!("panics ({})", text.split_whitespace().collect::<Vec<_>>().join(" "))
}

/// What was seen, in one line, without what only the Rust's insides show.
pub fn seen_text(seen: &Seen) -> String {
    let mut parts = vec![match &seen.end {
        End::Number(n) => n.to_string(),
        End::Panic(text) => panics(text),
        End::Spins => "spins".into(),
        End::Waits => "waits".into(),
    }];
    let mut add = |name: &str, text: String| {
        if !text.is_empty() {
            parts.push(format!("{name} {text}"));
        }
    };
    add("values", list(&seen.values, |v| format!("{v:x}")));
    add("requests", list(&seen.requests, |r| hex(r)));
    add("heard", list(&seen.heard, |h| h.map_or("F".into(), |h| format!("{h:x}"))));
    if seen.unread > 0 {
        add("unread", seen.unread.to_string());
    }
    if seen.turns > 0 || !seen.log.is_empty() {
        add("turns", format!("{} log {:016x}", seen.turns, log_digest(seen)));
    }
    add("sent", list(&seen.sent, |s| format!("{}:{}+{}", s.slot, s.offset, s.length)));
    if !seen.sent.is_empty() {
        let all = seen.sent.iter().fold(DIGEST, |d, s| digest(d, &s.digest.to_le_bytes()));
        add("bytes", format!("{all:016x}"));
    }
    add("flight", list(&seen.in_flight, |(slot, offset, length)| format!("{slot}:{offset}+{length}")));
    add("pending", list(&seen.pending, u64::to_string));
    if seen.recorded != 0 {
        add("recorded", format!("{:016x}", seen.recorded));
    }
    if let Some(model) = &seen.model {
        add("answer", model.answer.as_ref().map_or_else(|text| panics(text), |a| hex(a)));
        add("payload", if model.payload.is_empty() { String::new() } else { hex(&model.payload) });
        add("params", list(&model.params, |p| p.as_ref().map_or("none".into(), |p| hex(p))));
        add("played", list(&model.played, u64::to_string));
    }
    parts.join(" ")
}

/// Each turn's free descriptors, submission and reading.
fn log_digest(seen: &Seen) -> u64 {
    seen.log.iter().fold(DIGEST, |all, turn| {
        let (slot, status) = turn.read.unwrap_or((0, 0));
        let small = [turn.free as u8, turn.sent.map_or(255, |s| s as u8), turn.looked as u8, turn.read.is_some() as u8];
        digest(digest(digest(all, &small), &slot.to_le_bytes()), &status.to_le_bytes())
    })
}

/// What a recorded file begins with.
const HEAD: &str = "\
# What the Rust driver itself did, case by case, as run by `compare --record` over its text; `compare --replay` holds the port to it
# with no text at hand, and `compare --check` fails where recording again gives other bytes. Made of the short cases named in
# src/record.rs and of random ones from the seeds named there. The form of a case stands in src/text.rs. Beneath a case, one line a step:
# what the Rust did, `-` where it has no counterpart or is not asked (outside document 01's domain), `!` where it differs as intended.
";

/// Random cases that are recorded: the seeds below this.
const SEEDS: u64 = 120;
/// Of the short cases of a group every so many-th is recorded.
const SHORT: [(&str, usize); 13] = [
    ("numbers", 97),
    ("periods", 61),
    ("statuses", 211),
    ("counts", 5),
    ("stale pages", 17),
    ("pairs of calls", 253),
    ("events", 1),
    ("short scripts", 251),
    ("lengths", 67),
    ("budgets", 19),
    ("drains", 97),
    ("model", 7),
    ("announcements", 13),
];

/// The same of strict mode.
const STRICT_SEEDS: u64 = 20;
const STRICT: [(&str, usize); 4] = [
    ("strict, as before", 499),
    ("strict, stale pages", 29),
    ("strict, boundaries", 61),
    ("strict, announcements", 13),
];

/// The same under the guard.
const GUARD_SEEDS: u64 = 20;
const GUARD: [(&str, usize); 6] = [
    ("guard, states", 41),
    ("guard, walks", 307),
    ("guard, short answers", 61),
    ("guard, ranges", 59),
    ("guard, set-ups", 53),
    ("guard, as before", 1009),
];

/// The same of what does not wait.
const PENDING_SEEDS: u64 = 20;
const PENDING: [(&str, usize); 7] = [
    ("pending, lengths", 37),
    ("pending, tokens", 11),
    ("pending, orders", 997),
    ("pending, wrong", 17),
    ("pending, meanwhile", 7),
    ("pending, set-ups", 13),
    ("pending, played", 5),
];

/// The same with indirect descriptors.
const INDIRECT_SEEDS: u64 = 60;
const INDIRECT: [(&str, usize); 6] = [
    ("indirect, as before", 401),
    ("indirect, rounds", 23),
    ("indirect, full", 101),
    ("indirect, places", 37),
    ("indirect, tokens", 5),
    ("indirect, pending", 29),
];

/// The cases of the recorded list; those of document 02 came later, and stand after all others.
fn cases() -> Vec<Case> {
    let mut all = vec![];
    some_of(&short::GROUPS, &SHORT, &mut all);
    all.extend((0..SEEDS).map(random::case));
    some_of(&short::STRICT, &STRICT, &mut all);
    all.extend((0..STRICT_SEEDS).map(random::strict));
    some_of(&guarded::GROUPS, &GUARD, &mut all);
    all.extend((0..GUARD_SEEDS).map(random::guarded));
    some_of(&pending::GROUPS, &PENDING, &mut all);
    all.extend((0..PENDING_SEEDS).map(random::pending));
    some_of(&indirect::GROUPS, &INDIRECT, &mut all);
    all.extend((0..INDIRECT_SEEDS).map(random::indirect));
    all
}

fn some_of(groups: &[short::Group], some: &[(&str, usize)], all: &mut Vec<Case>) {
    assert!(groups.iter().map(|group| group.0).eq(some.iter().map(|some| some.0)), "every group is named");
    for ((_, group), (_, every)) in groups.iter().zip(some) {
        let mut at = 0;
        group(&mut |case| {
            if at % every == 0 {
                all.push(case);
            }
            at += 1;
        });
    }
}

/// What the Rust did at each step of a case, as text.
fn told(case: &Case) -> Option<Vec<String>> {
    let mut rules = Host::<Plain>::new(case);
    let mut rust = Some(Rust::new(case)?);
    let mut lines = vec![];
    for step in &case.steps {
        let expected = rules.step(step)?;
        let outside = rust.as_ref().and_then(|rust| out_of_domain(step, &expected, rust.owes()));
        let asked = rust.as_mut().filter(|_| outside.is_none());
        let seen = asked.and_then(|rust| rust.step(step));
        let excused = seen.as_ref().and_then(|seen| intended(step, case.counts, seen, &expected));
        lines.push(match (&seen, excused) {
            (None, _) => "-".into(),
            (Some(seen), None) => seen_text(seen),
            (Some(_), Some(known)) => format!("! {known:?}"),
        });
        let in_step = excused.is_none_or(|known| known.in_step()) && outside.is_none_or(|why| why.in_step(&expected));
        if !in_step || expected.end == End::Waits {
            rust = None;
        }
    }
    Some(lines)
}

/// The recorded list as it is made now; none where the Rust's text is not at hand.
pub fn made() -> Option<String> {
    let mut text = HEAD.to_string();
    for (name, sha) in oracle::text() {
        text += &format!("# {name} sha256 {sha}\n");
    }
    for case in cases() {
        let lines = told(&case)?;
        // a case of which the Rust says nothing records nothing
        if lines.iter().any(|line| line != "-") {
            text += &format!("{}\n  {}\n", case_text(&case), lines.join("\n  "));
        }
    }
    Some(text)
}

/// Holds the port to the recorded list: how many cases and steps agreed, or the first that did not.
pub fn replay(text: &str) -> Result<(u64, u64), String> {
    let (mut cases, mut steps) = (0, 0);
    let mut lines = text.lines().filter(|line| !line.starts_with('#')).peekable();
    while let Some(line) = lines.next() {
        let case = case_of(line);
        let mut port = Host::<Port>::new(&case);
        cases += 1;
        for step in &case.steps {
            let expected = lines.next().ok_or("the recorded list is cut short")?.trim_start();
            let seen = port.step(step).ok_or("a step with no meaning")?;
            if !seen.stray.is_empty() {
                return Err(format!("{line}\n  at `{}`: {}", step_text(step), seen.stray.join("; ")));
            }
            if expected == "-" || expected.starts_with('!') {
                continue;
            }
            steps += 1;
            if seen_text(&seen) != expected {
                return Err(format!(
                    "{line}\n  at `{}`\n  recorded {expected}\n  port     {}",
                    step_text(step),
                    seen_text(&seen)
                ));
            }
        }
    }
    Ok((cases, steps))
}
