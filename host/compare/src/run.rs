//! A case over the three drivers; what was counted; the smallest input that shows a difference.
use crate::case::{Case, Step};
use crate::driver::{Driver, Seen};
use crate::host::Host;
use crate::judge::{Intended, OutOfDomain, intended, out_of_domain};
use crate::plain::Plain;
use crate::port::Port;
use crate::rust::Rust;
use crate::text::{case_text, step_text};
use oracle::{End, Inside};
use std::collections::BTreeMap;

/// The Rust makes its parameters at once, one for each stream: more than this is not asked of it.
const STREAMS: u32 = 1000;

/// What was compared.
#[derive(Clone, Debug, Default)]
pub struct Counts {
    pub cases: u64,
    /// steps of the port held to the rules
    pub steps: u64,
    pub turns: u64,
    pub submissions: u64,
    pub requests: u64,
    /// steps, control calls among them, and turns of the Rust held to the rules
    pub rust_steps: u64,
    pub rust_calls: u64,
    pub rust_turns: u64,
    pub intended: BTreeMap<Intended, u64>,
    pub outside: BTreeMap<OutOfDomain, u64>,
}

/// A difference that is on no list.
#[derive(Clone, Debug)]
pub struct Difference {
    pub step: usize,
    pub text: String,
}

/// Which drivers take part besides the rules.
#[derive(Copy, Clone, Debug, PartialEq, Eq)]
pub struct With {
    pub rust: bool,
    pub port: bool,
}

pub struct Trial {
    rules: Host<Plain>,
    port: Option<Host<Port>>,
    rust: Option<Rust>,
}

fn differ(who: &str, step: &Step, seen: &Seen, rules: &Seen) -> String {
    let mut text = format!("step `{}`\n", step_text(step));
    let told = |seen: &Seen| {
        format!("{} high half {:x} accepted {:?}", crate::record::seen_text(seen), seen.high, seen.accepted)
    };
    text += &format!("  {who:6} {}\n  rules  {}", told(seen), told(rules));
    seen.stray.iter().for_each(|stray| text += &format!("\n  {who}: {stray}"));
    text
}

impl Trial {
    pub fn new(case: &Case, with: With) -> Self {
        let rust = (with.rust && case.counts[1] <= STREAMS).then(|| Rust::new(case)).flatten();
        Trial { rules: Host::new(case), port: with.port.then(|| Host::new(case)), rust }
    }

    /// Makes a step on each; what the rules saw, or a difference.
    fn step(&mut self, case: &Case, step: &Step, counts: &mut Counts) -> Result<Seen, String> {
        let rules = self.rules.step(step).ok_or("a step with no meaning")?;
        counts.steps += 1;
        counts.turns += rules.turns;
        counts.submissions += rules.sent.len() as u64;
        counts.requests += rules.requests.len() as u64;
        if let Some(port) = &mut self.port {
            let seen = port.step(step).ok_or("a step with no meaning")?;
            if seen != rules {
                return Err(differ("port", step, &seen, &rules));
            }
        }
        self.hold_rust(case, step, &rules, counts)?;
        Ok(rules)
    }

    fn hold_rust(&mut self, case: &Case, step: &Step, rules: &Seen, counts: &mut Counts) -> Result<(), String> {
        let Some(rust) = &mut self.rust else { return Ok(()) };
        if let Some(why) = out_of_domain(step, rules, rust.owes()) {
            *counts.outside.entry(why).or_default() += 1;
            if !why.in_step(rules) {
                self.rust = None;
            }
            return Ok(());
        }
        let Some(seen) = rust.step(step) else { return Ok(()) };
        let rules = &*rules.forgetting();
        counts.rust_steps += 1;
        counts.rust_calls += u64::from(matches!(step, Step::Control { .. }));
        counts.rust_turns += seen.turns;
        let mut in_step = true;
        if seen != *rules {
            let Some(known) = intended(step, case.counts, &seen, rules) else {
                return Err(differ("rust", step, &seen, rules));
            };
            *counts.intended.entry(known).or_default() += 1;
            in_step = known.in_step();
        }
        let inside = (rust.inside(), self.rules.inside());
        if inside.0 != inside.1 {
            return Err(format!("step `{}`\n{}", step_text(step), inside_text(inside.0, inside.1)));
        }
        if !in_step {
            self.rust = None;
        }
        Ok(())
    }
}

fn inside_text(rust: Option<Inside>, rules: Option<Inside>) -> String {
    format!("  inside the rust  {rust:x?}\n  inside the rules {rules:x?}")
}

pub fn run(case: &Case, with: With, counts: &mut Counts) -> Result<(), Difference> {
    counts.cases += 1;
    let mut trial = Trial::new(case, with);
    for (at, step) in case.steps.iter().enumerate() {
        match trial.step(case, step, counts) {
            Err(text) => return Err(Difference { step: at, text }),
            // an exchange that waits for an answer is out of step with the Rust, which is still inside its call
            Ok(seen) if seen.end == End::Waits => trial.rust = None,
            Ok(_) => {}
        }
    }
    Ok(())
}

/// The smallest case found that differs as well: steps, answers and readings are dropped while it does.
pub fn shrink(case: &Case, with: With) -> Case {
    let differs = |case: &Case| run(case, with, &mut Counts::default()).is_err();
    let mut best = case.clone();
    loop {
        let Some(smaller) = smaller(&best).into_iter().find(|case| differs(case)) else {
            return best;
        };
        best = smaller;
    }
}

fn smaller(case: &Case) -> Vec<Case> {
    let mut all = vec![];
    let mut with_steps = |steps: Vec<Step>| all.push(Case { steps, ..case.clone() });
    for at in (0..case.steps.len()).rev() {
        let mut steps = case.steps.clone();
        steps.remove(at);
        with_steps(steps);
    }
    for (at, step) in case.steps.iter().enumerate() {
        for step in smaller_steps(step) {
            let mut steps = case.steps.clone();
            steps[at] = step;
            with_steps(steps);
        }
    }
    all
}

fn smaller_steps(step: &Step) -> Vec<Step> {
    let mut all = vec![];
    let Step::Transfer { stream, frames, budget, readings, answers } = step else {
        return all;
    };
    let (stream, answers) = (*stream, answers.clone());
    let mut push = |frames, budget, readings| {
        all.push(Step::Transfer { stream, frames, budget, readings, answers: answers.clone() })
    };
    // a budget that a run cannot use up is made small first; while it shows the difference the script stays, since a shorter one would not end
    if *budget > 10_000 {
        push(*frames, 500, readings.clone());
    } else {
        if !readings.is_empty() {
            push(*frames, *budget, readings[..readings.len() / 2].to_vec());
            push(*frames, *budget, readings[..readings.len() - 1].to_vec());
        }
        if *budget > 0 {
            push(*frames, budget / 2, readings.clone());
            push(*frames, budget - 1, readings.clone());
        }
    }
    if frames.len > 0 {
        push(crate::case::Frames { len: frames.len / 2, ..*frames }, *budget, readings.clone());
        push(crate::case::Frames { len: frames.len - 1, ..*frames }, *budget, readings.clone());
    }
    all
}

/// A difference as it is printed: the smallest case found, and how to run it again.
pub fn report(case: &Case, with: With) -> String {
    let small = shrink(case, with);
    let found = run(&small, with, &mut Counts::default());
    let text = found.err().map_or("(gone when run again)".into(), |d| format!("step {}: {}", d.step + 1, d.text));
    format!("DIFFERENCE\nas found: {}\nsmallest: {}\n{text}", case_text(case), case_text(&small))
}
