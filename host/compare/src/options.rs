//! What the program is asked for. Whatever would run no case, or is not known, is refused with a sentence.
use compare::case::Case;
use compare::run::With;
use compare::text;
use std::ops::RangeInclusive;

pub const USAGE: &str = "\
compare                      short cases, random cases, single entries, WAVE files, the recorded list (the gate)
compare --cases N --seed S   N random cases from seed S; case i has seed S + i, so that `--cases 1 --seed S+i` repeats it
compare --strict N --seed S  the same in strict mode
compare --guard N --seed S   the same under the guard
compare --pending N --seed S the same of what does not wait
compare --indirect N --seed S the same with indirect descriptors
compare --captures N --seed S the same of captures, the port against the rules
compare --short              the short cases alone
compare --entries N --seed S N sequences of single entries, the port against the rules
compare --wav N --seed S     N random WAVE files read and N written, and large ones, the port against the rules
compare --traces N --seed S  N transfers that write a trace, and the judge of what they wrote and of what it is changed to, the port against the rules
compare --case TEXT          one case (src/text.rs)
compare --record FILE        writes the recorded list; --check FILE fails where it would be another; --replay FILE holds the port to it
compare --differences        the smallest input of each intended difference, run
Further: --no-port leaves the port out; --no-rust leaves the Rust out; --no-short leaves the short cases out";

/// What to run.
pub enum Run {
    Gate {
        short: bool,
    },
    Short,
    /// random cases, those of strict mode, those under the guard, those of what does not wait, those with indirect descriptors, those of captures, sequences of entries, WAVE files, and traces, by their seeds
    Random {
        cases: Option<Seeds>,
        strict: Option<Seeds>,
        guard: Option<Seeds>,
        pending: Option<Seeds>,
        indirect: Option<Seeds>,
        captures: Option<Seeds>,
        entries: Option<Seeds>,
        waves: Option<Seeds>,
        traces: Option<Seeds>,
    },
    Case(Case),
    Record(String),
    Check(String),
    Replay(String),
    Differences,
}

pub type Seeds = RangeInclusive<u64>;

pub struct Options {
    pub with: With,
    pub run: Run,
}

const WORDS: [&str; 5] = ["--short", "--differences", "--no-port", "--no-rust", "--no-short"];
const WITH_VALUE: [&str; 14] = [
    "--cases",
    "--strict",
    "--guard",
    "--pending",
    "--indirect",
    "--captures",
    "--entries",
    "--wav",
    "--traces",
    "--seed",
    "--case",
    "--record",
    "--check",
    "--replay",
];
/// These go together; of all others one at a time.
const SEEDED: [&str; 9] =
    ["--cases", "--strict", "--guard", "--pending", "--indirect", "--captures", "--entries", "--wav", "--traces"];
const OTHERS: [&str; 6] = ["--short", "--differences", "--case", "--record", "--check", "--replay"];

/// The options given, each with its value, if it takes one.
struct Given(Vec<(String, String)>);

impl Given {
    fn of(args: impl IntoIterator<Item = String>) -> Result<Self, String> {
        let (mut all, mut args): (Vec<(String, String)>, _) = (vec![], args.into_iter());
        while let Some(name) = args.next() {
            let value = match &name[..] {
                word if WORDS.contains(&word) => String::new(),
                word if WITH_VALUE.contains(&word) => {
                    let value = args.next().filter(|value| !value.starts_with("--"));
                    value.ok_or(format!("{name} has no value"))?
                }
                _ => return Err(format!("{name} is no option")),
            };
            if all.iter().any(|(given, _)| *given == name) {
                return Err(format!("{name} is given twice"));
            }
            all.push((name, value));
        }
        Ok(Given(all))
    }

    fn value(&self, name: &str) -> Option<&str> {
        self.0.iter().find(|(given, _)| given == name).map(|(_, value)| &value[..])
    }

    fn has(&self, name: &str) -> bool {
        self.value(name).is_some()
    }

    fn number(&self, name: &str) -> Result<Option<u64>, String> {
        let read = |value: &str| value.parse().map_err(|_| format!("{name} {value}: no number below 2^64"));
        self.value(name).map(read).transpose()
    }

    /// So many seeds as an option says, one at least.
    fn seeds(&self, name: &str) -> Result<Option<Seeds>, String> {
        let first = self.number("--seed")?.unwrap_or(1);
        let Some(count) = self.number(name)? else { return Ok(None) };
        let more = count.checked_sub(1).ok_or(format!("{name} 0: there is nothing to run"))?;
        let last =
            first.checked_add(more).ok_or(format!("{name} {count}: there are not so many seeds from {first} on"))?;
        Ok(Some(first..=last))
    }

    fn run(&self) -> Result<Run, String> {
        let runs: Vec<&str> = OTHERS.into_iter().chain(SEEDED).filter(|name| self.has(name)).collect();
        let file = |name| self.value(name).unwrap_or_default().to_string();
        if self.has("--seed") && !SEEDED.iter().any(|name| self.has(name)) {
            return Err(
                "--seed goes with --cases, --strict, --guard, --pending, --indirect, --captures, --entries, --wav or --traces"
                    .into(),
            );
        }
        Ok(match runs[..] {
            [] => Run::Gate { short: !self.has("--no-short") },
            ["--short"] => Run::Short,
            ["--differences"] => Run::Differences,
            ["--case"] => Run::Case(text::case_of(&file("--case"))),
            ["--record"] => Run::Record(file("--record")),
            ["--check"] => Run::Check(file("--check")),
            ["--replay"] => Run::Replay(file("--replay")),
            ref runs if runs.iter().all(|name| SEEDED.contains(name)) => Run::Random {
                cases: self.seeds("--cases")?,
                strict: self.seeds("--strict")?,
                guard: self.seeds("--guard")?,
                pending: self.seeds("--pending")?,
                indirect: self.seeds("--indirect")?,
                captures: self.seeds("--captures")?,
                entries: self.seeds("--entries")?,
                waves: self.seeds("--wav")?,
                traces: self.seeds("--traces")?,
            },
            _ => return Err(format!("{}: one of these at a time", runs.join(", "))),
        })
    }
}

/// The options, or why they are refused.
pub fn options(args: impl IntoIterator<Item = String>, rust_at_hand: bool) -> Result<Options, String> {
    let given = Given::of(args)?;
    let with = With { rust: rust_at_hand && !given.has("--no-rust"), port: !given.has("--no-port") };
    let run = given.run()?;
    let nothing = match &run {
        _ if given.has("--no-rust") && given.has("--no-port") => "--no-rust and --no-port leave nothing to compare",
        Run::Short if given.has("--no-short") => "--short and --no-short leave no case",
        Run::Random { captures: Some(_), .. }
        | Run::Random { entries: Some(_), .. }
        | Run::Random { waves: Some(_), .. }
        | Run::Random { traces: Some(_), .. }
        | Run::Replay(_)
            if !with.port =>
        {
            "--no-port leaves nothing of this to run"
        }
        Run::Case(case) if case.steps.is_empty() => "the case has no step",
        _ => return Ok(Options { with, run }),
    };
    Err(nothing.into())
}
