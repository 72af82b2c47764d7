//! Each row of docs/DIFFERENCES.md that can be run: the smallest input that shows it, and what each driver does with it.
use crate::case::Case;
use crate::driver::Driver;
use crate::host::Host;
use crate::judge::{Intended, intended};
use crate::plain::Plain;
use crate::port::Port;
use crate::record::seen_text;
use crate::rust::Rust;
use crate::text::{case_of, step_text};

/// A name, the case, and the entry of the closed list that its last step shows (none: the step is outside the domain, or the
/// difference is in how the number is come by).
pub const ROWS: [(&str, &str, Option<Intended>); 40] = [
    ("too many jacks", "171 0 0 slots | outputs < 8000", Some(Intended::TooMany)),
    ("too many streams", "0 128 0 slots | outputs < 8000 8000", Some(Intended::TooMany)),
    ("too many maps", "0 0 171 slots | outputs < 8000 8000 8000", Some(Intended::TooMany)),
    ("remap, no table", "1 0 0 slots | remap 0 0 0 < 8001 8000 8000", Some(Intended::NoInfo)),
    (
        "set, stream too high, ok",
        "0 0 0 slots | set 0 1 1 0 0 0 0 < 8000 8000 8000 8000",
        Some(Intended::SetStreamTooHigh),
    ),
    (
        "set, stream too high, refused",
        "0 0 0 slots | set 0 1 1 0 0 0 0 < 8000 8000 8000 8001",
        Some(Intended::SetStreamTooHigh),
    ),
    (
        "set, stream too high, failed",
        "0 0 0 slots | set 0 1 1 0 0 0 0 < 8000 8000 8000 F",
        Some(Intended::SetStreamTooHigh),
    ),
    ("transfer, stream too high", "0 0 0 slots | xfer 0 0.0 1 < 8000 8000 8000", Some(Intended::TransferStreamTooHigh)),
    ("model, no code", "0 0 0 slots model 0 | ctl 000000", Some(Intended::ModelPanics)),
    ("model, remap", "1 0 0 slots model 0 | ctl 02000000000000000000000000000000", Some(Intended::ModelPanics)),
    ("model, query of another length", "0 0 0 slots model 0 | ctl 01000000", Some(Intended::ModelPanics)),
    (
        "model, query of another size",
        "0 0 0 slots model 0 | ctl 01000000000000000000000000000000",
        Some(Intended::ModelPanics),
    ),
    (
        "model, query past the table",
        "0 0 0 slots model 0 | ctl 01000000000000000100000018000000",
        Some(Intended::ModelPanics),
    ),
    ("model, set of another length", "0 1 0 slots model 0 | ctl 0101000000000000", Some(Intended::ModelPanics)),
    (
        "model, set past the streams",
        "0 0 0 slots model 0 | ctl 010100000000000000000000000000000000000000000000",
        Some(Intended::ModelPanics),
    ),
    ("model, command of another length", "0 0 0 slots model 0 | ctl 02010000", Some(Intended::ModelPanics)),
    ("model, short transfer", "0 1 0 slots model 0 | tx 000000", Some(Intended::ModelPanics)),
    ("model, transfer past the streams", "0 0 0 slots model 0 | tx 00000000", Some(Intended::ModelPanics)),
    ("the queue fails", "0 0 0 slots | prepare 0 < 8000 8000 8000 F", None),
    ("a slow device", "0 1 0 slots | set 0 1 1 0 0 0 0 < 8000 8000 8000 8000 ; xfer 0 1.0 1", None),
    (
        "a call while a slot is owed",
        "0 1 0 descriptors | set 0 1 1 0 0 0 0 < 8000 8000 8000 8000 ; xfer 0 1.0 1 ; prepare 0 < 8000",
        None,
    ),
    (
        "a transfer, an owed slot completes",
        "0 1 0 descriptors | set 0 1 1 0 0 0 0 < 8000 8000 8000 8000 ; xfer 0 1.0 1 ; xfer 0 1.0 1 s32",
        None,
    ),
    (
        "a transfer of nothing while a slot is owed",
        "0 1 0 descriptors | set 0 1 1 0 0 0 0 < 8000 8000 8000 8000 ; xfer 0 1.0 1 ; xfer 0 0.0 1",
        None,
    ),
    (
        "a transfer while ten are owed",
        "0 1 0 descriptors | set 0 1 1 0 0 0 0 < 8000 8000 8000 8000 ; xfer 0 10.0 10 ; xfer 0 1.0 1",
        None,
    ),
    (
        "a transfer, one of ten owed completes",
        "0 1 0 descriptors | set 0 1 1 0 0 0 0 < 8000 8000 8000 8000 ; xfer 0 10.0 10 ; xfer 0 1.0 1 s32",
        None,
    ),
    (
        "strict, a jack query of its header alone",
        "1 0 0 slots strict | outputs < 8000~4=1 8001/4 ; remap 0 1 2 < 8000/4 8000/4 8000/4 8000/4",
        None,
    ),
    ("guard, a start that was never prepared", "0 1 0 slots guard | start 0 < 8000 8000 8000 8000", None),
    ("guard, a command past the streams", "0 0 0 slots guard | prepare 0 < 8000 8000 8000 8000", None),
    (
        "a submission, stream too high",
        "0 0 0 slots | submit 0 1.0 80 < 8000 8000 8000",
        Some(Intended::SubmitStreamTooHigh),
    ),
    (
        "a submission that is no period",
        "0 1 0 slots | set 0 1 1 0 0 0 0 < 8000 8000 8000 8000 ; submit 0 0.0 80",
        Some(Intended::NotOnePeriod),
    ),
    ("a finish of nothing", "0 0 0 slots | finish 0", Some(Intended::FinishUnknown)),
    (
        "a finish after a status that is not ok",
        "0 1 0 slots | set 0 1 1 0 0 0 0 < 8000 8000 8000 8000 ; submit 0 1.0 80 ; mark s0:8003 ; finish 0",
        Some(Intended::FinishStatus),
    ),
    (
        "a finish out of order",
        "0 1 0 slots | set 0 1 1 0 0 0 0 < 8000 8000 8000 8000 ; submit 0 1.0 80 ; submit 0 1.0 80 ; mark s1 s0 ; finish 0",
        Some(Intended::FinishOrder),
    ),
    (
        "a finish of what is not completed, another is",
        "0 1 0 slots | set 0 1 1 0 0 0 0 < 8000 8000 8000 8000 ; submit 0 1.0 80 ; submit 0 1.0 80 ; mark s1 ; finish 0",
        Some(Intended::FinishEarly),
    ),
    (
        "a finish of what is not completed",
        "0 1 0 slots | set 0 1 1 0 0 0 0 < 8000 8000 8000 8000 ; submit 0 1.0 80 ; finish 0",
        None,
    ),
    ("a submission with every place taken", FULL, None),
    ("a submission without room", "0 1 0 slots | set 0 1 1 0 0 0 0 < 8000 8000 8000 8000 ; submit 0 1.0 79", None),
    (
        "a transfer while a token is pending",
        "0 1 0 slots | set 0 1 1 0 0 0 0 < 8000 8000 8000 8000 ; submit 0 1.0 80 ; xfer 0 1.0 2 o",
        None,
    ),
    (
        "a submission while a slot is owed",
        "0 1 0 slots | set 0 1 1 0 0 0 0 < 8000 8000 8000 8000 ; xfer 0 1.0 1 ; submit 0 1.0 80",
        None,
    ),
    (
        "guard, a submission of a stream that is not prepared",
        "0 1 0 slots guard | set 0 1 1 0 0 0 0 < 8000 8000 8000 8000 ; submit 0 1.0 80",
        None,
    ),
];

/// Sixteen submissions, and one more.
const FULL: &str = "0 1 0 slots | set 0 1 1 0 0 0 0 < 8000 8000 8000 8000 ; submit 0 1.0 80 ; submit 0 1.0 80 ; submit 0 1.0 80 ; \
    submit 0 1.0 80 ; submit 0 1.0 80 ; submit 0 1.0 80 ; submit 0 1.0 80 ; submit 0 1.0 80 ; submit 0 1.0 80 ; submit 0 1.0 80 ; \
    submit 0 1.0 80 ; submit 0 1.0 80 ; submit 0 1.0 80 ; submit 0 1.0 80 ; submit 0 1.0 80 ; submit 0 1.0 80 ; submit 0 1.0 80";

/// What the three drivers do at the last step of a case; the Rust is asked also outside the domain.
pub fn last(case: &Case) -> [Option<(String, Option<Intended>)>; 3] {
    let (mut rules, mut port) = (Host::<Plain>::new(case), Host::<Port>::new(case));
    let mut rust = Rust::new(case);
    let mut told = [const { None }; 3];
    for step in &case.steps {
        let expected = rules.step(step);
        let seen = rust.as_mut().and_then(|rust| rust.step(step));
        let known = match (&seen, &expected) {
            (Some(seen), Some(expected)) => intended(step, case.counts, seen, expected),
            _ => None,
        };
        let text = |seen: Option<crate::driver::Seen>| seen.map(|seen| (seen_text(&seen), known));
        told = [text(seen), text(expected), text(port.step(step))];
    }
    told
}

/// Prints every row. The number of rows that do not show what they say.
pub fn print() -> u64 {
    let mut wrong = 0;
    for (name, text, entry) in ROWS {
        let case = case_of(text);
        println!("{name}\n  {text}");
        let told = last(&case);
        for (who, told) in ["rust ", "rules", "port "].into_iter().zip(&told) {
            let said = told.as_ref().map_or("not at hand", |(text, _)| text);
            println!("  {who} {said}");
        }
        let [rust, rules, port] = told;
        let shown = rust.is_none_or(|(_, known)| known == entry);
        wrong += u64::from(!shown || rules.map(|r| r.0) != port.map(|p| p.0));
    }
    wrong += u64::from(!log_panics());
    wrong
}

/// With logging on, a channel map of more than 18 channels makes the Rust panic as it prints it; the port has no logging.
fn log_panics() -> bool {
    let case = case_of("0 0 1 slots | outputs < 8000 8000 8000~5=19");
    oracle::logging(true);
    let told = last(&case);
    oracle::logging(false);
    println!("a map of 19 channels, with logging on\n  {}", step_text(&case.steps[0]));
    let said = told[0].as_ref().map(|(text, _)| text.clone());
    println!("  rust  {}", said.as_deref().unwrap_or("not at hand"));
    said.is_none_or(|text| text.starts_with("panics"))
}
