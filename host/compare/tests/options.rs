//! An option that is not known, and a run of no case, end with a sentence and a status that is not 0.
use std::process::{Command, Output};

fn compare(args: &[&str]) -> Output {
    Command::new(env!("CARGO_BIN_EXE_compare")).args(args).output().expect("the program runs")
}

/// Refused with status 2: the sentence, then how it is used, and nothing was run.
fn refused(args: &[&str], sentence: &str) {
    let Output { status, stdout, stderr } = compare(args);
    let said = String::from_utf8_lossy(&stderr);
    assert_eq!(status.code(), Some(2), "compare {args:?}: {said}");
    assert_eq!(said.lines().next(), Some(&*format!("compare: {sentence}")), "compare {args:?}");
    assert!(said.contains("compare --cases N --seed S"), "compare {args:?} does not tell how it is used");
    assert_eq!(stdout, [], "compare {args:?} ran something");
}

#[test]
fn what_is_no_option_is_refused() {
    refused(&["--case5"], "--case5 is no option");
    refused(&["--no-prot"], "--no-prot is no option");
    refused(&["--short", "more"], "more is no option");
    refused(&["--no-rust", "--shrot"], "--shrot is no option");
}

#[test]
fn an_option_has_its_value_once() {
    refused(&["--cases"], "--cases has no value");
    refused(&["--replay", "--short"], "--replay has no value");
    refused(&["--cases", "many"], "--cases many: no number below 2^64");
    refused(&["--cases", "-1"], "--cases -1: no number below 2^64");
    refused(&["--cases", "1", "--cases", "2"], "--cases is given twice");
    refused(
        &["--seed", "5"],
        "--seed goes with --cases, --strict, --guard, --pending, --indirect, --captures, --entries, --wav or --traces",
    );
    refused(&["--short", "--check", "x"], "--short, --check: one of these at a time");
}

#[test]
fn a_run_of_no_case_is_refused() {
    refused(&["--cases", "0"], "--cases 0: there is nothing to run");
    refused(&["--entries", "0", "--seed", "7"], "--entries 0: there is nothing to run");
    refused(&["--cases", "1", "--entries", "0"], "--entries 0: there is nothing to run");
    let last = u64::MAX.to_string();
    let few = format!("--cases 2: there are not so many seeds from {last} on");
    refused(&["--cases", "2", "--seed", &last], &few);
    refused(&["--entries", "1", "--no-port"], "--no-port leaves nothing of this to run");
    refused(&["--captures", "1", "--no-port"], "--no-port leaves nothing of this to run");
    refused(&["--traces", "1", "--no-port"], "--no-port leaves nothing of this to run");
    refused(&["--wav", "1", "--no-port"], "--no-port leaves nothing of this to run");
    refused(&["--replay", "recorded.txt", "--no-port"], "--no-port leaves nothing of this to run");
    refused(&["--no-rust", "--no-port"], "--no-rust and --no-port leave nothing to compare");
    refused(&["--short", "--no-short"], "--short and --no-short leave no case");
    refused(&["--case", "0 0 0 slots |"], "the case has no step");
}

#[test]
fn a_list_of_no_case_is_no_list() {
    let file = std::env::temp_dir().join(format!("compare-no-case-{}", std::process::id()));
    std::fs::write(&file, "# nothing\n").expect("a temporary file");
    let Output { status, stdout, .. } = compare(&["--replay", file.to_str().expect("a name in UTF-8")]);
    std::fs::remove_file(&file).expect("it is ours");
    assert_eq!(status.code(), Some(1));
    assert!(String::from_utf8_lossy(&stdout).contains("there is nothing to replay"));
}

#[test]
fn the_last_seed_is_a_case() {
    let Output { status, stdout, .. } = compare(&["--cases", "1", "--seed", &u64::MAX.to_string()]);
    // 77 where the Rust's text is not at hand
    assert!(matches!(status.code(), Some(0 | 77)), "{status}");
    assert!(String::from_utf8_lossy(&stdout).contains(": 1 cases, "));
}
