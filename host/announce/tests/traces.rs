//! The trace of an announcement: with every fault it is one that the judge accepts, and ends with the page's answer; where no turn ran it is empty.
mod common;

use common::{Folder, complains, frames};
use snd::Refusal;
use snd::trace::{self, DIRECT, Field, Fields, Judged};
use std::process::Output;

/// The line that answers.
fn answer(output: &Output) -> String {
    let page = String::from_utf8(output.stdout.clone()).unwrap();
    let line = page.lines().find(|line| line.starts_with("answer ")).unwrap();
    line.trim_start_matches("answer").trim_start().into()
}

/// Runs with a trace and without: the page answers the same. The trace.
fn traced(folder: &Folder, words: &str) -> (Vec<u8>, String) {
    let output = folder.run(&format!("{words} --trace t.trace"));
    let plain = folder.run(words);
    assert_eq!(answer(&output), answer(&plain), "{words}");
    assert_eq!(output.status, plain.status, "{words}");
    (folder.read("t.trace"), answer(&output))
}

#[test]
fn every_fault_has_a_trace_that_is_accepted() {
    let folder = Folder::new("trace");
    folder.write("a.raw", &frames(10_000));
    folder.write("b.raw", &frames(8_192));
    let faults = [
        ("", 0),
        ("a.raw", 0),
        ("a.raw --period 4", 0),
        ("--seconds 0", 0),
        ("--slow 3", 0),
        ("--slow 40", 0),
        ("--fail-at 5", 2),
        ("--fail-at 5 --slow 3", 2),
        ("--fail-at 5 --fail-status 0", 2),
        ("--fail-at 1 --fail-status 0xffffffff", 2),
        ("--wrong-slot-at 4", 6),
        ("--wrong-slot-at 1", 6),
        ("--wrong-slot-at 4 --slow 2", 6),
        ("--budget 20 --slow 4", 9),
        ("--budget 1", 9),
        // faults of the drain, which writes nothing
        ("--slow 4 --budget 20 --fail-at 7", 9),
        ("--wrong-slot-at 6 --slow 4 --budget 20", 9),
        ("--fail-call stop", 0),
        ("--fail-call release", 0),
        ("--short-jacks", 0),
        ("--short-jacks --strict --fail-call remap", 0),
        ("--guard", 0),
        ("--virtio 1.3 --controls 2", 0),
        ("--join b.raw a.raw", 0),
        ("--join b.raw a.raw --fail-at 4", 2),
    ];
    for (words, ended) in faults {
        let (trace, said) = traced(&folder, words);
        assert_eq!(trace::judge(DIRECT, &trace), Ok(()), "{words}");
        assert_eq!(
            Fields::of(&trace).last().unwrap().1,
            Field::End { answer: ended },
            "{words}"
        );
        // a stop or a release that the device refused came after the transfer
        if !words.contains("--fail-call") {
            let number = said.split_whitespace().next().unwrap();
            assert_eq!(number, ended.to_string(), "{words}: {said}");
        }
    }
}

/// Where no turn ran nothing was written, and an older file is not left there.
#[test]
fn no_turn_leaves_no_trace() {
    let folder = Folder::new("trace-none");
    let faults = [
        "--budget 0",
        "--fail-call streams",
        "--fail-call set-parameters",
        "--fail-call prepare",
        "--fail-call start",
    ];
    for words in faults {
        folder.write("t.trace", b"an older one");
        let (trace, _said) = traced(&folder, words);
        assert_eq!(trace, b"", "{words}");
        let empty = Judged {
            number: Refusal::BadTrace,
            at: 0,
        };
        assert_eq!(trace::judge(DIRECT, &trace), Err(empty));
    }
}

/// The bytes that docs/TRACE.md shows.
#[test]
fn the_example_is_what_is_written() {
    let folder = Folder::new("trace-example");
    folder.write("ten.raw", b"ten bytes.");
    let (trace, _said) = traced(&folder, "ten.raw --channels 1 --period 4");
    let page = include_str!("../../../docs/TRACE.md");
    let (_, block) = page.split_once("are 79 bytes:\n\n").unwrap();
    let (block, _) = block.split_once("\n\n").unwrap();
    let mut shown = vec![];
    for line in block.lines() {
        let bytes = line.split_whitespace().skip(1);
        let hex = bytes.take_while(|word| word.len() == 2);
        shown.extend(hex.map(|word| u8::from_str_radix(word, 16).unwrap()));
    }
    assert_eq!(trace, shown);
}

#[test]
fn what_has_no_trace_is_told() {
    let folder = Folder::new("trace-complaints");
    folder.write("a.raw", &frames(100));
    folder.write("b.raw", &frames(100));
    let one = "--trace writes the trace of one announcement: name one FILE, or join them with --join";
    complains(&folder.run("a.raw b.raw --trace t"), one);
    complains(
        &folder.run("a.raw --go-on --trace t"),
        "--trace goes with a transfer: what does not wait has no turns to write it",
    );
    complains(
        &folder.run("--record r --periods 3 --trace t"),
        "--trace goes with announcements: leave it out with --record",
    );
    complains(
        &folder.run("--trace -"),
        "--trace takes a file's name; standard output has the page",
    );
    complains(
        &folder.run("a.raw --trace a.raw"),
        "--trace a.raw would overwrite the input a.raw",
    );
    complains(
        &folder.run("a.raw --log t --trace t"),
        "--log t and --trace t are the same file",
    );
    assert!(!folder.0.join("t").exists());
}
