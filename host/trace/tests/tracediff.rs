//! What `tracediff` says of two traces: stored pages, and each status.
mod common;
#[allow(dead_code)]
#[path = "../../announce/tests/common/json.rs"]
mod json;

use common::{Folder, complains, end, failed_fields, good, held, shown, start, submitted, ten_fields};
use json::Json;
use std::process::Output;

const TRACEDIFF: &str = env!("CARGO_BIN_EXE_tracediff");

fn run(first: &[u8], second: &[u8], words: &str) -> Output {
    let folder = Folder::new("tracediff");
    folder.write("a", first);
    folder.write("b", second);
    folder.run(TRACEDIFF, &format!("{words} a b"))
}

/// A page for people and one for programs.
fn pages(first: &[Vec<u8>], second: &[Vec<u8>], name: &str, status: i32) {
    let (first, second) = (first.concat(), second.concat());
    held(&run(&first, &second, ""), &format!("diff-{name}"), status);
    held(&run(&first, &second, "--json"), &format!("diff-{name}.json"), status);
}

/// The sheet's own example, and what it is the other way round.
#[test]
fn two_traces_of_an_announcement() {
    pages(&ten_fields(), &failed_fields(), "example", 1);
    pages(&failed_fields(), &ten_fields(), "example-back", 1);
}

#[test]
fn equal_traces() {
    pages(&ten_fields(), &ten_fields(), "equal", 0);
    // which need be no runs
    pages(&[end(255)], &[end(255)], "equal", 0);
}

#[test]
fn every_kind_of_field() {
    let first = [start(0, 10, 4), submitted(0, 0, 4), good(0), end(0)];
    let second = [start(u32::MAX, 11, 5), submitted(255, 1, u32::MAX), good(7), end(9)];
    pages(&first, &second, "every-field", 1);
}

#[test]
fn one_ends_before_the_other() {
    pages(&ten_fields()[..5], &ten_fields(), "shorter", 1);
    pages(&ten_fields(), &ten_fields()[..5], "longer", 1);
}

/// Nothing is aligned: a field left out makes all behind it others.
#[test]
fn a_field_left_out() {
    let mut second = ten_fields();
    second.remove(2);
    pages(&ten_fields(), &second, "left-out", 1);
}

#[test]
fn what_is_no_trace_is_refused() {
    let cut = vec![ten_fields().concat()[..30].to_vec()];
    pages(&cut, &ten_fields(), "refused-first", 2);
    pages(&ten_fields(), &cut, "refused-second", 2);
    // the first is judged first, also where the second breaks off earlier
    pages(&cut, &[], "refused-first", 2);
    pages(&[], &[], "refused-empty", 2);
}

/// What programs read says the same as what people read.
#[test]
fn the_json_has_every_difference() {
    let output = run(&ten_fields().concat(), &failed_fields().concat(), "--json");
    let read = json::read(&String::from_utf8(output.stdout).unwrap());
    assert_eq!(
        (read.at("program").text(), read.at("version").number()),
        ("tracediff", 1)
    );
    assert_eq!(read.at("refused"), &Json::Null);
    let list = read.at("differences").list();
    let told: Vec<_> = list
        .iter()
        .map(|one| (one.at("position").number(), one.at("kind").text()))
        .collect();
    let wanted = [
        (4, "other"),
        (5, "only first"),
        (5, "only second"),
        (6, "only first"),
        (7, "only first"),
    ];
    assert_eq!(told, wanted);
    assert_eq!(list[0].at("second").at("status").number(), 0x8003);
    assert_eq!(list[1].at("first").at("offset").number(), 8);
    assert_eq!(list[1].at("second"), &Json::Null);
    let refused = run(&ten_fields().concat(), b"\x03\x01\x00", "--json");
    let read = json::read(&String::from_utf8(refused.stdout).unwrap());
    let told = read.at("refused");
    assert_eq!((told.at("number").number(), told.at("trace").text()), (18, "second"));
    assert_eq!((told.at("offset").number(), read.at("differences")), (0, &Json::Null));
}

/// The page shows what it says.
#[test]
fn the_page_shows_the_example() {
    let page = shown("Of the two traces above `tracediff ten.trace failed.trace` prints, with exit status 1:");
    let output = run(&ten_fields().concat(), &failed_fields().concat(), "");
    assert_eq!(page, String::from_utf8(output.stdout).unwrap());
    let page = shown("`tracediff --json ten.trace failed.trace` prints:");
    let output = run(&ten_fields().concat(), &failed_fields().concat(), "--json");
    assert_eq!(page, String::from_utf8(output.stdout).unwrap());
}

/// A trace of 100,002 fields against one that lacks its start: all others differ.
#[test]
fn a_megabyte_is_compared() {
    let mut trace = start(1, 50_000, 1);
    for at in 0..50_000 {
        let slot = (at % 32) as u8;
        trace.extend([submitted(slot, at, 1), good(slot)].concat());
    }
    let output = run(&trace, &trace[15..], "");
    let text = String::from_utf8(output.stdout).unwrap();
    assert_eq!(text.lines().next(), Some("differences 200001"));
    assert_eq!((text.lines().count(), output.status.code()), (200_002, Some(1)));
}

#[test]
fn bad_usage_and_files() {
    let folder = Folder::new("usage");
    folder.write("a", &ten_fields().concat());
    held(&folder.run(TRACEDIFF, "a --help"), "help-tracediff", 0);
    held(&folder.run(TRACEDIFF, "-- a a"), "diff-equal", 0);
    let two = "tracediff: two FILEs are compared; see --help";
    complains(&folder.run(TRACEDIFF, ""), two);
    complains(&folder.run(TRACEDIFF, "a"), two);
    complains(&folder.run(TRACEDIFF, "a a a --json"), two);
    complains(
        &folder.run(TRACEDIFF, "--hex a a"),
        "tracediff: unknown option --hex; see --help",
    );
    complains(
        &folder.run(TRACEDIFF, "a no-such-file"),
        "tracediff: cannot read no-such-file: No such file or directory (os error 2)",
    );
}
