//! What was heard before a failure: the page says it by the driver's own count, and the model device by what it accepted; for every option that makes a
//! device fail, at every place, the two are the same.
mod common;

use common::json::{self, Json};
use common::{Folder, frames};

const PERIOD: usize = 1000;
/// Nine periods, the last of them cut.
const BYTES: usize = 8 * PERIOD + 300;

/// The lines of a page with this name, in order.
fn lines<'p>(page: &'p str, name: &str) -> Vec<&'p str> {
    let named = page
        .lines()
        .filter(|line| line.get(..13).is_some_and(|front| front.trim_end() == name));
    named.map(|line| line.get(13..).unwrap_or_default()).collect()
}

/// Two channels of 16 bits at 48,000 Hz.
fn seconds(bytes: usize) -> String {
    format!("{:.6}", bytes as f64 / (4.0 * 48_000.0))
}

/// Speaks, and holds the page to what the device had accepted when the transfer answered: the bytes that were spoken.
fn heard(folder: &Folder, words: &str) -> Option<usize> {
    let output = folder.run(&format!(
        "{words} --period {PERIOD} --accepted accepted.raw --log log.json"
    ));
    let page = String::from_utf8(output.stdout).unwrap();
    let (spoken, operator) = (lines(&page, "spoken"), lines(&page, "operator"));
    let log = json::read(&folder.text("log.json"));
    let told = log.at("announcements").list()[0].at("spoken");
    if lines(&page, "answer") == ["0 Ok"] {
        assert_eq!((spoken.len(), operator.len(), told), (0, 0, &Json::Null), "{words}");
        return None;
    }
    // what the device took, byte for byte
    let accepted = folder.read("accepted.raw");
    assert_eq!(accepted, frames(BYTES as u32)[..accepted.len()], "{words}");
    let periods = accepted.len().div_ceil(PERIOD);
    let wanted = format!(
        "{periods} of 9 periods, {} bytes, {} seconds",
        accepted.len(),
        seconds(accepted.len())
    );
    assert_eq!(spoken, [wanted], "{words}");
    let numbers = ["periods", "of", "bytes"].map(|name| told.at(name).number() as usize);
    assert_eq!(
        (numbers, told.at("same")),
        ([periods, 9, accepted.len()], &Json::Truth(true)),
        "{words}"
    );
    let (some, all) = (seconds(accepted.len()), seconds(BYTES));
    let screen = match accepted.len() {
        0 => "nothing was spoken when it failed: repeat the announcement".into(),
        BYTES => format!("all {all} seconds were spoken; what failed came after"),
        _ => format!("the first {some} of {all} seconds were spoken when it failed: repeat the announcement"),
    };
    assert_eq!(operator, [screen], "{words}");
    Some(accepted.len())
}

fn folder(name: &str) -> Folder {
    let folder = Folder::new(name);
    folder.write("a.raw", &frames(BYTES as u32));
    folder
}

#[test]
fn a_device_that_fails_each_period() {
    let folder = folder("spoken-fail");
    for slow in [1, 2, 5] {
        for at in 1..=10 {
            for more in ["", "--strict --guard", "--fail-status 0x8001", "--indirect"] {
                let spoken = heard(&folder, &format!("a.raw --slow {slow} --fail-at {at} {more}"));
                assert_eq!(spoken, (at <= 9).then_some((at - 1) * PERIOD));
            }
        }
    }
}

#[test]
fn a_device_that_names_a_wrong_slot_at_each_completion() {
    let folder = folder("spoken-wrong");
    for slow in [1, 2, 5] {
        for at in 1..=10 {
            let spoken = heard(&folder, &format!("a.raw --slow {slow} --wrong-slot-at {at}"));
            assert_eq!(spoken, (at <= 9).then_some((at - 1) * PERIOD));
            // a period that fails behind it, in the drain
            heard(
                &folder,
                &format!("a.raw --slow {slow} --wrong-slot-at {at} --fail-at {at}"),
            );
        }
    }
}

/// Every budget: the turn that takes the last period is not the one that says Ok.
#[test]
fn each_budget() {
    let folder = folder("spoken-budget");
    for slow in [1, 2, 5] {
        for budget in 0..=9 * slow + 1 {
            let spoken = heard(&folder, &format!("a.raw --slow {slow} --budget {budget}"));
            let periods = budget / slow;
            assert_eq!(
                spoken,
                (budget <= 9 * slow).then_some((periods * PERIOD).min(BYTES)),
                "{slow} {budget}"
            );
        }
    }
}

#[test]
fn each_call_that_is_refused() {
    let folder = folder("spoken-call");
    for (call, spoken) in [
        ("streams", 0),
        ("set-parameters", 0),
        ("prepare", 0),
        ("start", 0),
        ("stop", BYTES),
        ("release", BYTES),
    ] {
        assert_eq!(
            heard(&folder, &format!("a.raw --fail-call {call}")),
            Some(spoken),
            "{call}"
        );
        // what failed first is told
        let first = heard(&folder, &format!("a.raw --fail-call {call} --fail-at 3"));
        assert_eq!(first, Some(spoken.min(2 * PERIOD)), "{call}");
    }
    assert_eq!(heard(&folder, "a.raw --short-jacks --fail-call remap"), None);
}

/// On one device the ring keeps the count of the transfer before: of an announcement that ran no turn nothing was spoken.
#[test]
fn each_of_several_announcements() {
    let folder = folder("spoken-several");
    let run = |words: &str| {
        let output = folder.run(&format!("a.raw a.raw a.raw --period {PERIOD} {words}"));
        let page = String::from_utf8(output.stdout).unwrap();
        let spoken = lines(&page, "spoken").into_iter().map(str::to_string);
        spoken.collect::<Vec<_>>()
    };
    let said = |periods: usize| {
        let bytes = periods * PERIOD;
        format!("{periods} of 9 periods, {bytes} bytes, {} seconds", seconds(bytes))
    };
    // of nine periods each: the second announcement's fourth
    assert_eq!(run("--fail-at 13"), [said(3)]);
    assert_eq!(run("--wrong-slot-at 20"), [said(1)]);
    assert_eq!(run("--budget 4"), [said(4), said(4), said(4)]);
    assert_eq!(run("--budget 0"), [said(0), said(0), said(0)]);
    assert_eq!(run(""), Vec::<String>::new());
}

/// A sentence of three words and a pause: up to which of them.
#[test]
fn up_to_which_part() {
    let folder = Folder::new("spoken-join");
    for (name, periods) in [("feeder.raw", 2), ("pause.raw", 0), ("one.raw", 1), ("four.raw", 3)] {
        folder.write(name, &frames(periods * PERIOD as u32));
    }
    let words = "--join feeder.raw pause.raw one.raw four.raw";
    for (spoken, whole, into, all, part, name) in [
        (0, 0, 0, 2000, 1, "feeder.raw"),
        (1, 0, 1000, 2000, 1, "feeder.raw"),
        (2, 2, 0, 1000, 3, "one.raw"),
        (3, 3, 0, 3000, 4, "four.raw"),
        (5, 3, 2000, 3000, 4, "four.raw"),
    ] {
        for fault in [
            format!("--fail-at {}", spoken + 1),
            format!("--wrong-slot-at {}", spoken + 1),
        ] {
            let output = folder.run(&format!("{words} --period {PERIOD} {fault} --slow 2"));
            let page = String::from_utf8(output.stdout).unwrap();
            let bytes = spoken * PERIOD;
            let wanted = [
                format!("{spoken} of 6 periods, {bytes} bytes, {} seconds", seconds(bytes)),
                format!("{whole} of 4 parts whole, then {into} of {all} bytes of part {part}, {name}"),
            ];
            assert_eq!(lines(&page, "spoken"), wanted);
            let [operator] = lines(&page, "operator")[..] else {
                panic!("one sentence: {page}")
            };
            assert_eq!(
                operator.contains(&format!(", up to {name}: repeat")),
                spoken > 0,
                "{operator}"
            );
        }
    }
    // all of it
    let output = folder.run(&format!("{words} --period {PERIOD} --fail-call stop"));
    let page = String::from_utf8(output.stdout).unwrap();
    assert_eq!(
        lines(&page, "spoken"),
        [format!("6 of 6 periods, 6000 bytes, {} seconds", seconds(6000))]
    );
}

/// What does not wait is no transfer, and its ring tells nothing of it.
#[test]
fn what_does_not_wait() {
    let folder = folder("spoken-go-on");
    let output = folder.run(&format!("a.raw --go-on --fail-at 3 --period {PERIOD}"));
    let page = String::from_utf8(output.stdout).unwrap();
    assert_eq!((lines(&page, "spoken").len(), output.status.code()), (0, Some(1)));
}
