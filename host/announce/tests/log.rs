//! The log, read back.
mod common;

use common::json::{self, Json};
use common::{Folder, frames};
use std::process::Command;

/// Runs the program, and reads the log that it wrote.
fn log(folder: &Folder, words: &str) -> Json {
    folder.run(&format!("{words} --log log.json"));
    json::read(&folder.text("log.json"))
}

/// Members of an object, as numbers.
fn numbers<const N: usize>(of: &Json, names: [&str; N]) -> [u64; N] {
    names.map(|name| of.at(name).number())
}

#[test]
fn a_good_run() {
    let folder = Folder::new("log-good");
    let frames = frames(10_000);
    folder.write("feeder.raw", &frames);
    let log = log(&folder, "feeder.raw");
    assert_eq!(numbers(&log, ["version", "exit_status"]), [1, 0]);
    let [announcement] = log.at("announcements").list() else {
        panic!("one announcement")
    };
    assert_eq!(announcement.at("announcement").text(), "feeder.raw");
    assert_eq!(announcement.at("sha256").text(), sha256::hex(&frames));
    let accepted = announcement.at("accepted");
    assert_eq!(accepted.at("sha256").text(), sha256::hex(&frames));
    assert_eq!(numbers(accepted, ["bytes", "periods"]), [10_000, 3]);
    let answer = announcement.at("answer");
    assert_eq!((answer.at("number").number(), answer.at("name").text()), (0, "Ok"));
    for name in ["call", "status", "cause"] {
        assert_eq!(answer.at(name), &Json::Null, "{name}");
    }
    assert_eq!(announcement.at("given"), &Json::Truth(true));
    assert_eq!(announcement.at("broke_off"), &Json::Null);
    let longest = announcement.at("longest_turn").seconds();
    // four turns are allowed; both figures are rounded
    assert!((announcement.at("at_most").seconds() - 4.0 * longest).abs() < 1e-8);
    for name in ["gaps", "faults", "warnings"] {
        assert_eq!(announcement.at(name).list(), []);
    }
    periods_in_order(announcement.at("periods").list(), &[4096, 4096, 1808]);
}

#[test]
fn a_wave_file() {
    let folder = Folder::new("log-wav");
    let file = common::wave(1, snd::Format::S24In3, snd::Rate::Hz22050, &frames(9_999));
    folder.write("feeder.wav", &file);
    let log = log(&folder, "feeder.wav");
    let announcement = &log.at("announcements").list()[0];
    assert_eq!(numbers(announcement.at("wave"), ["bytes", "offset"]), [10_044, 44]);
    assert_eq!(announcement.at("bytes").number(), 9_999);
    let parameters = announcement.at("parameters");
    assert_eq!(numbers(parameters, ["channels", "rate"]), [1, 22_050]);
    assert_eq!(parameters.at("format").text(), "S24_3");
}

/// Each is submitted in its own turn, and completed in the same.
fn periods_in_order(periods: &[Json], lengths: &[u64]) {
    assert_eq!(periods.len(), lengths.len());
    for ((number, period), length) in (1..).zip(periods).zip(lengths) {
        let names = ["period", "slot", "offset", "length", "submitted"];
        let offset = (number - 1) * 4096;
        assert_eq!(numbers(period, names), [number, number - 1, offset, *length, number]);
        let completed = period.at("completed");
        assert_eq!(completed.at("phase").text(), "transfer");
        assert_eq!(numbers(completed, ["turn", "status"]), [number, 0x8000]);
    }
}

#[test]
fn a_device_with_control_elements() {
    let folder = Folder::new("log-virtio");
    let found = log(&folder, "--virtio 1.3 --controls 7");
    let virtio = found.at("announcements").list()[0].at("virtio").clone();
    let names = [
        "version",
        "config_bytes",
        "jacks",
        "streams",
        "channel_maps",
        "control_elements",
    ];
    assert_eq!(numbers(&virtio, names), [0x0103, 16, 0, 2, 0, 7]);
    assert_eq!(numbers(virtio.at("changed"), ["element", "mask"]), [0, 1]);
    let found = log(&folder, "--virtio 1.3");
    let virtio = found.at("announcements").list()[0].at("virtio").clone();
    assert_eq!(numbers(&virtio, ["version", "config_bytes"]), [0x0103, 12]);
    assert_eq!(
        (virtio.at("control_elements"), virtio.at("changed")),
        (&Json::Null, &Json::Null)
    );
    let found = log(&folder, "");
    assert_eq!(found.at("announcements").list()[0].at("virtio"), &Json::Null);
}

#[test]
fn two_faults_and_a_drain() {
    let folder = Folder::new("log-faults");
    let log = log(&folder, "--slow 4 --budget 20 --fail-at 7 --wrong-slot-at 3");
    assert_eq!(log.at("exit_status").number(), 1);
    let announcement = &log.at("announcements").list()[0];
    let [wrong, failed] = announcement.at("faults").list() else {
        panic!("two faults")
    };
    assert_eq!(wrong.at("phase").text(), "transfer");
    assert_eq!(numbers(wrong, ["turn", "completion", "named", "due"]), [12, 3, 3, 2]);
    assert_eq!(failed.at("phase").text(), "drain");
    assert_eq!(numbers(failed, ["turn", "period", "status"]), [20, 7, 0x8003]);
    let answer = announcement.at("answer");
    assert_eq!(answer.at("number").number(), 6);
    assert_eq!(
        (answer.at("name").text(), answer.at("call").text()),
        ("WrongToken", "transfer")
    );
    let [failed, rest] = announcement.at("gaps").list() else {
        panic!("two gaps")
    };
    let names = ["first", "last", "offset", "length"];
    assert_eq!(numbers(failed, names), [7, 7, 24_576, 4_096]);
    assert_eq!(numbers(rest, names), [13, 141, 49_152, 526_848]);
    let broke = announcement.at("broke_off");
    assert_eq!(numbers(broke, ["period", "byte"]), [7, 24_576]);
    assert_eq!(broke.at("second").seconds(), 0.128);
    let seventh = &announcement.at("periods").list()[6];
    let completed = seventh.at("completed");
    assert_eq!(completed.at("phase").text(), "drain");
    assert_eq!(numbers(completed, ["turn", "status"]), [20, 0x8003]);
}

/// Status 0 is a number and none is null; a refused call and a failed period have what the device said, every answer to a request its own word.
#[test]
fn what_the_device_said() {
    let folder = Folder::new("log-status");
    folder.write("a.raw", &frames(10));
    let said = |words: &str| {
        let log = log(&folder, &format!("a.raw {words}"));
        log.at("announcements").list()[0].clone()
    };
    for (status, cause) in [
        (0x8002, "0x8002, not supported"),
        (0, "0x00000000, no status that the standard names"),
    ] {
        for (words, call) in [("--fail-call prepare", "prepare"), ("--fail-at 1", "transfer")] {
            let announcement = said(&format!("{words} --fail-status {status}"));
            let answer = announcement.at("answer");
            assert_eq!(numbers(answer, ["number", "status"]), [2, status]);
            assert_eq!((answer.at("cause").text(), answer.at("call").text()), (cause, call));
        }
    }
    let refused = said("--short-jacks --fail-call remap --fail-status 0x8001");
    let remap = refused.at("jacks").at("remap_answer");
    assert_eq!(numbers(remap, ["number", "status"]), [3, 0x8001]);
    assert_eq!(remap.at("cause").text(), "0x8001, bad message");
    assert_eq!(refused.at("answer").at("status"), &Json::Null);
    let controls = refused.at("controls").list().iter();
    let statuses: Vec<_> = controls.map(|control| numbers(control, ["code", "status"])).collect();
    assert_eq!(
        statuses[..4],
        [[1, 0x8000], [0x0100, 0x8000], [0x0200, 0x8000], [2, 0x8001]]
    );
    let other = said("--budget 0");
    let answer = other.at("answer");
    assert_eq!((answer.at("number").number(), answer.at("status")), (9, &Json::Null));
}

/// The codes of control requests with how many bytes were written to each.
fn controls(announcement: &Json) -> Vec<[u64; 2]> {
    let all = announcement.at("controls").list().iter();
    all.map(|control| numbers(control, ["code", "written"])).collect()
}

/// The mode, the lengths, and what came of the jacks, of the first announcement; the second asks no query again.
#[test]
fn lengths_and_jacks() {
    let folder = Folder::new("log-strict");
    folder.write("a.raw", &frames(10));
    let own = [0x0101, 0x0102, 0x0104, 0x0105, 0x0103].map(|code| [code, 4]);
    let queries = |jacks| [[1, jacks], [0x0100, 68], [0x0200, 4]];
    for (strict, remap, answer) in [(false, &[[2, 4]][..], (0, "Ok")), (true, &[], (4, "NoInfo"))] {
        let words = if strict { "--strict" } else { "" };
        let log = log(&folder, &format!("a.raw a.raw --short-jacks {words}"));
        let [first, second] = log.at("announcements").list() else {
            panic!("two announcements")
        };
        assert_eq!(first.at("strict"), &Json::Truth(strict));
        assert_eq!(controls(first), [&queries(4)[..], remap, &own].concat());
        assert_eq!(controls(second), own);
        let jacks = first.at("jacks");
        assert_eq!(
            (jacks, numbers(jacks, ["written", "whole"])),
            (second.at("jacks"), [4, 28])
        );
        assert_eq!(jacks.at("remap_sent"), &Json::Truth(!strict));
        let said = jacks.at("remap_answer");
        assert_eq!((said.at("number").number(), said.at("name").text()), answer);
    }
    let guarded = log(&folder, "a.raw --guard");
    let announcement = &guarded.at("announcements").list()[0];
    assert_eq!(announcement.at("guard"), &Json::Truth(true));
    assert_eq!(announcement.at("indirect"), &Json::Truth(false));
    let indirect = log(&folder, "a.raw --indirect");
    let announcement = &indirect.at("announcements").list()[0];
    assert_eq!(announcement.at("indirect"), &Json::Truth(true));
    let announcement = &guarded.at("announcements").list()[0];
    assert_eq!(controls(announcement), [&queries(4)[..], &own].concat());
    let log = log(&folder, "a.raw");
    let announcement = &log.at("announcements").list()[0];
    assert_eq!(announcement.at("strict"), &Json::Truth(false));
    assert_eq!(announcement.at("guard"), &Json::Truth(false));
    assert_eq!(announcement.at("jacks"), &Json::Null);
    assert_eq!(announcement.at("going_on"), &Json::Null);
    assert_eq!(controls(announcement), [&queries(4)[..], &own].concat());
}

/// The periods of what was joined are those of the first, then those of the second; the numbers of both add up.
#[test]
fn joined() {
    let folder = Folder::new("log-join");
    for (name, bytes) in [("a.raw", 8192), ("b.raw", 10_000)] {
        folder.write(name, &frames(bytes));
    }
    let of = |words: &str| {
        let log = log(&folder, words);
        let one = &log.at("announcements").list()[0];
        let periods = one.at("periods").list().iter();
        let places: Vec<_> = periods
            .map(|p| (p.at("offset").number(), p.at("length").number()))
            .collect();
        assert_eq!(one.at("period_count").number(), places.len() as u64);
        let parts = one.at("parts").list().iter();
        let parts = parts.map(|part| {
            let numbers = ["offset", "bytes", "period"].map(|name| part.at(name).number());
            (part.at("part").text().to_string(), numbers)
        });
        (places, parts.collect::<Vec<_>>())
    };
    let ((a, none), (b, _)) = (of("a.raw"), of("b.raw"));
    assert_eq!(none, []);
    let (joined, parts) = of("--join a.raw b.raw");
    let after: Vec<_> = b.iter().map(|(offset, length)| (offset + 8192, *length)).collect();
    assert_eq!(joined, [a, after].concat());
    let named = |name: &str, numbers| (name.to_string(), numbers);
    assert_eq!(parts, [named("a.raw", [0, 8192, 1]), named("b.raw", [8192, 10_000, 3])]);
}

#[test]
fn going_on() {
    let folder = Folder::new("log-go-on");
    folder.write("a.raw", &frames(10_000));
    let log = log(&folder, "--go-on --slow 5 a.raw");
    let going_on = log.at("announcements").list()[0].at("going_on");
    let numbers = ["polled", "most_pending", "filled"].map(|name| going_on.at(name).number());
    assert_eq!(numbers, [15, 3, 2288]);
    assert_eq!(going_on.at("opened"), &Json::Null);
}

/// Strings are escaped: the name comes back as the page has it.
#[test]
fn several_and_odd_names() {
    let folder = Folder::new("log-several");
    let name = "a \"quoted\" \\ name\té.raw";
    folder.write(name, &frames(10));
    folder.write("b.raw", b"");
    let said = folder
        .command(&[name, "b.raw", "--log", "log.json", "--budget", "0"])
        .output()
        .unwrap();
    assert_eq!(said.status.code(), Some(1));
    let log = json::read(&folder.text("log.json"));
    let [a, b] = log.at("announcements").list() else {
        panic!("two announcements")
    };
    assert_eq!(a.at("announcement").text(), "a \"quoted\" \\ name\\té.raw");
    assert_eq!(a.at("longest_turn"), &Json::Null);
    assert_eq!(a.at("warnings").list().len(), 1);
    assert_eq!(
        b.at("warnings").list()[0].text(),
        "there are no frames: nothing is spoken"
    );
}

/// Another reader reads the same.
#[test]
fn python_reads_it() {
    let folder = Folder::new("log-python");
    let log = log(&folder, "--slow 4 --budget 20 --fail-at 7");
    let script = "import json; log = json.load(open('log.json')); \
                  a, = log['announcements']; \
                  print(a['answer']['number'], len(a['periods']), a['faults'][0]['status'])";
    let python = Command::new("python3")
        .args(["-c", script])
        .current_dir(&folder.0)
        .output();
    let Ok(said) = python else {
        println!("python3 is not at hand: not tried");
        return;
    };
    assert_eq!(String::from_utf8_lossy(&said.stdout), "9 14 32771\n", "{said:?}");
    let periods = log.at("announcements").list()[0].at("periods").list();
    assert_eq!(periods.len(), 14);
}
