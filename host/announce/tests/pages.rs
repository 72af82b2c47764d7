//! The pages, as a newcomer sees them: each run is compared with a stored text, what differs from run to run and from build to build masked.
mod common;

use common::{Folder, frames, stored, wave};
use snd::{Format, Rate};
use std::process::Output;

/// The page with its times, its date and what it was built with blotted out.
fn masked(output: &Output) -> String {
    let text = String::from_utf8(output.stdout.clone()).unwrap();
    text.lines().map(|line| mask(line) + "\n").collect()
}

fn mask(line: &str) -> String {
    let name = line.get(..13).unwrap_or_default();
    let fact = &line[name.len()..];
    match name.trim_end() {
        "longest turn" | "at most" | "wall time" => match fact.split_once(" s") {
            Some((seconds, rest)) if seconds.parse::<f64>().is_ok_and(|seconds| seconds >= 0.0) => {
                format!("{name}MASKED s{rest}")
            }
            // no turn ran
            _ => line.into(),
        },
        "date" => {
            assert_eq!((fact.len(), &fact[10..11], &fact[19..]), (20, "T", "Z"), "{line}");
            format!("{name}MASKED")
        }
        "kit" | "archive" => format!("{name}MASKED"),
        _ => line.into(),
    }
}

/// Holds what a run said to a stored page and a status.
fn held(output: &Output, name: &str, status: i32) {
    stored(&format!("pages/{name}"), &masked(output));
    assert_eq!(String::from_utf8_lossy(&output.stderr), "");
    assert_eq!(output.status.code(), Some(status), "{name}");
}

fn page(name: &str, words: &str, status: i32) {
    held(&Folder::new(name).run(words), name, status);
}

#[test]
fn a_good_run() {
    page("good", "", 0);
}

/// The README shows the good page.
#[test]
fn the_readme() {
    let stored = concat!(env!("CARGO_MANIFEST_DIR"), "/tests/pages/good");
    let Ok(readme) = std::fs::read_to_string(concat!(env!("CARGO_MANIFEST_DIR"), "/../../README.md")) else {
        println!("README.md is not at hand: not tried");
        return;
    };
    let page = std::fs::read_to_string(stored).unwrap();
    let (shown, _times) = page.split_once("longest turn").unwrap();
    let shown: String = shown.lines().map(|line| format!("    {line}\n")).collect();
    assert!(readme.contains(&shown), "the README does not show\n{shown}");
}

#[test]
fn a_slow_device() {
    page("slow", "--slow 3", 0);
}

#[test]
fn a_device_that_fails_a_period() {
    page("fail", "--fail-at 5", 1);
    page("fail-slow", "--fail-at 5 --slow 3", 1);
}

/// The line that answers.
fn answer(output: &Output) -> String {
    let page = masked(output);
    let mut lines = page.lines().filter(|line| line.starts_with("answer "));
    let only = (lines.next(), lines.next());
    let (Some(line), None) = only else {
        panic!("one answer: {only:?}")
    };
    line.into()
}

#[test]
fn a_device_that_refuses_a_call() {
    page("refuses", "--fail-call set-parameters --fail-status 0x8002", 1);
    page(
        "refuses-streams",
        "--fail-call streams --fail-status 0x8001 --strict",
        1,
    );
    page(
        "refuses-remap",
        "--fail-call remap --fail-status 0x8002 --short-jacks --seconds 1",
        0,
    );
    page("fail-status", "--fail-at 5 --fail-status 0", 1);
}

/// Which of bad message, not supported, I/O error or an unknown number came, for every call and for a period: two of them never read the same.
#[test]
fn the_status_is_named() {
    let folder = Folder::new("named");
    folder.write("a.raw", &frames(100));
    let statuses = [
        ("0x8001", "0x8001, bad message"),
        ("0x8002", "0x8002, not supported"),
        ("0x8003", "0x8003, I/O error"),
        ("32772", "0x00008004, no status that the standard names"),
        ("0", "0x00000000, no status that the standard names"),
        ("0xffffffff", "0xffffffff, no status that the standard names"),
    ];
    let calls = [
        ("--fail-call streams", "output streams"),
        ("--fail-call set-parameters", "set parameters"),
        ("--fail-call prepare", "prepare"),
        ("--fail-call start", "start"),
        ("--fail-call stop", "stop"),
        ("--fail-call release", "release"),
        ("--fail-at 1", "transfer"),
    ];
    for (status, named) in statuses {
        for (words, call) in calls {
            for mode in ["", "--strict"] {
                let output = folder.run(&format!("a.raw {words} --fail-status {status} {mode}"));
                let wanted = format!("answer       2 IoError: the device said {named}, to {call}");
                assert_eq!((answer(&output), output.status.code()), (wanted, Some(1)));
            }
        }
        let output = folder.run(&format!("a.raw --short-jacks --fail-call remap --fail-status {status}"));
        let page = masked(&output);
        let wanted = format!("answered: 3 Unsupported: the device said {named}\n");
        assert!(page.contains(&wanted), "{page}");
    }
    // without a word it is an I/O error
    let output = folder.run("a.raw --fail-call start");
    assert_eq!(
        answer(&output),
        "answer       2 IoError: the device said 0x8003, I/O error, to start"
    );
}

/// Good bytes are not accused, and the period that is missing is named.
#[test]
fn a_period_that_fails_in_the_drain() {
    page("fail-in-drain", "--slow 4 --budget 20 --fail-at 7", 1);
}

/// Both are told, in their order.
#[test]
fn two_faults() {
    page("two-faults", "--slow 4 --budget 20 --fail-at 7 --wrong-slot-at 3", 1);
}

#[test]
fn a_device_that_names_a_wrong_slot() {
    page("wrong-slot", "--wrong-slot-at 4", 1);
    page("wrong-slot-slow", "--wrong-slot-at 4 --slow 2", 1);
    page("wrong-slot-in-drain", "--wrong-slot-at 6 --slow 4 --budget 20", 1);
}

#[test]
fn a_small_budget() {
    page("budget", "--budget 20 --slow 4", 1);
    page("budget-0", "--budget 0", 1);
    page("budget-enough", "--budget 1000", 0);
}

/// A stored page is the good one, but for one line.
fn good_but_for(name: &str, line: &str) {
    let stored = |name: &str| std::fs::read_to_string(format!("{}/tests/pages/{name}", env!("CARGO_MANIFEST_DIR")));
    let page = stored(name).unwrap();
    assert!(page.contains(line));
    assert_eq!(page.replace(line, ""), stored("good").unwrap());
}

/// Nothing else of the page is another: the model device writes its answers whole.
#[test]
fn strict_mode() {
    page("strict", "--strict", 0);
    good_but_for(
        "strict",
        "mode         strict: of each answer only what the device wrote was read\n",
    );
}

/// What the device showed stands on the page, and nothing else of it is another. Without their feature 1.3 reads as 1.2.
#[test]
fn virtio_1_3() {
    let shared = "bytes of configuration: jacks 0, streams 2, channel maps 0";
    page("virtio-controls", "--virtio 1.3 --controls 2", 0);
    good_but_for(
        "virtio-controls",
        &format!(
            "virtio       1.3, 16 {shared}, control elements 2\nevent        control element 0 changed, mask 0x0001\n"
        ),
    );
    for (name, version) in [("virtio-1.3", "1.3"), ("virtio-1.2", "1.2")] {
        page(name, &format!("--virtio {version}"), 0);
        good_but_for(name, &format!("virtio       {version}, 12 {shared}\n"));
    }
    let folder = Folder::new("virtio-several");
    for name in ["a.raw", "b.raw", "c.raw"] {
        folder.write(name, &frames(100));
    }
    let page = masked(&folder.run("--virtio=1.3 --controls=2 a.raw b.raw c.raw"));
    let events: Vec<_> = page.lines().filter(|line| line.starts_with("event ")).collect();
    let changed = |id: u32| format!("event        control element {id} changed, mask 0x0001");
    assert_eq!(events, [changed(0), changed(1), changed(0)]);
}

/// Nothing else of the page is another: set, prepare, start, transfer, stop, release are permitted, also a second time.
#[test]
fn the_guard() {
    page("guard", "--guard", 0);
    good_but_for(
        "guard",
        "guard        on: nothing was sent that the stream's lifecycle does not permit\n",
    );
    let folder = Folder::new("guard-several");
    for name in ["a.raw", "b.raw", "c.raw"] {
        folder.write(name, &frames(10_000));
    }
    let output = folder.run("--guard --strict --fail-at 4 a.raw b.raw c.raw");
    let page = masked(&output);
    let answers: Vec<_> = page.lines().filter(|line| line.starts_with("answer ")).collect();
    assert_eq!(
        answers,
        [
            "answer       0 Ok",
            "answer       2 IoError: the device said 0x8003, I/O error, to transfer",
            "answer       0 Ok"
        ]
    );
}

/// Nothing else of the page of a quick device is another. Of a slow one 32 periods are out, and not ten.
#[test]
fn indirect_descriptors() {
    page("indirect", "--indirect", 0);
    good_but_for(
        "indirect",
        "descriptors  indirect: one for each submission, so 32 may be out\n",
    );
    page("indirect-slow", "--indirect --slow 3", 0);
    page("indirect-budget", "--indirect --slow 50 --budget 60", 1);
    page("indirect-fail", "--indirect --slow 40 --fail-at 3 --guard", 1);
    page("indirect-wrong-slot", "--indirect --slow 33 --wrong-slot-at 2", 1);
    page("indirect-go-on", "--indirect --go-on --slow 40", 0);
    page("indirect-go-on-fail", "--indirect --go-on --slow 40 --fail-at 2", 1);
    let folder = Folder::new("indirect-record");
    let output = folder.run("--indirect --record yard.raw --periods 40 --slow 35 --budget 36");
    held(&output, "indirect-record", 1);
    // what is accepted is the same in both modes
    folder.write("a.raw", &frames(60_000));
    for words in [
        "",
        "--slow 7",
        "--slow 40 --fail-at 9",
        "--slow 3 --budget 60",
        "--wrong-slot-at 11",
    ] {
        let spoken = ["", "--indirect"].map(|mode| {
            let output = folder.run(&format!("a.raw --period 1000 {words} {mode} --accepted accepted.raw"));
            (output.status.code(), folder.read("accepted.raw"))
        });
        assert_eq!(spoken[0], spoken[1], "{words}");
    }
}

/// Without waiting: what the device accepts is the same, and breakers are polled once a turn.
#[test]
fn going_on() {
    page("go-on", "--go-on", 0);
    page("go-on-slow", "--go-on --slow 3", 0);
    page("go-on-fail", "--go-on --fail-at 5", 1);
    page(
        "go-on-fail-slow",
        "--go-on --fail-at 5 --slow 3 --fail-status 0x8002 --guard",
        1,
    );
    page("go-on-budget", "--go-on --budget 9 --slow 3", 1);
    page("go-on-nothing", "--go-on --seconds 0", 0);
}

/// Several on one device, one of which fails, and files of each form; the last period of each is filled up, and what was accepted has none of it.
#[test]
fn going_on_with_several() {
    let folder = Folder::new("go-on-several");
    for name in ["a.raw", "b.raw", "c.raw"] {
        folder.write(name, &frames(10_000));
    }
    let output = folder.run("--go-on --slow 2 --fail-at 4 a.raw b.raw c.raw");
    let page = masked(&output);
    let answers: Vec<_> = page.lines().filter(|line| line.starts_with("answer ")).collect();
    assert_eq!(
        answers,
        [
            "answer       0 Ok",
            "answer       2 IoError: the device said 0x8003, I/O error, to finish",
            "answer       0 Ok"
        ]
    );
    for format in [Format::U8, Format::S16, Format::S24In3, Format::S32] {
        let frames = frames(4800);
        folder.write("d.wav", &wave(1, format, Rate::Hz8000, &frames));
        let output = folder.run("--go-on --period 960 --slow 4 d.wav --accepted d.raw");
        assert_eq!((output.status.code(), folder.read("d.raw")), (Some(0), frames));
        let output = folder.run("--go-on --period 1000 d.wav --accepted d.raw");
        let page = masked(&output);
        let filled = "filled       the last period, with 200 bytes of silence: what does not wait is a whole period\n";
        assert!(page.contains(filled), "{page}");
        assert_eq!((output.status.code(), folder.read("d.raw").len()), (Some(0), 4800));
    }
    // each turn polls the breakers once, however slow the device is
    for slow in [1, 2, 7, 40] {
        let page = masked(&folder.run(&format!("--go-on --slow {slow} a.raw")));
        let polled = format!("going on     polled breakers {} times; ", 3 * slow);
        assert!(page.contains(&polled), "{page}");
    }
}

/// A folder with words of one, of two and of no periods, and one that is cut.
fn words(name: &str) -> Folder {
    let folder = Folder::new(name);
    for (name, bytes) in [
        ("feeder.raw", 8192),
        ("one.raw", 4096),
        ("pause.raw", 0),
        ("open.raw", 10_000),
    ] {
        folder.write(name, &frames(bytes));
    }
    folder
}

/// Words are joined to a sentence: the device accepts the frames of the first, then those of the second, and the page names the seams.
#[test]
fn joining() {
    let folder = words("join");
    let output = folder.run("--join feeder.raw one.raw open.raw --accepted accepted.raw");
    held(&output, "join", 0);
    let all = [frames(8192), frames(4096), frames(10_000)].concat();
    assert_eq!(folder.read("accepted.raw"), all);
    // none is a whole number of periods too, at the front, between two and at the end
    let output =
        folder.run("--join pause.raw one.raw pause.raw pause.raw feeder.raw pause.raw --accepted accepted.raw");
    held(&output, "join-none", 0);
    assert_eq!(folder.read("accepted.raw"), [frames(4096), frames(8192)].concat());
    held(&folder.run("--join pause.raw pause.raw"), "join-nothing", 0);
    // a device that fails in the second part, one that is slow, and one that is not waited for
    let output = folder.run("--join feeder.raw one.raw open.raw --fail-at 3 --slow 2");
    held(&output, "join-fail", 1);
    let output = folder.run("--join feeder.raw one.raw open.raw --go-on --strict --guard");
    held(&output, "join-go-on", 0);
    // standard input is a part like others
    let output = folder.run_with("--join one.raw - one.raw --accepted accepted.raw", &frames(8192));
    held(&output, "join-input", 0);
    assert_eq!(
        folder.read("accepted.raw"),
        [frames(4096), frames(8192), frames(4096)].concat()
    );
}

/// Joining does not depend on grouping: the two first joined before, or the two last, or all at once give the device the same.
#[test]
fn joining_in_groups() {
    let folder = words("join-groups");
    let joined = |words: &str, to: &str| {
        let output = folder.run(&format!("--join {words} --accepted {to}"));
        assert_eq!(output.status.code(), Some(0), "{words}");
        let page = masked(&output);
        let lines = page.lines().skip_while(|line| !line.starts_with("stream"));
        lines.map(|line| format!("{line}\n")).collect::<String>()
    };
    let all = joined("feeder.raw one.raw open.raw", "all.raw");
    joined("feeder.raw one.raw", "first.raw");
    joined("one.raw open.raw", "last.raw");
    assert_eq!(joined("first.raw open.raw", "all-2.raw"), all);
    assert_eq!(joined("feeder.raw last.raw", "all-3.raw"), all);
    for other in ["all-2.raw", "all-3.raw"] {
        assert_eq!(folder.read(other), folder.read("all.raw"));
    }
}

/// Files of a desk computer, which have one form; only their frames are joined, and what was accepted is one such file.
#[test]
fn joining_wave_files() {
    let folder = Folder::new("join-wav");
    for (name, bytes) in [("gate.wav", 3200), ("two.wav", 1600), ("shut.wav", 1001 * 2)] {
        folder.write(name, &wave(1, Format::S16, Rate::Hz16000, &frames(bytes)));
    }
    folder.write("raw", &frames(3200));
    let output = folder.run("--join gate.wav two.wav shut.wav --period 640 --wav accepted.wav");
    // 1600 bytes are two periods and a half
    assert_eq!(output.status.code(), Some(2));
    let output = folder.run("--join gate.wav two.wav shut.wav --period 800 --wav accepted.wav");
    held(&output, "join-wav", 0);
    let all = [frames(3200), frames(1600), frames(2002)].concat();
    assert_eq!(folder.read("accepted.wav"), wave(1, Format::S16, Rate::Hz16000, &all));
}

/// The bytes of the tone that the microphone hears, in as many seconds.
fn tone(folder: &Folder, seconds: u32) -> Vec<u8> {
    let output = folder.run(&format!("--seconds {seconds} --accepted tone.raw"));
    assert_eq!(output.status.code(), Some(0));
    folder.read("tone.raw")
}

/// The file has what was kept, and that is what the microphone heard: the tone from its beginning, without a gap, whatever was short or came to an end.
#[test]
fn recordings() {
    let folder = Folder::new("recordings");
    let tone = tone(&folder, 1);
    for (name, words, status, kept) in [
        ("record", "", 0, 10 * 4096),
        ("record-short", "--short-every 3 --slow 3", 0, 7 * 4096 + 3 * 2048),
        ("record-empty-period", "--written-at 4 --written 8", 0, 9 * 4096),
        ("record-fail", "--fail-at 5", 1, 4 * 4096),
        (
            "record-fail-slow",
            "--fail-at 5 --fail-status 0x8002 --slow 4 --strict --guard",
            1,
            4 * 4096,
        ),
        ("record-written", "--written-at 6", 1, 5 * 4096),
        (
            "record-written-much",
            "--written-at 6 --written 4294967295 --slow 2 --short-every 2",
            1,
            3 * 4096 + 2 * 2048,
        ),
        ("record-wrong-slot", "--wrong-slot-at 4 --slow 2", 1, 3 * 4096),
        ("record-budget", "--budget 9 --slow 4", 1, 2 * 4096),
        ("record-budget-0", "--budget 0", 1, 0),
        ("record-refuses", "--fail-call start --fail-status 0x8001", 1, 0),
    ] {
        let output = folder.run(&format!("--record yard.raw --periods 10 {words}"));
        held(&output, name, status);
        assert_eq!(folder.read("yard.raw"), tone[..kept], "{name}");
    }
    held(&folder.run("--record yard.raw --periods 0"), "record-nothing", 0);
    assert_eq!(folder.read("yard.raw"), b"");
}

/// Each written length at an edge: those that are good have so many bytes, the others end the recording.
#[test]
fn written_lengths() {
    let folder = Folder::new("written");
    for (written, kept, number) in [
        (0, 1000, 17),
        (7, 1000, 17),
        (8, 2000, 0),
        (9, 2001, 0),
        (1008, 3000, 0),
        (1009, 1000, 17),
        (u32::MAX, 1000, 17),
    ] {
        let words = format!("--record yard.raw --periods 3 --period 1000 --written-at 2 --written {written}");
        let output = folder.run(&words);
        let wanted = match number {
            0 => "answer       0 Ok".to_string(),
            _ => "answer       17 BadCapture, to capture".to_string(),
        };
        assert_eq!(
            (answer(&output), folder.read("yard.raw").len()),
            (wanted, kept),
            "{written}"
        );
        assert_eq!(output.status.code(), Some(i32::from(number != 0)));
    }
}

/// A name that ends in .wav is a file for any player, and for this program: what was recorded is spoken.
#[test]
fn a_recording_is_spoken() {
    let folder = Folder::new("record-wav");
    let words = "--record yard.wav --periods 7 --rate 16000 --channels 1 --period 640 --short-every 4";
    held(&folder.run(words), "record-wav", 0);
    let output = folder.run("--rate 16000 --channels 1 --seconds 1 --accepted tone.raw");
    assert_eq!(output.status.code(), Some(0));
    let kept = &folder.read("tone.raw")[..6 * 640 + 320];
    assert_eq!(folder.read("yard.wav"), wave(1, Format::S16, Rate::Hz16000, kept));
    let output = folder.run("yard.wav --accepted spoken.raw");
    assert_eq!(
        (output.status.code(), folder.read("spoken.raw")),
        (Some(0), kept.to_vec())
    );
    // a frame that was cut is in the raw file, and in no WAVE file
    let words = "--periods 3 --period 1001 --channels 1";
    let page = masked(&folder.run(&format!("--record odd.raw {words}")));
    let warning = "warning      a period of 1001 bytes cuts frames of 2 bytes in two; --period 1000 would not\n";
    assert!(page.contains(warning), "{page}");
    assert_eq!(folder.run(&format!("--record odd.wav {words}")).status.code(), Some(0));
    let odd = folder.read("odd.raw");
    assert_eq!(odd.len(), 3003);
    assert_eq!(
        folder.read("odd.wav"),
        wave(1, Format::S16, Rate::Hz48000, &odd[..3002])
    );
}

/// The customer's story: a jack query that returns its header alone, and an old jack in the page. Read whole, the old jack is used; in strict mode there
/// is none.
#[test]
fn a_jack_query_of_its_header_alone() {
    page("short-jacks", "--short-jacks --seconds 1", 0);
    page("short-jacks-strict", "--short-jacks --strict --seconds 1", 0);
}

#[test]
fn other_parameters() {
    page(
        "parameters",
        "--rate 8000 --channels 1 --seconds 1 --period 1600 --buffer 3200",
        0,
    );
    page("nothing-to-say", "--seconds 0", 0);
}

#[test]
fn help() {
    page("help", "--help", 0);
    page("help", "-h", 0);
}

#[test]
fn a_file_of_frames_is_accepted_byte_for_byte() {
    let folder = Folder::new("file");
    let frames = frames(10_000);
    folder.write("feeder.raw", &frames);
    let output = folder.run("feeder.raw --accepted accepted.raw");
    held(&output, "file", 0);
    assert_eq!(folder.read("accepted.raw"), frames);
    let output = folder.run("feeder.raw --accepted accepted.raw --fail-at 2");
    held(&output, "file-cut-short", 1);
    assert_eq!(folder.read("accepted.raw"), frames[..4096]);
}

/// The sentence comes from a desk computer; what the device accepted goes back to one, the same file.
#[test]
fn a_wave_file_says_its_own_parameters() {
    let folder = Folder::new("wav");
    let file = wave(1, Format::S16, Rate::Hz22050, &frames(10_000));
    folder.write("feeder.wav", &file);
    let output = folder.run("feeder.wav --accepted accepted.raw --wav accepted.wav");
    held(&output, "wav", 0);
    assert_eq!(folder.read("accepted.raw"), frames(10_000));
    assert_eq!(folder.read("accepted.wav"), file);
    // its name does not matter, and standard input is read likewise
    folder.write("feeder.raw", &file);
    let renamed = masked(&folder.run("feeder.raw")).replace("feeder.raw", "feeder.wav");
    stored("pages/wav", &renamed);
    let input = masked(&folder.run_with("-", &file)).replace("standard input", "feeder.wav");
    stored("pages/wav", &input);
}

/// 24 bits in three bytes, five channels: periods cut frames, which is told; the file written has whole frames.
#[test]
fn a_wave_file_of_frames_that_periods_cut() {
    let folder = Folder::new("wav-24");
    let all = frames(15 * 1000);
    folder.write("feeder.wav", &wave(5, Format::S24In3, Rate::Hz96000, &all));
    held(&folder.run("feeder.wav --fail-at 2 --wav accepted.wav"), "wav-24", 1);
    let whole = &all[..4096 / 15 * 15];
    assert_eq!(
        folder.read("accepted.wav"),
        wave(5, Format::S24In3, Rate::Hz96000, whole)
    );
}

/// A list behind the frames, an odd number of bytes, 8 bits; then the last frame of two channels cut.
#[test]
fn wave_files_of_odd_lengths() {
    let folder = Folder::new("wav-8");
    let mut file = wave(1, Format::U8, Rate::Hz5512, &frames(5001));
    file.extend(b"LIST\x04\0\0\0text");
    let size = file.len() as u32 - 8;
    file[4..8].copy_from_slice(&size.to_le_bytes());
    folder.write("feeder.wav", &file);
    held(&folder.run("feeder.wav"), "wav-8", 0);
    file[22] = 2;
    file[32] = 2;
    folder.write("feeder.wav", &file);
    held(&folder.run("feeder.wav --wav accepted.wav"), "wav-part-frame", 0);
    assert_eq!(
        folder.read("accepted.wav"),
        wave(2, Format::U8, Rate::Hz5512, &frames(5000))
    );
}

/// Each file says its own; the device has as many channels as the widest needs.
#[test]
fn several_wave_files_on_one_device() {
    let folder = Folder::new("wav-several");
    folder.write("one.wav", &wave(1, Format::S16, Rate::Hz16000, &frames(6_000)));
    folder.write("two.wav", &wave(6, Format::S32, Rate::Hz192000, &frames(24 * 300)));
    folder.write("three.raw", &frames(5_000));
    held(&folder.run("one.wav two.wav three.raw"), "wav-several", 0);
    // of one form they go into one file
    let output = folder.run("one.wav one.wav --wav accepted.wav");
    assert_eq!(output.status.code(), Some(0));
    let twice = [frames(6_000), frames(6_000)].concat();
    assert_eq!(folder.read("accepted.wav"), wave(1, Format::S16, Rate::Hz16000, &twice));
    // a tone can be played too
    assert_eq!(folder.run("--seconds 0 --wav tone.wav").status.code(), Some(0));
    assert_eq!(folder.read("tone.wav"), wave(2, Format::S16, Rate::Hz48000, b""));
}

#[test]
fn standard_input() {
    let folder = Folder::new("input");
    held(&folder.run_with("-", &frames(10_000)), "input", 0);
}

/// Both still answer 0: what is warned of is the recording, not the device.
#[test]
fn warnings() {
    let folder = Folder::new("warnings");
    folder.write("empty.raw", b"");
    held(&folder.run("empty.raw"), "empty", 0);
    folder.write("cut.raw", &frames(10_001));
    held(&folder.run("cut.raw"), "part-frame", 0);
}

/// The device counts on from one file to the next: the fourth period that it gives back is the second file's first. The third is whole.
#[test]
fn several_files_on_one_device() {
    let folder = Folder::new("several");
    let (one, two) = (frames(10_000), frames(9_000));
    folder.write("one.raw", &one);
    folder.write("two.raw", &two);
    let words = "one.raw two.raw one.raw --fail-at 4 --slow 2 --accepted accepted.raw";
    held(&folder.run(words), "several", 1);
    assert_eq!(folder.read("accepted.raw"), [one.clone(), one.clone()].concat());
    let output = folder.run("one.raw two.raw --accepted accepted.raw");
    held(&output, "several-good", 0);
    assert_eq!(folder.read("accepted.raw"), [one, two].concat());
}

#[test]
fn forms_of_options() {
    page("slow", "--slow=3", 0);
    let folder = Folder::new("forms");
    folder.write("--slow", &frames(100));
    let output = folder.run("--slow=3 --budget=9 -- --slow");
    held(&output, "after-the-options", 0);
    assert_eq!(folder.run("./--slow --slow 3").status.code(), Some(0));
}

/// A name with a line's end writes no line of the page.
#[test]
fn a_name_with_a_line_in_it() {
    let folder = Folder::new("name");
    let name = "a\nanswer       0 Ok";
    folder.write(name, &frames(100));
    let output = folder.command(&[name, "--budget", "0"]).output().unwrap();
    let page = masked(&output);
    assert!(
        page.starts_with("announcement a\\nanswer       0 Ok, 100 bytes\n"),
        "{page}"
    );
    let answers: Vec<_> = page.lines().filter(|line| line.starts_with("answer")).collect();
    assert_eq!(answers, ["answer       9 OutOfTurns, to transfer"]);
}

/// The page names the kit of the repository and the archive that is linked.
#[test]
fn what_it_was_built_with() {
    let output = Folder::new("built").run("");
    let page = String::from_utf8(output.stdout).unwrap();
    let line = |name: &str| page.lines().find(|line| line.starts_with(name)).unwrap();
    let archive = std::fs::read(page::ARCHIVE).unwrap();
    assert_eq!(
        line("archive"),
        format!("archive      sha256 {}", sha256::hex(&archive))
    );
    let wanted = match std::fs::read_to_string(concat!(env!("CARGO_MANIFEST_DIR"), "/../../.ci/kit")) {
        Ok(kit) => format!("kit          {} (.ci/kit)", kit.trim()),
        Err(_) => "kit          not known: built outside the repository".into(),
    };
    assert_eq!(line("kit"), wanted);
}
