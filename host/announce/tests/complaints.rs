//! What is refused: one sentence, status 2, no page, and nothing written.
mod common;

use common::{Folder, complains, frames, wave};
use snd::{Format, Rate};
use std::fs::{self, File, OpenOptions};
use std::os::unix::fs::symlink;

fn complaint(words: &str, sentence: &str) {
    complains(&Folder::new("complaint").run(words), sentence);
}

#[test]
fn unreadable_and_unwritable_files() {
    complaint(
        "no-such-file.raw",
        "cannot read no-such-file.raw: No such file or directory (os error 2)",
    );
    complaint(
        "--accepted no-such-folder/a",
        "cannot write no-such-folder/a: No such file or directory (os error 2)",
    );
    // one that cannot be read, and none is spoken
    let folder = Folder::new("unreadable");
    folder.write("a.raw", &frames(100));
    complains(
        &folder.run("a.raw no-such-file.raw --log log.json"),
        "cannot read no-such-file.raw: No such file or directory (os error 2)",
    );
    assert!(!folder.0.join("log.json").exists());
}

#[test]
fn bad_options() {
    complaint("--loud", "unknown option --loud; see --help");
    complaint("--loud=3", "unknown option --loud; see --help");
    complaint("-l", "unknown option -l; see --help");
    complaint("--help=3", "--help takes no value");
    complaint("--strict=yes", "--strict takes no value");
    complaint("--guard=on", "--guard takes no value");
    complaint("--indirect=1", "--indirect takes no value");
    complaint("--short-jacks=1", "--short-jacks takes no value");
    complaint("--virtio 1.1", "--virtio takes 1.2 or 1.3, not '1.1'");
    let needs = "--controls needs --virtio 1.3: VirtIO 1.2 has no control elements";
    complaint("--controls 2", needs);
    complaint("--controls 2 --virtio 1.2", needs);
    complaint("--go-on=1", "--go-on takes no value");
    complaint(
        "--go-on --wrong-slot-at 3",
        "--wrong-slot-at goes with a transfer: what does not wait may come back in any order",
    );
    complaint(
        "--go-on --period 67108861",
        "16 places for periods of 67108861 bytes are 1073741840 bytes; at most 1073741824 are made",
    );
    complaint("--slow", "--slow needs a value; see --help");
    complaint("--slow 0", "--slow takes a number from 1 to 1000000, not '0'");
    complaint("--slow=", "--slow takes a number from 1 to 1000000, not ''");
    complaint(
        "--budget -1",
        "--budget takes a number from 0 to 18446744073709551615, not '-1'",
    );
    complaint(
        "--fail-at 0",
        "--fail-at takes a number from 1 to 18446744073709551615, not '0'",
    );
    complaint("--fail-call", "--fail-call needs a value; see --help");
    let calls = "streams, remap, set-parameters, prepare, start, stop, release";
    complaint(
        "--fail-call jacks",
        &format!("--fail-call takes one of {calls}, not 'jacks'"),
    );
    complaint(
        "--fail-call remap",
        "--fail-call remap goes with --short-jacks: without it no remap is asked for",
    );
    for word in ["0x8000", "32768", "0x100000000", "4294967296", "-1", "8002h", "0x", ""] {
        complaint(
            &format!("--fail-at 1 --fail-status={word}"),
            &format!("--fail-status takes a number from 0 to 0xffffffff but 0x8000, which is ok, not '{word}'"),
        );
    }
    complaint("--log -", "--log takes a file's name; standard output has the page");
    complaint("--log=", "--log takes a file's name, and not an empty one");
    complaint("- -- -", "- is named twice; standard input can be read once");
    let rates = "5512, 8000, 11025, 16000, 22050, 32000, 44100, 48000, 64000, 88200, 96000, 176400, 192000, 384000";
    complaint("--rate 47999", &format!("--rate takes one of {rates}, not '47999'"));
}

/// Which part does not fit, and what would make it fit.
#[test]
fn parts_that_cannot_be_joined() {
    let folder = Folder::new("join");
    for (name, bytes) in [("whole.raw", 8192), ("cut.raw", 10_000), ("short.raw", 1)] {
        folder.write(name, &frames(bytes));
    }
    let whole = "each part but the last is a whole number of periods of 4096 bytes";
    complains(
        &folder.run("--join whole.raw cut.raw whole.raw --log log.json"),
        &format!("{whole}: cut.raw has 10000 bytes of frames, and 2288 more would pad it"),
    );
    assert!(!folder.0.join("log.json").exists());
    complains(
        &folder.run("--join cut.raw whole.raw short.raw cut.raw"),
        &format!(
            "{whole}: cut.raw has 10000 bytes of frames, and 2288 more would pad it; \
             short.raw has 1 bytes of frames, and 4095 more would pad it"
        ),
    );
    // padded by as many it is joined, and so it is with a period that fits
    let mut padded = frames(10_000);
    padded.resize(10_000 + 2288, 0);
    folder.write("padded.raw", &padded);
    assert_eq!(folder.run("--join padded.raw cut.raw").status.code(), Some(0));
    assert_eq!(
        folder.run("--join cut.raw whole.raw --period 1000").status.code(),
        Some(0)
    );
    for words in ["--join", "--join whole.raw", "--join -- whole.raw"] {
        complains(&folder.run(words), "--join joins two FILEs or more");
    }
    complains(&folder.run("--join=a whole.raw"), "--join takes no value");
    complains(
        &folder.run("--join whole.raw --record a --periods 3"),
        "--record a speaks nothing: leave whole.raw out",
    );
    complains(
        &folder.run("--join --record a --periods 3"),
        "--join goes with announcements: leave it out with --record",
    );
    complains(
        &folder.run("--join whole.raw no-such-file.raw"),
        "cannot read no-such-file.raw: No such file or directory (os error 2)",
    );
    complains(
        &folder.run("--join whole.raw whole.raw --period 1 --accepted whole.raw"),
        "--accepted whole.raw would overwrite the input whole.raw",
    );
}

/// Parts of two forms make no announcement, whatever their lengths.
#[test]
fn parts_of_two_forms() {
    let folder = Folder::new("join-forms");
    folder.write("a.raw", &frames(8192));
    folder.write("a.wav", &wave(2, Format::S16, Rate::Hz48000, &frames(8192)));
    folder.write("mono.wav", &wave(1, Format::S16, Rate::Hz48000, &frames(100)));
    folder.write("slow.wav", &wave(2, Format::S16, Rate::Hz8000, &frames(8192)));
    folder.write("wide.wav", &wave(2, Format::S32, Rate::Hz48000, &frames(8192)));
    let two = "--join makes one announcement, and its parts have frames of two forms";
    let plain = "2 channels, S16, 48000 Hz";
    for (words, first, other) in [
        ("a.raw mono.wav", "a.raw", "mono.wav has 1 channel, S16, 48000 Hz"),
        ("a.wav slow.wav", "a.wav", "slow.wav has 2 channels, S16, 8000 Hz"),
        (
            "a.wav a.raw wide.wav",
            "a.wav",
            "wide.wav has 2 channels, S32, 48000 Hz",
        ),
    ] {
        complains(
            &folder.run(&format!("--join {words}")),
            &format!("{two}: {first} has {plain}, and {other}"),
        );
    }
    // raw frames and a file of the same form are of one
    assert_eq!(folder.run("--join a.raw a.wav").status.code(), Some(0));
    complains(
        &folder.run("--join a.raw a.wav --rate 8000"),
        "a.wav says its own rate, channels and format: leave --rate out",
    );
}

/// What goes with a recording, and what does not.
#[test]
fn recordings() {
    let needs = "--record a needs --periods N: a recording has so many periods";
    complaint("--record a", needs);
    complaint("--record", "--record needs a value; see --help");
    complaint(
        "--record -",
        "--record takes a file's name; standard output has the page",
    );
    for words in ["--periods 3", "--short-every 3", "--written-at 3", "--written 9"] {
        let (name, _) = words.split_once(' ').unwrap();
        let sentence = format!("{name} goes with --record: nothing is recorded without it");
        complaint(words, &sentence);
    }
    complaint(
        "--record a --periods 3 b.raw",
        "--record a speaks nothing: leave b.raw out",
    );
    complaint("--record a --periods 3 -- -", "--record a speaks nothing: leave - out");
    for words in [
        "--seconds 3",
        "--go-on",
        "--short-jacks",
        "--virtio 1.3",
        "--controls 2",
        "--accepted b",
        "--wav=b",
        "--log b",
        "--picture b",
    ] {
        let name = words.split([' ', '=']).next().unwrap();
        let sentence = format!("{name} goes with announcements: leave it out with --record");
        complaint(&format!("--record a --periods 3 {words}"), &sentence);
    }
    complaint(
        "--record a --periods 3 --written 9",
        "--written goes with --written-at N: it is the length of one period",
    );
    complaint(
        "--record a --periods 3 --fail-call remap",
        "--fail-call remap goes with --short-jacks: without it no remap is asked for",
    );
    complaint(
        "--record a --periods 3 --written-at 1 --written 4294967296",
        "--written takes a number from 0 to 4294967295, not '4294967296'",
    );
    complaint(
        "--record a --periods 1000001 --period 4",
        "1000001 periods of 4 bytes are 4000004 bytes; at most 1000000 periods and 1073741824 bytes are recorded",
    );
    complaint(
        "--record a --periods 262145",
        "262145 periods of 4096 bytes are 1073745920 bytes; at most 1000000 periods and 1073741824 bytes are recorded",
    );
    complaint(
        "--record a --periods 1 --period 33554432",
        "32 buffers for periods of 33554432 bytes are 1073742080 bytes; at most 1073741824 are made",
    );
    complaint(
        "--record no-such-folder/a --periods 1",
        "cannot write no-such-folder/a: No such file or directory (os error 2)",
    );
}

#[test]
fn sizes_that_cannot_be() {
    complaint("--channels 0", "--channels takes a number from 1 to 255, not '0'");
    complaint("--channels 256", "--channels takes a number from 1 to 255, not '256'");
    complaint("--period 0", "--period takes a number from 1 to 4294967295, not '0'");
    complaint("--buffer 0", "--buffer takes a number from 1 to 4294967295, not '0'");
    complaint("--period 3 --buffer 8", "--buffer 8 is no multiple of the period, 3");
    complaint(
        "--buffer 4294967296",
        "--buffer takes a number from 1 to 4294967295, not '4294967296'",
    );
    complaint(
        "--period 1073741824",
        "four periods of 1073741824 bytes are more than a buffer can have, 4294967295: name one with --buffer",
    );
    complaint(
        "--seconds 3600 --rate 384000 --channels 255",
        "a tone of 3600 s at 384000 Hz with 255 channels is 705024000000 bytes; at most 1073741824 are made",
    );
    complaint(
        "--seconds 6 --period 1",
        "a tone of 6 s has 1152000 periods with --period 1; an account is kept of at most 1000000",
    );
}

/// A WAVE file that is not taken: what it is, and what to do.
#[test]
fn wave_files() {
    let folder = Folder::new("wave-files");
    let good = wave(1, Format::S16, Rate::Hz22050, &frames(1000));
    let written = |name: &str, at: usize, bytes: &[u8]| {
        let mut file = good.clone();
        file[at..at + bytes.len()].copy_from_slice(bytes);
        folder.write(name, &file);
    };
    folder.write("good.wav", &good);
    folder.write("cut.wav", &good[..1000]);
    written("extensible.wav", 20, &[0xfe, 0xff]);
    written("float.wav", 20, &[3, 0]);
    folder.write("wide.wav", &wave(2, Format::S32, Rate::Hz22050, &frames(1000)));
    complains(
        &folder.run("good.wav cut.wav --log log.json"),
        "cut.wav is no whole WAVE file (13 NotWave): it is cut short, went through a pipe, or a chunk of it lacks bytes or a pad; \
         sox cut.wav -t wavpcm out.wav may mend it",
    );
    assert!(!folder.0.join("log.json").exists());
    complains(
        &folder.run("extensible.wav"),
        "extensible.wav has an extensible header, which the driver does not take (14 BadSound); \
         sox extensible.wav -t wavpcm out.wav writes the same sound with a plain one",
    );
    complains(
        &folder.run("float.wav"),
        "float.wav has a sound that the driver does not take (14 BadSound): it takes PCM of 8, 16, 24 or 32 bits at \
         5512, 8000, 11025, 16000, 22050, 32000, 44100, 48000, 64000, 88200, 96000, 176400, 192000, 384000 Hz; \
         sox float.wav -b 16 -r 48000 -t wavpcm out.wav writes such a file",
    );
    for option in ["--rate", "--channels"] {
        complains(
            &folder.run(&format!("good.wav {option} 8000").replace("--channels 8000", "--channels 1")),
            &format!("good.wav says its own rate, channels and format: leave {option} out"),
        );
    }
    complains(
        &folder.run("good.wav wide.wav --wav out.wav"),
        "--wav writes one file, and the announcements have frames of two forms: \
         good.wav has 1 channel, S16, 22050 Hz, and wide.wav has 2 channels, S32, 22050 Hz",
    );
    assert!(!folder.0.join("out.wav").exists());
}

/// A folder with a recording, other names for it, and links to files that are not there.
fn with_links(name: &str) -> Folder {
    let folder = Folder::new(name);
    let place = |name: &str| folder.0.join(name);
    folder.write("feeder.raw", &frames(5_000));
    fs::create_dir(place("sub")).unwrap();
    symlink("feeder.raw", place("link")).unwrap();
    symlink("..", place("sub/up")).unwrap();
    fs::hard_link(place("feeder.raw"), place("twin")).unwrap();
    symlink("new.raw", place("to-new")).unwrap();
    symlink("endless", place("endless")).unwrap();
    folder
}

#[test]
fn no_input_is_overwritten() {
    let folder = with_links("overwrite");
    let spelled = [
        "feeder.raw",
        "./feeder.raw",
        "sub/../feeder.raw",
        "sub/up/feeder.raw",
        "link",
        "twin",
    ];
    for output in ["--accepted", "--wav", "--log", "--picture"] {
        for path in spelled {
            let said = folder.run(&format!("--seconds 0 feeder.raw {output} {path}"));
            complains(&said, &format!("{output} {path} would overwrite the input feeder.raw"));
        }
    }
    complains(
        &folder.run("sub/up/link --log feeder.raw"),
        "--log feeder.raw would overwrite the input sub/up/link",
    );
    assert_eq!(folder.read("feeder.raw"), frames(5_000));
}

#[test]
fn no_two_outputs_meet() {
    let folder = with_links("meet");
    for path in [
        "new.raw",
        "./new.raw",
        "sub/../new.raw",
        "sub/up/new.raw",
        "to-new",
        "sub/up/to-new",
    ] {
        let said = folder.run(&format!("--accepted new.raw --picture {path}"));
        complains(
            &said,
            &format!("--accepted new.raw and --picture {path} are the same file"),
        );
    }
    complains(
        &folder.run("--log sub/../link --accepted twin"),
        "--accepted twin and --log sub/../link are the same file",
    );
    assert!(!folder.0.join("new.raw").exists());
    // nothing is lost there
    let said = folder.run("--log /dev/null --accepted /dev/null --picture /dev/null");
    assert_eq!(said.status.code(), Some(0));
    let said = folder.run("--log endless");
    assert_eq!(said.status.code(), Some(2));
}

/// Redirected to files, standard input and output are files like others.
#[test]
fn redirected() {
    let folder = with_links("redirected");
    let file = folder.0.join("feeder.raw");
    let mut command = folder.command(&["-", "--log", "link"]);
    let said = command.stdin(File::open(&file).unwrap()).output().unwrap();
    complains(&said, "--log link would overwrite the input -");
    let mut command = folder.command(&["feeder.raw"]);
    let append = OpenOptions::new().append(true).open(&file).unwrap();
    let said = command.stdout(append).output().unwrap();
    complains(&said, "standard output would overwrite the input feeder.raw");
    assert_eq!(folder.read("feeder.raw"), frames(5_000));
}
