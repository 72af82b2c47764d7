//! The pictures: two are stored, and held byte for byte; all are XML.
mod common;

use common::{Folder, frames, stored};
use std::process::Command;

/// Runs the program, and gives the picture that it drew.
fn picture(folder: &Folder, words: &str) -> String {
    folder.run(&format!("{words} --picture picture.svg"));
    folder.text("picture.svg")
}

#[test]
fn a_good_run() {
    let folder = Folder::new("picture-good");
    stored("pictures/good.svg", &picture(&folder, "--slow 2 --seconds 1"));
}

#[test]
fn two_faults_and_a_drain() {
    let folder = Folder::new("picture-faults");
    let words = "--slow 4 --budget 20 --fail-at 7 --wrong-slot-at 3";
    stored("pictures/faults.svg", &picture(&folder, words));
}

/// 60,000 periods on 120,001 turns take no more room than a few hundred.
#[test]
fn thousands_of_periods() {
    let folder = Folder::new("picture-thousands");
    let drawn = picture(&folder, "--seconds 5 --period 16 --slow 2 --fail-at 50000");
    assert!(drawn.len() < 60_000, "{} bytes", drawn.len());
    let bars = drawn.matches("<rect class=\"accepted\"").count();
    assert!((100..=181).contains(&bars), "{bars} bars");
    assert_eq!(drawn.matches("class=\"failed\"").count(), 2, "a bar and its legend");
    assert!(drawn.contains("shows the worst of them"));
}

/// A panel to each file, in order.
#[test]
fn several() {
    let folder = Folder::new("picture-several");
    folder.write("<one>&.raw", &frames(10_000));
    folder.write("two.raw", b"");
    let drawn = picture(&folder, "<one>&.raw two.raw");
    let titles: Vec<_> = drawn.lines().filter(|line| line.contains("class=\"title\"")).collect();
    assert_eq!(titles.len(), 2);
    assert!(titles[0].contains(">&lt;one&gt;&amp;.raw: 0 Ok<"), "{}", titles[0]);
    assert!(titles[1].contains(">two.raw: 0 Ok<"), "{}", titles[1]);
    assert!(drawn.contains("nothing was submitted"));
}

#[test]
fn all_are_xml() {
    let folder = Folder::new("picture-xml");
    folder.write("<one>&.raw", &frames(10_000));
    let runs = [
        "",
        "--budget 0",
        "--seconds 0",
        "--wrong-slot-at 1 --slow 9",
        "<one>&.raw",
    ];
    for words in runs {
        picture(&folder, words);
        let script = "import xml.dom.minidom; xml.dom.minidom.parse('picture.svg')";
        let python = Command::new("python3")
            .args(["-c", script])
            .current_dir(&folder.0)
            .output();
        match python {
            Ok(said) => assert!(said.status.success(), "{words}: {said:?}"),
            Err(_) => println!("python3 is not at hand: not tried"),
        }
    }
}
