//! src/ffi.rs declares just what include/snd.h does: the same entries with the same parameters, in the same order. The header's version is
//! that of the workspace.

const HEADER: &str = include_str!("../../include/snd.h");
const OURS: &str = include_str!("../src/ffi.rs");

/// Each declaration as one line: the name, then `parameter: type` by Rust's names of the types.
fn of_header() -> Vec<String> {
    let mut text = String::new();
    for part in HEADER.split("/*") {
        text += part.split_once("*/").map_or(part, |(_, after)| after);
    }
    let found = text.split("uint64_t snd_").skip(1).filter_map(|rest| rest.split_once(");"));
    found
        .map(|(declared, _)| {
            entry(declared, |p| {
                let (kind, name) = p.rsplit_once([' ', '*']).expect("a type and a name");
                let pointer = p.contains('*');
                let kind = match (kind.trim_end_matches([' ', '*']), pointer) {
                    ("const uint8_t", true) => "*const u8",
                    ("uint8_t", true) => "*mut u8",
                    ("uint8_t", false) => "u8",
                    ("uint32_t", false) => "u32",
                    ("uint64_t", false) => "u64",
                    ("size_t", false) => "usize",
                    other => panic!("{other:?}"),
                };
                format!("{name}: {kind}")
            })
        })
        .collect()
}

fn of_ours() -> Vec<String> {
    let found = OURS.split("pub fn snd_").skip(1).filter_map(|rest| rest.split_once(')'));
    found.map(|(declared, _)| entry(declared, str::to_string)).collect()
}

fn entry(declared: &str, parameter: impl Fn(&str) -> String) -> String {
    let (name, list) = declared.split_once('(').expect("parameters");
    let words = list.split(',').map(|p| p.split_whitespace().collect::<Vec<_>>().join(" "));
    let all: Vec<String> = words.filter(|p| !p.is_empty() && p != "void").map(|p| parameter(&p)).collect();
    format!("{name}({})", all.join(", "))
}

#[test]
fn the_declarations_are_the_headers() {
    assert_eq!(of_header().len(), 70);
    assert_eq!(of_header(), of_ours());
}

/// What the header defines a name as.
fn defined(name: &str) -> &'static str {
    let value = HEADER.lines().find_map(|line| line.strip_prefix(&format!("#define {name} ")));
    value.unwrap_or_else(|| panic!("snd.h defines no {name}"))
}

#[test]
fn the_version_is_the_workspaces() {
    let manifest = include_str!("../../Cargo.toml");
    let (_, package) = manifest.split_once("[workspace.package]").expect("the workspace has a package");
    let version = package.lines().find_map(|line| line.strip_prefix("version = ")).expect("and a version");
    let numbers = ["MAJOR", "MINOR", "PATCH"].map(|part| defined(&format!("SND_VERSION_{part}")).trim_end_matches('u'));
    assert_eq!(format!("{:?}", numbers.join(".")), version, "snd.h and host/Cargo.toml");
    // minor and patch have three digits each in the one number
    let whole = "(SND_VERSION_MAJOR * 1000000u + SND_VERSION_MINOR * 1000u + SND_VERSION_PATCH)";
    assert_eq!(defined("SND_VERSION"), whole);
    assert!(numbers.iter().all(|number| number.parse::<u32>().expect("a number") < 1000));
}
