//! The header, the declarations in ffi.rs, the table that the tests walk and docs/BOUNDARY.md are of the same entries; a parameter that the
//! first two took differently would be the one way to make a safe call unsound.
mod common;
use common::entries::ENTRIES;

/// An entry and its parameters, as Rust writes them: `state: &mut [u8]`, `jacks: u32`.
type Declared = Vec<(String, Vec<String>)>;

/// A parameter of the header in Rust's words; none for the length that follows each pointer.
fn of_c(parameter: &str) -> Option<String> {
    let (kind, name) = parameter.trim().rsplit_once(' ')?;
    let rust = match kind {
        "const uint8_t" => "&[u8]",
        "uint8_t" if name.starts_with('*') => "&mut [u8]",
        "size_t" if name.ends_with("_len") => return None,
        "size_t" => "usize",
        "uint8_t" => "u8",
        "uint32_t" => "u32",
        "uint64_t" => "u64",
        other => panic!("{other} crosses the boundary nowhere else"),
    };
    Some(format!("{}: {rust}", name.trim_start_matches('*')))
}

/// What stands between `start` and `end`, at each place where it does, as a name and a list of parameters.
fn declared(text: &str, start: &str, parameter: fn(&str) -> Option<String>) -> Declared {
    let text = text.split_whitespace().collect::<Vec<_>>().join(" ");
    let found = text.split(start).skip(1).filter_map(|rest| rest.split_once(");"));
    let entries = found.filter_map(|(entry, _)| entry.split_once('('));
    entries
        .map(|(name, given)| (format!("snd_{name}"), given.split(',').filter_map(parameter).collect()))
        .collect()
}

fn header() -> Declared {
    declared(include_str!("../../include/snd.h"), "uint64_t snd_", of_c)
}

#[test]
fn rust_declares_what_the_header_declares() {
    let as_it_is = |parameter: &str| Some(parameter.trim().to_string()).filter(|text| !text.is_empty());
    let rust = declared(include_str!("../src/ffi.rs"), " fn snd_", as_it_is);
    assert_eq!(rust.len(), 70);
    for (ours, theirs) in rust.iter().zip(header()) {
        assert_eq!(*ours, theirs);
    }
}

#[test]
fn the_table_of_the_tests_has_every_entry() {
    let names: Vec<String> = header().into_iter().map(|(name, _)| name).collect();
    let ours: Vec<&str> = ENTRIES.iter().map(|entry| entry.name).collect();
    assert_eq!(ours, names);
}

#[test]
fn a_pointer_is_followed_by_its_length() {
    let header = include_str!("../../include/snd.h")
        .split_whitespace()
        .collect::<Vec<_>>()
        .join(" ");
    for (at, _) in header.match_indices("uint8_t *") {
        let rest = &header[at + "uint8_t *".len()..];
        let name = rest.split(',').next().unwrap();
        assert!(
            rest.starts_with(&format!("{name}, size_t {name}_len")),
            "{name} has no length"
        );
    }
}

#[test]
fn the_page_on_the_boundary_has_every_entry() {
    let page = include_str!("../../../docs/BOUNDARY.md");
    for entry in ENTRIES {
        assert!(
            page.contains(&format!("`{}", entry.name)),
            "docs/BOUNDARY.md lacks {}",
            entry.name
        );
    }
}
