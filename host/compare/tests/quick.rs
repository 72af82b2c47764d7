//! The comparison in small, for `cargo test`; the gate's run is the program's own.
use compare::run::{Counts, With, report, run};
use compare::{
    captures, guarded, indirect, judge::Intended, pending, random, raw, record, rust, short, shown, stages, text,
    traces, versions, waves,
};

const WITH: With = With { rust: oracle::AT_HAND, port: true };

fn agrees(case: compare::case::Case) {
    if run(&case, WITH, &mut Counts::default()).is_err() {
        panic!("{}", report(&case, WITH));
    }
}

#[test]
fn a_case_is_its_text() {
    for seed in 0..400 {
        let cases = [random::case(seed), random::strict(seed), random::guarded(seed), random::pending(seed)];
        for case in cases.into_iter().chain([random::capture(seed), random::indirect(seed)]) {
            assert_eq!(text::case_of(&text::case_text(&case)), case);
        }
    }
}

#[test]
fn drivers_agree() {
    rust::quiet_panics();
    short::events(&mut agrees);
    short::counts(&mut agrees);
    short::announcements(&mut agrees);
    short::budgets(&mut agrees);
    (0..300).for_each(|seed| agrees(random::case(seed)));
    short::strict_stale(&mut agrees);
    short::boundaries(&mut agrees);
    short::own_lengths(&mut agrees);
    (0..100).for_each(|seed| agrees(random::strict(seed)));
    guarded::states(&mut agrees);
    guarded::ranges(&mut agrees);
    guarded::announcements(&mut agrees);
    (0..200).for_each(|seed| agrees(random::guarded(seed)));
    pending::tokens(&mut agrees);
    pending::wrong(&mut agrees);
    pending::meanwhile(&mut agrees);
    pending::played(&mut agrees);
    (0..200).for_each(|seed| agrees(random::pending(seed)));
}

#[test]
fn drivers_agree_with_indirect_descriptors() {
    rust::quiet_panics();
    for group in [indirect::rounds, indirect::places, indirect::tokens, indirect::pending_as_before] {
        group(&mut agrees);
    }
    (0..600).for_each(|seed| agrees(random::indirect(seed)));
    let captures = indirect::CAPTURES.1;
    let mut at = 0;
    captures(&mut |case| {
        at += 1;
        if at % 50 == 0 {
            agrees(case);
        }
    });
}

#[test]
fn captures_agree() {
    for group in [captures::lengths, captures::orders, captures::set_ups, captures::owed] {
        group(&mut agrees);
    }
    (0..300).for_each(|seed| agrees(random::capture(seed)));
}

#[test]
fn entries_agree() {
    assert_eq!(stages::all().err(), None);
    for seed in 0..40 {
        assert!(raw::sequence(seed, 60).is_ok(), "compare --entries 1 --seed {seed}");
        assert!(raw::damaged(seed, 60).is_ok(), "compare --entries 1 --seed {seed}");
    }
}

#[test]
fn waves_agree() {
    let mut kinds = waves::Kinds::default();
    for seed in 0..10_000 {
        let tried = waves::tried(seed, &mut kinds);
        assert_eq!(tried.err(), None, "compare --wav 1 --seed {seed}");
    }
    assert_eq!(kinds.missing(), []);
}

#[test]
fn traces_agree() {
    let mut tally = traces::Tally::default();
    for seed in 0..1000 {
        let tried = traces::tried(seed, &mut tally);
        assert_eq!(tried.err(), None, "compare --traces 1 --seed {seed}");
    }
    assert_eq!(tally.missing(), Vec::<String>::new());
}

#[test]
fn versions_agree() {
    let tried = versions::all();
    assert!(matches!(tried, Ok(count) if count > 100_000), "{tried:?}");
}

#[test]
fn the_recorded_list_agrees() {
    let recorded = include_str!("../recorded.txt");
    assert!(recorded.len() <= 2_000_000);
    assert_eq!(record::replay(recorded).err(), None);
}

#[test]
fn every_intended_difference_has_its_smallest_input() {
    rust::quiet_panics();
    let page = include_str!("../../../docs/DIFFERENCES.md");
    for entry in Intended::ALL {
        let row = shown::ROWS.iter().find(|(_, _, shows)| *shows == Some(entry));
        let (_, input, _) = row.unwrap_or_else(|| panic!("{entry:?} is not shown"));
        let line = format!("| {entry:?} | `{}`", input.replace('|', "\\|"));
        assert!(page.contains(&line), "docs/DIFFERENCES.md lacks {line}");
    }
    assert_eq!(shown::print(), 0);
}
