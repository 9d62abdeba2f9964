//! The scenarios of host/scenarios, played by the proved library and by the independent program: both give the whole expected text.

use compare::binding::call::{Step, exported, independent};
use compare::broken::mistakes::MISTAKES;
use compare::scenario::play;
use std::path::{Path, PathBuf};

const NAMES: [&str; 15] = [
    "append-at-leader",
    "divergent-logs",
    "empty-leader",
    "end-beyond-log",
    "late-refusal",
    "leader-returns",
    "nothing-behind-last",
    "old-entry-chosen",
    "old-entry-not-chosen",
    "own-end",
    "power-cut",
    "repeated-vote",
    "second-candidate",
    "smaller-term",
    "two-ballots",
];

fn folder() -> PathBuf {
    Path::new(env!("CARGO_MANIFEST_DIR")).join("../scenarios")
}

fn read(name: &str, ending: &str) -> String {
    let path = folder().join(name).with_extension(ending);
    std::fs::read_to_string(&path).unwrap_or_else(|error| panic!("{}: {error}", path.display()))
}

fn compare_all(step: Step) {
    for name in NAMES {
        let told = play(&read(name, "txt"), step).unwrap_or_else(|wrong| panic!("{name}: {wrong}"));
        assert_eq!(told, read(name, "expected"), "{name}");
    }
}

#[test]
fn the_proved_library_plays_them_as_expected() {
    compare_all(exported);
}

#[test]
fn the_independent_program_plays_them_as_expected() {
    compare_all(independent);
}

/// A hub that makes the mistake gives another text, or MultiPaxos objects before the end.
#[test]
fn every_scenario_shows_its_mistakes() {
    for (name, step) in MISTAKES {
        let told = play(&read(name, "txt"), step);
        assert_ne!(told, Ok(read(name, "expected")), "{name}");
        println!("{name}: {}", told.err().unwrap_or("another text".to_string()));
    }
    assert!(NAMES.iter().all(|name| MISTAKES.iter().any(|mistake| mistake.0 == *name)));
}

#[test]
fn every_scenario_is_played() {
    let files = std::fs::read_dir(folder()).expect("the folder of scenarios");
    let mut names: Vec<String> = files
        .map(|file| file.expect("a file").file_name().into_string().expect("a name"))
        .filter_map(|name| name.strip_suffix(".txt").map(String::from))
        .collect();
    names.sort();
    assert_eq!(names, NAMES);
}
