//! The stored examples in tests/examples, which tests/programs runs the programs on: what is stored there is what this program says.

use nucleus::{dump, program};
use std::fs;
use std::path::{Path, PathBuf};

fn examples(below: &str, ending: &str) -> Vec<PathBuf> {
    let folder = Path::new(env!("CARGO_MANIFEST_DIR")).join("../examples").join(below);
    let paths = fs::read_dir(folder).expect("examples").map(|entry| entry.expect("a file").path());
    paths.filter(|path| path.extension().is_some_and(|other| other == ending)).collect()
}

fn stored(path: &Path, ending: &str) -> Vec<u8> {
    let path = path.with_extension(ending);
    fs::read(&path).unwrap_or_else(|error| panic!("{}: {error}", path.display()))
}

#[test]
fn event_files() {
    let files = examples("", "events");
    assert!(files.len() >= 9);
    for file in files {
        let mut lines = Vec::new();
        let node = program::run(&stored(&file, "events")[..], &mut lines).expect("a run");
        assert_eq!(lines, stored(&file, "lines"), "{}", file.display());
        assert_eq!(node.dump(), stored(&file, "dump"), "{}", file.display());
        let fields = dump::inspect(&node.dump());
        assert!(fields.starts_with("0 0\n"));
        assert_eq!(fields.as_bytes(), stored(&file, "fields"), "{}", file.display());
    }
}

/// Beside each damaged dump stands the line that inspect prints; every number is among them.
#[test]
fn damaged_dumps() {
    let mut numbers = Vec::new();
    for file in examples("damage", "dump") {
        let line = dump::inspect(&stored(&file, "dump"));
        assert_eq!(line.as_bytes(), stored(&file, "fields"), "{}", file.display());
        numbers.push(line.split(' ').next().unwrap_or("").to_string());
    }
    for number in ["15", "16", "17", "18", "19"] {
        assert!(numbers.iter().filter(|other| *other == number).count() >= 5, "{number}: {numbers:?}");
    }
    assert!(!numbers.contains(&"0".to_string()));
}
