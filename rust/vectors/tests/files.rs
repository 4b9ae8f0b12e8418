//! The files of the repository are what is made here.

use std::collections::BTreeSet;
use std::fs;

#[test]
fn files_are_what_is_made() {
    for (path, bytes) in vectors::files() {
        let found = fs::read(&path).unwrap_or_else(|e| panic!("{}: {e}", path.display()));
        assert!(found == bytes, "{} is not what is made: run `cargo run -p vectors`", path.display());
    }
}

/// No file of `data/` is left over from an earlier layout.
#[test]
fn no_other_file() {
    let made: BTreeSet<_> = vectors::files().into_iter().map(|(path, _)| path).collect();
    for name in ["trials", "lessons"] {
        for entry in fs::read_dir(vectors::crate_dir(name).join("data")).unwrap() {
            let path = entry.unwrap().path();
            assert!(made.contains(&path), "{} is not made by vectors", path.display());
        }
    }
}

/// Each lesson names its input and prints what the program prints of it.
#[test]
fn the_lessons_are_told() {
    let path = vectors::repository().join("docs/LESSONS.md");
    let page = fs::read_to_string(path).unwrap();
    for lesson in vectors::lessons() {
        let told: String = lesson.text.lines().map(|line| format!("    {line}\n")).collect();
        let command = format!("    target/bin/close < crates/lessons/data/{}\n", lesson.name);
        let at = page.find(&command).unwrap_or_else(|| panic!("{} has no command in docs/LESSONS.md", lesson.name));
        assert!(page[at..].starts_with(&(command + "\n" + &told)), "docs/LESSONS.md tells another text of {}", lesson.name);
    }
}
