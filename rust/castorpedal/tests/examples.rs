//! The examples, built and run as a user does it: `examples/close.c` and `desk.c` with the header and the library, `examples/close.rs` and
//! `desk.rs`. The first of each close example A and print the same; so do the others, which type at the desk.

mod machine;

use std::fs::{read_to_string, write};
use std::path::{Path, PathBuf};
use std::process::Command;

fn top() -> PathBuf {
    Path::new(env!("CARGO_MANIFEST_DIR")).join("../..")
}

/// The program that a C file is, compiled and linked.
fn compiled(source: &Path, name: &str) -> Command {
    let program = Path::new(env!("CARGO_TARGET_TMPDIR")).join(name);
    let built = Command::new(machine::c_compiler())
        .args(["-std=c99", "-Wall", "-Wextra", "-Werror", "-pedantic", "-I"])
        .arg(top().join("include"))
        .arg(source)
        .arg(top().join("target/staticlib/libcastorpedal.a"))
        .arg("-o")
        .arg(&program)
        .output()
        .unwrap();
    assert!(built.status.success(), "{}", String::from_utf8_lossy(&built.stderr));
    machine::program(&program)
}

/// What a program prints, and its exit code. What it says on standard error is shown where the test fails.
fn run(mut program: Command) -> (String, Option<i32>) {
    let ran = program.output().unwrap();
    eprint!("{}", String::from_utf8_lossy(&ran.stderr));
    (String::from_utf8(ran.stdout).unwrap(), ran.status.code())
}

/// The closing program's report of example A; then of each read check code 0, entry 0, key 10 and reason 2, another csn than the one seen.
fn expected() -> String {
    read_to_string(top().join("crates/close/stdout")).unwrap() + "check 0 0 10 2\ncheck 0 0 10 2\n"
}

#[test]
fn closes_example_a_from_c() {
    assert_eq!(run(compiled(&top().join("examples/close.c"), "close_c")), (expected(), Some(0)));
}

/// The example of a name, built and run by cargo.
fn example(name: &str) -> Command {
    let mut cargo = Command::new(env!("CARGO"));
    cargo.args(["run", "--offline", "--quiet", "--example", name]).current_dir(top().join("rust"));
    cargo
}

#[test]
fn closes_example_a_from_rust() {
    assert_eq!(run(example("close")), (expected(), Some(0)));
}

/// The records in key order; the set's verdict; the one row that is left, with the set's mark.
const TYPED: &str = "typed 3 20 0\ntyped 1 572 6\nset 3 commit 0\nrow 572 6 1 1 3\n";

#[test]
fn types_at_the_desk_from_c() {
    assert_eq!(run(compiled(&top().join("examples/desk.c"), "desk_c")), (TYPED.to_string(), Some(0)));
}

#[test]
fn types_at_the_desk_from_rust() {
    assert_eq!(run(example("desk")), (TYPED.to_string(), Some(0)));
}

/// The ten lines that README.md shows stand in the example, in one piece.
#[test]
fn the_ten_lines_are_the_examples() {
    let page = read_to_string(top().join("README.md")).unwrap();
    let (_, section) = page.split_once("\n## The desk from Rust in ten lines\n").unwrap();
    let section = section.split("\n## ").next().unwrap();
    let lines: Vec<&str> = section.lines().filter(|line| line.starts_with("    ")).collect();
    assert_eq!(lines.len(), 10);
    assert!(read_to_string(top().join("examples/desk.rs")).unwrap().contains(&lines.join("\n")));
}

/// The C example with one number changed, from the register's to the read check's: the refusal ends the run.
#[test]
fn says_what_is_refused_from_c() {
    let text = read_to_string(top().join("examples/close.c")).unwrap();
    for (number, right, wrong) in [
        (1, "[36] = 20", "[36] = 10"),
        (3, "1, 1, 3, six, sizeof six", "1, 1, 3, six, 15"),
        (5, "castorpedal_open(1, 40,", "castorpedal_open(1, 32,"),
        (6, "sheet_len, 1, 5, 1, spare", "sheet_len, 1, 5, 0, spare"),
        (10, "closed.register_len, 2, 0, reads", "closed.register_len, 4, 0, reads"),
    ] {
        assert_eq!(text.matches(right).count(), 1, "{right}");
        let source = Path::new(env!("CARGO_TARGET_TMPDIR")).join("refused.c");
        write(&source, text.replace(right, wrong)).unwrap();
        let (printed, code) = run(compiled(&source, "refused_c"));
        assert_eq!((printed.lines().last(), code), (Some(format!("refused {number}").as_str()), Some(1)), "{wrong}");
    }
}
