//! The closing program `target/bin/close`, as a depot runs it: what it says where its output cannot be written, how much stack it needs,
//! and more sheets than 16 bits count.

mod machine;

use std::fs::{read, File};
use std::io::Write;
use std::path::{Path, PathBuf};
use std::process::{Command, Output, Stdio};

/// KiB of stack within which a full input must be closed. The program needs 203,072 bytes; the system's own use of the stack comes on top.
const STACK: u32 = 256;

/// KiB of stack that hold not even the register and the text together.
const SMALL_STACK: u32 = 128;

fn top() -> PathBuf {
    Path::new(env!("CARGO_MANIFEST_DIR")).join("../..")
}

fn close() -> Command {
    machine::program(&top().join("target/bin/close"))
}

fn close_within(kib: u32) -> Command {
    machine::program_within(kib, &top().join("target/bin/close"))
}

/// A program that ends before its whole input came leaves the rest of it unread.
fn run(mut program: Command, output: Stdio, input: &[u8]) -> Output {
    let mut child = program.stdin(Stdio::piped()).stdout(output).stderr(Stdio::piped()).spawn().unwrap();
    let _ = child.stdin.take().unwrap().write_all(input);
    child.wait_with_output().unwrap()
}

/// What is printed, where the program ends well and has nothing to say on standard error.
fn printed(program: Command, input: &[u8]) -> String {
    let ran = run(program, Stdio::piped(), input);
    assert!(ran.status.success(), "{:?}", ran.status);
    assert_eq!(String::from_utf8(ran.stderr).unwrap(), "");
    String::from_utf8(ran.stdout).unwrap()
}

fn example_a() -> Vec<u8> {
    read(top().join("crates/close/stdin")).unwrap()
}

/// Set i of 64, with 8 changes; the first and the last 16 sets claim the same rows. Csns and values have 20 digits.
fn put(sheet: Vec<u8>, i: u64) -> Vec<u8> {
    let mut records = vec![];
    for j in 0..8 {
        records.extend([1, 0, 0, 0]);
        records.extend((1 + j * 128 + i as u32 % 48).to_le_bytes());
        records.extend((u64::MAX - i).to_le_bytes());
    }
    paper::put(&sheet, 1, 1, u64::MAX - 1023 + i * 16 + i % 16, &records, paper::SHEET_ROOM).unwrap()
}

/// A full register and sheets that give a full one: the odd sets, the even sets, then all sets twice, with the notices at last.
fn full_input() -> Vec<u8> {
    let rows = (1..=1024).map(|k| (k, paper::Row { value: u64::MAX, mark: paper::Mark::FRESH })).collect();
    let register = paper::Register { snapshot: 0, rows }.bytes();
    let empty = paper::open(1, 0xffff, paper::SHEET_ROOM).unwrap();
    let odd = (1..64).step_by(2).fold(empty.clone(), put);
    let even = (0..64).step_by(2).fold(empty.clone(), put);
    let full = (0..64).fold(empty, put);
    let noticed = (0..16).fold(full.clone(), |s, m| paper::notice(&s, 1, m, 4, paper::SHEET_ROOM).unwrap());
    assert_eq!((register.len(), noticed.len()), (paper::REGISTER_ROOM, paper::SHEET_ROOM));
    [register, odd, even, full, noticed].concat()
}

#[test]
fn closes_example_a() {
    let text = String::from_utf8(read(top().join("crates/close/stdout")).unwrap()).unwrap();
    assert_eq!(printed(close(), &example_a()), text);
}

#[test]
fn says_that_the_output_could_not_be_written() {
    let full = File::options().write(true).open("/dev/full").unwrap();
    let ran = run(close(), full.into(), &example_a());
    assert_eq!(String::from_utf8(ran.stderr).unwrap(), "close: the output could not be written\n");
}

#[test]
fn closes_a_full_input_on_a_small_stack() {
    let input = full_input();
    let text = printed(close(), &input);
    assert!(text.starts_with("snapshot 1 rows 1024\nset 18446744073709550592 "), "{text:.200}");
    assert_eq!(text.lines().count(), 1 + 64 + 1024);
    assert_eq!(text.matches(" lost ").count(), 16);
    assert_eq!(printed(close_within(STACK), &input), text);

    let ran = run(close_within(SMALL_STACK), Stdio::piped(), &input);
    assert!(!ran.status.success() && ran.stdout.is_empty(), "the limit is felt");
}

#[test]
fn joins_more_sheets_than_16_bits_count() {
    let empty = paper::open(1, 1, paper::SHEET_ROOM).unwrap();
    let last = paper::notice(&empty, 1, 0, 0, paper::SHEET_ROOM).unwrap();
    let input = [vec![0; 8], empty.repeat(65_600), last].concat();
    assert_eq!(printed(close(), &input), "snapshot 1 rows 0\n");
}
