//! The case files of `crates/trials` and the inputs of `crates/lessons`, and what the two programs must print of them.
//!
//! All is computed by `paper`, the documents in plain Rust, and nothing by the proved library: so what the programs are held to is
//! the independent implementation. `cargo run -p vectors` writes the files; a test fails where they are not what is made here.
//!
//! # The layout of a case
//!
//! A case file is cases, one behind the other. A case is a head of 64 bytes and then its inputs; numbers are little-endian.
//!
//! | Bytes | What |
//! |---|---|
//! | 0 to 23 | the label, in ASCII, with spaces behind it |
//! | 24 | the operation: 1 open, 2 put, 3 notice, 4 join, 5 close, 6 check, 7 check_reads, 8 enter, 9 offer, 10 tag; then three zero bytes |
//! | 28 to 31 | epoch; check: the mode; enter: the kind; tag: the key |
//! | 32 to 35 | open: roster; put, offer: sen; notice: master; check: lsn |
//! | 36 to 43 | put, offer: csn; notice: count; enter: the value |
//! | 44 to 47 | length of the first input: the sheet; close, check: the register; enter: the open set |
//! | 48 to 51 | length of the second: put: the records; join, close: the sheet; check: the keys, 4 bytes each; enter: the tag; offer: the set |
//! | 52 to 55 | length of the third: check: the csns, 8 bytes each |
//! | 56 to 59 | room of the output buffer |
//! | 60 to 63 | room of closing's second buffer, for the verdicts |
//!
//! An open set is 132 bytes, its count as u32 and its 128 bytes of records.
//!
//! Of each case the program prints a line: the label, then `wrote N` and the bytes, `refused N`, `pass`, `fails INDEX KEY
//! REASON` or `entered`. Bytes are printed in hexadecimal, but of more than 320 only `sum S`: the bytes as one number, the first leading,
//! modulo the prime 2^55 − 55. Where a byte behind the written ones has changed, `and more` follows. At the end stands the open set as it
//! then is, refused or not: of enter its bytes, of offer `set` and its bytes.

mod book;
mod closing;
mod desk;
mod endings;
mod examples;
mod forms;
mod lessons;
mod marks;
mod refused;

pub use book::Book;
pub use lessons::{lessons, Lesson};

use std::path::{Path, PathBuf};

/// All case files, in the order in which the program opens them.
pub fn books() -> Vec<Book> {
    let mut all = examples::books();
    all.push(marks::book());
    all.extend(refused::books());
    all.extend(desk::books());
    all
}

/// The repository's top.
pub fn repository() -> PathBuf {
    Path::new(env!("CARGO_MANIFEST_DIR")).join("../..")
}

pub fn crate_dir(name: &str) -> PathBuf {
    repository().join("crates").join(name)
}

/// A program's files: `data/` that it opens, and `stdout` that it is held to.
fn program_files(name: &str, inputs: Vec<(&str, Vec<u8>, String)>) -> Vec<(PathBuf, Vec<u8>)> {
    let dir = crate_dir(name);
    let text: String = inputs.iter().map(|(_, _, text)| text.as_str()).collect();
    let data = inputs.into_iter().map(|(name, data, _)| (dir.join("data").join(name), data));
    data.chain([(dir.join("stdout"), text.into_bytes())]).collect()
}

/// Every file that is made, with its bytes. `trials` is told its files by its arguments; `lessons` names them itself.
pub fn files() -> Vec<(PathBuf, Vec<u8>)> {
    let cases = books().into_iter().map(|b| (b.name, b.data, b.lines)).collect();
    let names: String = books().iter().map(|b| format!("{}\n", b.name)).collect();
    let args = (crate_dir("trials").join("args"), names.into_bytes());
    let inputs = lessons().into_iter().chain(endings::endings());
    let inputs = inputs.map(|l| (l.name, l.input, format!("{}:\n{}", l.name, l.text))).collect();
    [program_files("trials", cases), vec![args], program_files("lessons", inputs)].concat()
}
