//! Example A and what is typed at the desk in docs/FORMS.md are what `paper` writes, byte by byte, with each field where the page's tables
//! place it.

mod page;

use page::{page, rows, under};
use paper::{Mark, OpenSet, Register, Row, REGISTER_ROOM, SHEET_ROOM, TAG_ROOM, VERDICT_ROOM};
use std::collections::BTreeMap;
use std::fs;

/// Example A has two sets.
const SETS: usize = 2;

/// The open set has two records.
const RECORDS: usize = 2;

/// A field as the tables have it: its place, and how many bytes it takes.
struct Field<'a> {
    place: &'a str,
    size: usize,
}

fn fields(page: &str) -> BTreeMap<&str, Field<'_>> {
    let mut fields = BTreeMap::new();
    for heading in ["### Register", "### Sheet", "### Record", "### Verdict", "### Open set", "### Tag"] {
        for row in rows(under(page, heading), 5) {
            let (size, name) = (row[1].parse().unwrap(), row[3].trim_matches('`'));
            assert!(row[2] == "bytes" || row[2] == format!("u{}", 8 * size), "{name} has the type {} and {size} bytes", row[2]);
            assert!(fields.insert(name, Field { place: row[0], size }).is_none(), "{name} stands in two rows");
        }
    }
    let parts = fields.iter().filter(|(name, _)| name.starts_with("record."));
    let size: usize = parts.map(|(_, field)| field.size).sum();
    assert_eq!((fields["record"].size, fields["open.record"].size), (size, size), "the size of a record");
    fields
}

/// The offset that a place such as `24 + 16n + 16j` is: n is the number of sets and c of records typed, another letter counts from 0.
fn offset(place: &str, count: usize) -> usize {
    let term = |term: &str| {
        let digits = term.trim_end_matches(char::is_alphabetic);
        let times = match &term[digits.len()..] {
            "" => 1,
            "n" => SETS,
            "c" => RECORDS,
            _ => count,
        };
        times * if digits.is_empty() { 1 } else { digits.parse().unwrap() }
    };
    place.split(" + ").map(term).sum()
}

/// The bytes of a field in a line of the dump, the field's name, and the value that the line gives it.
type Told<'a> = (Vec<u8>, &'a str, u64);

/// A line is its offset, bytes, fields and values, two spaces apart; bars part the bytes of several fields, commas the fields and values.
fn line(line: &str) -> (usize, Vec<Told<'_>>) {
    let parts: Vec<&str> = line.split("  ").map(str::trim).filter(|part| !part.is_empty()).collect();
    let byte = |b| u8::from_str_radix(b, 16).unwrap();
    let bytes: Vec<Vec<u8>> = parts[1].split(" | ").map(|group| group.split(' ').map(byte).collect()).collect();
    let names: Vec<&str> = parts[2].split(", ").collect();
    let values: Vec<u64> = parts[3].split([':', '=']).next().unwrap().split(", ").map(|v| v.trim().parse().unwrap()).collect();
    assert!(bytes.len() == names.len() && names.len() == values.len(), "{line}");
    (parts[0].parse().unwrap(), bytes.into_iter().zip(names).zip(values).map(|((b, n), v)| (b, n, v)).collect())
}

/// The dump under a heading has exactly the bytes, each line at its offset, and each field at its table's place with its value. Records are
/// those of the sheet or of the open set.
fn tells(heading: &str, record: &str, bytes: &[u8]) {
    let page = page();
    let fields = fields(&page);
    let mut told: Vec<u8> = Vec::new();
    let mut seen: BTreeMap<&str, usize> = BTreeMap::new();
    for text in under(&page, heading).lines().filter(|line| line.starts_with("    ")) {
        let (at, parts) = line(text);
        assert_eq!(at, told.len(), "the offset of: {text}");
        for (group, name, value) in parts {
            let field = fields.get(name).unwrap_or_else(|| panic!("no table has {name}"));
            assert!(group.len() % field.size == 0, "the size of {name}: {text}");
            for one in group.chunks(field.size) {
                let count = seen.entry(name).or_default();
                let start = if name.starts_with("record.") { offset(fields[record].place, *count) } else { 0 };
                assert_eq!(told.len(), start + offset(field.place, *count), "the place of {name}: {text}");
                assert_eq!(value, one.iter().rev().fold(0, |n, b| n << 8 | u64::from(*b)), "the value of {name}: {text}");
                *count += 1;
                told.extend(one);
            }
        }
    }
    assert_eq!(told, bytes, "the bytes under '{heading}'");
}

fn register_r() -> Vec<u8> {
    let row = |value| Row { value, mark: Mark::FRESH };
    Register { snapshot: 0, rows: [(10, row(1)), (20, row(0))].into() }.bytes()
}

fn sheet() -> Vec<u8> {
    let change = |value: u8| [1, 0, 0, 0, 10, 0, 0, 0, value, 0, 0, 0, 0, 0, 0, 0];
    let sheet = paper::open(1, 40, SHEET_ROOM).unwrap();
    let sheet = paper::put(&sheet, 1, 1, 3, &change(6), SHEET_ROOM).unwrap();
    let sheet = paper::put(&sheet, 1, 1, 5, &change(2), SHEET_ROOM).unwrap();
    let sheet = paper::notice(&sheet, 1, 3, 1, SHEET_ROOM).unwrap();
    paper::notice(&sheet, 1, 5, 1, SHEET_ROOM).unwrap()
}

#[test]
fn the_dump_is_example_a() {
    let closing = paper::close(&register_r(), &sheet(), REGISTER_ROOM, VERDICT_ROOM).unwrap();
    tells("### Register R", "record", &register_r());
    tells("### The sheet", "record", &sheet());
    tells("### The next register", "record", &closing.register);
    tells("### The verdicts", "record", &closing.verdicts);
}

#[test]
fn the_dump_is_what_is_typed() {
    let tag = |key| paper::tag(key, TAG_ROOM).unwrap();
    let mut set = OpenSet::EMPTY;
    paper::enter(&mut set, 1, &tag(572), 6).unwrap();
    paper::enter(&mut set, 3, &tag(20), 0).unwrap();
    assert_eq!(set.count as usize, RECORDS);
    tells("### The tag of 572", "open.record", &tag(572));
    tells("### The open set", "open.record", &set.bytes());
}

/// The file that the page names has R and two sheets of 56 bytes that join to the dump's.
#[test]
fn the_named_file_is_example_a() {
    let input = fs::read(vectors::crate_dir("close").join("stdin")).unwrap();
    assert!(page().contains("crates/close/stdin"));
    assert_eq!(input[..64], register_r());
    assert_eq!(paper::join(&input[64..120], &input[120..], SHEET_ROOM), Ok(sheet()));
}
