//! The visit desk: sets typed record by record, offered and closed; then every refusal of tag, enter and offer, success beside it, and the
//! order of refusals.

use crate::forms::{change, fresh, sheet_of, ROSTER};
use crate::refused::{opened, spoiled};
use crate::Book;
use paper::{tagged, Kind, OpenSet, Record};

/// Changes of these stations to 6, their keys ascending.
fn changes(keys: impl IntoIterator<Item = u32>) -> OpenSet {
    let records: Vec<Record> = keys.into_iter().map(|key| Record { kind: Kind::Change, key, value: 6 }).collect();
    OpenSet::of(&records)
}

/// Types visits into the set, each step a case.
fn typed(book: &mut Book, what: &str, set: OpenSet, visits: &[(u8, u32, u64)]) -> OpenSet {
    visits.iter().fold(set, |set, (kind, key, value)| book.enter(&format!("{what} {key}"), &set, *kind, &tagged((*key).into()), *value))
}

/// Master 3's clerk types a set in some order, then the same in another; master 5's types eight, the largest key first.
fn desk() -> Book {
    let mut book = Book::new("desk");
    let sheet = book.open("open", 1, ROSTER);
    let visits = [(1, 572, 6), (3, 20, 0), (2, 4_000_000_000, u64::MAX), (1, 10, 8), (2, 30, 0)];
    let set = typed(&mut book, "typed", OpenSet::EMPTY, &visits);
    let turned = visits.into_iter().rev().collect::<Vec<_>>();
    assert_eq!(typed(&mut book, "turned", OpenSet::EMPTY, &turned), set);
    let sheet = book.offer("offer 3", &set, &sheet, 1, 1, 3);

    let falling: Vec<(u8, u32, u64)> = (41..=48).rev().map(|key| (1, key, u64::from(key) * 7)).collect();
    let full = typed(&mut book, "falling", OpenSet::EMPTY, &falling);
    let sheet = book.offer("offer 5", &full, &sheet, 1, 1, 5);
    book.offer("offer 5 again", &full, &sheet, 1, 1, 5);

    let sheet = book.notice("notice 3", &sheet, 1, 3, 1);
    let sheet = book.notice("notice 5", &sheet, 1, 5, 1);
    let rows: Vec<(u32, u64)> = [10, 20, 41, 42, 43, 44, 45, 46, 47, 48, 572].map(|key| (key, 1)).into();
    book.close("close", &fresh(0, &rows), &sheet);
    book
}

fn tag() -> Book {
    let mut book = Book::new("tag");
    book.tag("572", 572);
    book.tag("first key", 1);
    book.tag("ten digits", 1_234_567_890);
    book.tag("last key", u32::MAX);
    book.short_by(-60, 0).tag("more room", 572);
    book.tag("key 0", 0);
    book.short_by(1, 0).tag("short", 572);
    book.short_by(11, 0).tag("no room", 572);
    book.short_by(1, 0).tag("11 before 9", 0);
    book
}

/// Bytes that are no tag of a station.
fn bad_tags() -> Vec<(&'static str, Vec<u8>)> {
    let texts = [
        ("no byte", ""),
        ("10 digits", "0000005724"),
        ("12 digits", "000000005724"),
        ("a digit behind", "000000057240"),
        ("a letter", "0000000572x"),
        ("O for 0", "O0000005724"),
        ("a space", " 0000005724"),
        ("a slash", "0/000005724"),
        ("a colon", "0:000005724"),
        ("5 altered", "00000004724"),
        ("check altered", "00000005725"),
        ("57 exchanged", "00000007524"),
        ("24 exchanged", "00000005742"),
        ("05 exchanged", "00000050724"),
    ];
    let numbers = [("key 0", 0), ("key 4294967296", 4_294_967_296), ("key 9999999999", 9_999_999_999)];
    let texts = texts.map(|(what, text)| (what, text.as_bytes().to_vec()));
    texts.into_iter().chain(numbers.map(|(what, number)| (what, tagged(number)))).collect()
}

/// Changes of stations 10 and 20 with each rule of the open set broken in turn.
fn ill_formed_sets() -> Vec<(&'static str, OpenSet)> {
    let two = changes([10, 20]);
    let with = |at: usize, byte: u8| {
        let mut set = two;
        set.records[at] = byte;
        set
    };
    vec![
        ("no count", OpenSet { count: 0, ..two }),
        ("count 1", OpenSet { count: 1, ..two }),
        ("count 3", OpenSet { count: 3, ..two }),
        ("count 9", OpenSet { count: 9, ..two }),
        ("count 258", OpenSet { count: 258, ..two }),
        ("count 2^32-1", OpenSet { count: u32::MAX, ..two }),
        ("zero record", OpenSet { count: 1, ..OpenSet::EMPTY }),
        ("byte behind", with(32, 1)),
        ("last byte", with(127, 1)),
        ("kind 0", with(0, 0)),
        ("kind 4", with(16, 4)),
        ("byte not 0", with(3, 1)),
        ("key 0", with(4, 0)),
        ("equal keys", with(20, 10)),
        ("keys fall", with(20, 9)),
        ("delete = 6", with(16, 3)),
    ]
}

fn enter() -> Book {
    let mut book = Book::new("enter");
    let (empty, two, full) = (OpenSet::EMPTY, changes([10, 20]), changes(1..=8));
    let (station, known, ninth) = (tagged(572), tagged(10), tagged(9));
    book.enter("kind 1", &empty, 1, &station, 6);
    book.enter("kind 2", &empty, 2, &station, u64::MAX);
    book.enter("kind 3", &empty, 3, &station, 0);
    book.enter("first key", &two, 1, &tagged(1), 0);
    book.enter("last key", &two, 1, &tagged(u32::MAX.into()), 0);
    book.enter("between", &two, 1, &tagged(15), 7);
    book.enter("the eighth", &changes(1..=7), 1, &tagged(8), 6);
    book.enter("kind 0", &two, 0, &station, 6);
    book.enter("kind 4", &two, 4, &station, 6);
    book.enter("kind 255", &two, 255, &station, 6);
    book.enter("delete = 6", &two, 3, &station, 6);
    for (what, set) in ill_formed_sets() {
        book.enter(&format!("set, {what}"), &set, 1, &station, 6);
    }
    for (what, tag) in bad_tags() {
        book.enter(what, &two, 1, &tag, 6);
    }
    book.enter("same record", &two, 1, &known, 6);
    book.enter("same key", &two, 3, &known, 0);
    book.enter("a ninth", &full, 1, &ninth, 6);
    book.enter("a ninth, largest", &full, 1, &station, 6);
    book.enter("12 before 13", &full, 1, &tagged(8), 6);
    book.enter("11 before 12", &two, 1, b"00000000100", 6);
    book.enter("11 before 13", &full, 1, b"00000005742", 6);
    book.enter("3 before 11", &ill_formed_sets()[0].1, 1, b"00000005742", 6);
    book.enter("kind before 11", &full, 0, b"00000005742", 6);
    book.enter("value before 12", &full, 3, &tagged(8), 6);
    book.enter("kind before 13", &full, 4, &ninth, 6);
    book
}

fn offer() -> Book {
    let mut book = Book::new("offer");
    let (sheet, two, full) = (opened(1, ROSTER), changes([10, 20]), changes(1..=8));
    let ill = ill_formed_sets()[0].1;
    book.offer("succeeds", &two, &sheet, 1, 1, 3);
    book.offer("8 records", &full, &sheet, 1, 0, u64::MAX - 10);
    book.short_by(-60, 0).offer("more room", &two, &sheet, 1, 1, 3);
    let taken = sheet_of(1, ROSTER, &[(3, &[change(10, 6), change(20, 6)])], &[]);
    book.offer("a repeat", &two, &taken, 1, 1, 3);
    book.offer("spoils", &full, &taken, 1, 1, 3);
    book.offer("spoils by sen", &two, &taken, 1, 0, 3);
    book.offer("over its notice", &two, &sheet_of(1, ROSTER, &[], &[(3, 0)]), 1, 1, 3);
    book.offer("to a spoiled one", &two, &spoiled(), 1, 1, 19);
    book.offer("sheet ill-formed", &two, &sheet[..23], 1, 1, 3);
    book.offer("epoch 0", &two, &sheet, 0, 0, 3);
    book.offer("sen above", &two, &sheet, 1, 2, 3);
    book.offer("set, empty", &OpenSet::EMPTY, &sheet, 1, 1, 3);
    for (what, set) in ill_formed_sets() {
        book.offer(&format!("set, {what}"), &set, &sheet, 1, 1, 3);
    }
    book.offer("epoch 2", &two, &sheet, 2, 1, 3);
    book.offer("not in roster", &two, &sheet, 1, 1, 4);
    book.short_by(1, 0).offer("short", &two, &sheet, 1, 1, 3);
    book.short_by(1, 0).offer("5 before 9", &two, &sheet, 1, 1, 4);
    book.short_by(1, 0).offer("4 before 5", &two, &sheet, 2, 1, 4);
    book.short_by(1, 0).offer("3 before 4", &ill, &sheet, 2, 1, 4);
    book.short_by(1, 0).offer("empty before 4", &OpenSet::EMPTY, &sheet, 2, 1, 4);
    book.short_by(1, 0).offer("2 before 3", &ill, &[], 2, 1, 4);
    book.offer("2 before empty", &OpenSet::EMPTY, &[], 1, 1, 3);
    book
}

pub fn books() -> Vec<Book> {
    vec![desk(), tag(), enter(), offer()]
}
