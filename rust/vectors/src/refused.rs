//! Every refusal that each operation can give, success beside it, and buffers one byte too short; then the read check's modes.

use crate::forms::{change, record, register_r, with, ROSTER};
use crate::Book;
use paper::{Mark, Register, Row, SHEET_ROOM};

pub fn opened(epoch: u32, roster: u16) -> Vec<u8> {
    paper::open(epoch, roster, SHEET_ROOM).unwrap()
}

fn put(sheet: &[u8], sen: u32, csn: u64, records: &[u8]) -> Vec<u8> {
    paper::put(sheet, 1, sen, csn, records, SHEET_ROOM).unwrap()
}

/// A sheet of three sets and notices of 2 and 1: csn 3, 5 and 19, with 1, 2 and 1 records.
fn three() -> Vec<u8> {
    let sheet = put(&opened(1, ROSTER), 1, 3, &change(10, 6));
    let sheet = put(&sheet, 1, 5, &[change(10, 2), change(20, 8)].concat());
    let sheet = put(&sheet, 0, 19, &change(20, 9));
    let sheet = paper::notice(&sheet, 1, 3, 2, SHEET_ROOM).unwrap();
    paper::notice(&sheet, 1, 5, 1, SHEET_ROOM).unwrap()
}

/// A spoiled sheet.
pub fn spoiled() -> Vec<u8> {
    put(&put(&opened(1, ROSTER), 1, 3, &change(10, 6)), 1, 3, &change(10, 7))
}

/// The sheet `three` with each rule of 'Sheet' broken in turn. Contents start at 24, bodies at 72.
fn ill_formed_sheets() -> Vec<(&'static str, Vec<u8>)> {
    let s = three();
    vec![
        ("no byte", vec![]),
        ("23 bytes", s[..23].to_vec()),
        ("a byte too few", s[..s.len() - 1].to_vec()),
        ("a byte too many", [&s[..], &[0]].concat()),
        ("epoch 0", with(&s, 0, &[0])),
        ("roster 0", with(&opened(1, ROSTER), 4, &[0, 0])),
        ("state 2", with(&s, 6, &[2])),
        ("65 sets", with(&s, 7, &[65])),
        ("a set too few", with(&s, 7, &[2])),
        ("notice 65", with(&s, 11, &[65])),
        ("notice of master 4", with(&s, 12, &[0])),
        ("over its notice", with(&s, 11, &[1])),
        ("csn 3 twice", with(&s, 56, &[3])),
        ("csns fall", with(&s, 24, &[35])),
        ("master 4", with(&s, 24, &[4])),
        ("sen above epoch", with(&s, 32, &[2])),
        ("first record 1", with(&s, 36, &[1])),
        ("no record", with(&s, 38, &[0])),
        ("9 records", with(&s, 38, &[9])),
        ("kind 4", with(&s, 72, &[4])),
        ("byte not 0", with(&s, 75, &[1])),
        ("key 0", with(&s, 76, &[0])),
        ("equal keys", with(&s, 108, &[10])),
        ("delete = 6", with(&s, 72, &[3])),
        ("spoiled, a notice", with(&spoiled(), 11, &[0])),
        ("spoiled, 25 bytes", [&spoiled()[..], &[0]].concat()),
    ]
}

/// R with each rule of 'Register' broken in turn. Rows start at 8 and 36.
fn ill_formed_registers() -> Vec<(&'static str, Vec<u8>)> {
    let r = register_r(0);
    vec![
        ("no byte", vec![]),
        ("7 bytes", r[..7].to_vec()),
        ("a byte too few", r[..r.len() - 1].to_vec()),
        ("a byte too many", [&r[..], &[0]].concat()),
        ("a row too few", with(&r, 4, &[3])),
        ("1,025 rows", with(&r, 4, &[1, 4])),
        ("key 0", with(&r, 8, &[0])),
        ("equal keys", with(&r, 36, &[10])),
        ("cen too large", with(&r, 20, &[1])),
        ("sen too large", with(&r, 24, &[1])),
    ]
}

/// Record bytes that are no 1 to 8 whole records.
fn ill_formed_records() -> Vec<(&'static str, Vec<u8>)> {
    let nine: Vec<u8> = (1..=9).flat_map(|key| change(key, 1)).collect();
    vec![
        ("no record", vec![]),
        ("half a record", change(10, 6)[..8].to_vec()),
        ("9 records", nine),
        ("kind 0", record(0, 10, 6)),
        ("kind 4", record(4, 10, 6)),
        ("byte not 0", with(&change(10, 6), 1, &[1])),
        ("key 0", change(0, 6)),
        ("equal keys", [change(10, 6), change(10, 6)].concat()),
        ("keys fall", [change(20, 6), change(10, 6)].concat()),
        ("delete = 6", record(3, 10, 6)),
    ]
}

fn open() -> Book {
    let mut book = Book::new("open");
    book.open("succeeds", 1, ROSTER);
    book.open("largest", u32::MAX, u16::MAX);
    book.short_by(-60, 0).open("more room", 1, ROSTER);
    book.open("epoch 0", 0, ROSTER);
    book.open("roster 0", 1, 0);
    book.short_by(1, 0).open("short", 1, ROSTER);
    book.short_by(1, 0).open("roster 0, short", 1, 0);
    book.short_by(1, 0).open("all three", 0, 0);
    book
}

fn put_book() -> Book {
    let mut book = Book::new("put");
    let (empty, six) = (opened(1, ROSTER), change(10, 6));
    let eight: Vec<u8> = (1..=8).flat_map(|key| change(key, 1)).collect();
    book.put("succeeds", &empty, 1, 1, 3, &six);
    book.put("8 records", &empty, 1, 0, u64::MAX - 10, &eight);
    book.short_by(-60, 0).put("more room", &empty, 1, 1, 3, &six);
    for (what, sheet) in ill_formed_sheets() {
        book.put(what, &sheet, 1, 1, 35, &six);
    }
    book.put("set, epoch 0", &empty, 0, 0, 3, &six);
    book.put("set, sen above", &empty, 1, 2, 3, &six);
    for (what, records) in ill_formed_records() {
        book.put(&format!("set, {what}"), &empty, 1, 1, 3, &records);
    }
    book.put("epoch 2", &empty, 2, 1, 3, &six);
    book.put("not in roster", &empty, 1, 1, 4, &six);
    book.short_by(1, 0).put("short", &empty, 1, 1, 3, &six);
    book.short_by(1, 0).put("5 before 9", &empty, 1, 1, 4, &six);
    book.short_by(1, 0).put("4 before 5", &empty, 2, 1, 4, &six);
    book.short_by(1, 0).put("3 before 4", &empty, 2, 3, 4, &six);
    book.short_by(1, 0).put("2 before 3", &[], 2, 3, 4, &six);
    book
}

fn notice() -> Book {
    let mut book = Book::new("notice");
    let empty = opened(1, ROSTER);
    book.notice("succeeds", &empty, 1, 3, 0);
    book.notice("of 64", &empty, 1, 5, 64);
    book.notice("master 15", &opened(1, u16::MAX), 1, 15, 64);
    book.short_by(-60, 0).notice("more room", &empty, 1, 3, 0);
    book.notice("sheet ill-formed", &empty[..23], 1, 3, 0);
    book.notice("epoch 0", &empty, 0, 3, 1);
    book.notice("master 16", &empty, 1, 16, 1);
    book.notice("of 65", &empty, 1, 3, 65);
    book.notice("of 255", &empty, 1, 3, 255);
    book.notice("epoch 2", &empty, 2, 3, 1);
    book.notice("not in roster", &empty, 1, 4, 1);
    book.short_by(1, 0).notice("short", &empty, 1, 3, 1);
    book.short_by(1, 0).notice("5 before 9", &empty, 1, 4, 1);
    book.short_by(1, 0).notice("4 before 5", &empty, 2, 4, 1);
    book.short_by(1, 0).notice("3 before 4", &empty, 2, 16, 1);
    book.short_by(1, 0).notice("2 before 3", &[], 2, 16, 1);
    book
}

fn join() -> Book {
    let mut book = Book::new("join");
    let (empty, full) = (opened(1, ROSTER), three());
    book.join("succeeds", &empty, &full);
    book.short_by(-60, 0).join("more room", &full, &empty);
    for (what, sheet) in ill_formed_sheets() {
        book.join(what, &sheet, &full);
    }
    book.join("second ill-formed", &full, &full[..23]);
    book.join("epochs differ", &empty, &opened(2, ROSTER));
    book.join("rosters differ", &empty, &opened(1, 41));
    book.short_by(1, 0).join("short", &empty, &full);
    book.short_by(1, 0).join("5 before 9", &empty, &opened(1, 41));
    book.short_by(1, 0).join("4 before 5", &empty, &opened(2, 41));
    book.short_by(1, 0).join("2 before 4", &opened(2, 41), &full[..23]);
    book
}

fn close() -> Book {
    let mut book = Book::new("close");
    let (r, full) = (register_r(0), three());
    let unsent = paper::notice(&opened(1, ROSTER), 1, 3, 1, SHEET_ROOM).unwrap();
    book.close("succeeds", &r, &full);
    book.short_by(-60, -60).close("more room", &r, &full);
    book.close("empty register", &[0; 8], &full);
    for (what, register) in ill_formed_registers() {
        book.close(what, &register, &full);
    }
    book.close("sheet ill-formed", &r, &full[..23]);
    book.close("wrong epoch", &register_r(1), &full);
    book.close("after the last", &register_r(u32::MAX), &full);
    book.close("spoiled", &r, &spoiled());
    book.close("no notice", &r, &opened(1, ROSTER));
    book.close("a set unsent", &r, &paper::notice(&unsent, 1, 5, 0, SHEET_ROOM).unwrap());
    book.short_by(1, 0).close("register short", &r, &full);
    book.short_by(0, 1).close("verdicts short", &r, &full);
    book.short_by(1, 1).close("7 before 9", &r, &unsent);
    book.close("4 before 6", &register_r(1), &spoiled());
    book.close("2 before 4", &register_r(1), &full[..23]);
    book.close("1 before 2", &r[..7], &full[..23]);
    book
}

/// Snapshot 5: row 10 of epoch 5, row 20 that no epoch has touched, and the largest key, of epoch 4.
fn register_5() -> Vec<u8> {
    let row = |value, cen, sen, csn| Row { value, mark: Mark { cen, sen, csn } };
    Register { snapshot: 5, rows: [(10, row(1, 5, 1, 3)), (20, row(0, 0, 0, 0)), (u32::MAX, row(7, 4, 4, 37))].into() }.bytes()
}

fn check() -> Book {
    let mut book = Book::new("check");
    let r = register_5();
    for (what, mode, lsn, key, csn) in [
        ("1 gone", 1, 0, 99, 0),
        ("1 another csn", 1, 0, 10, 99),
        ("2 stands", 2, 0, 10, 3),
        ("2 untouched", 2, 0, 20, 0),
        ("2 gone", 2, 0, 99, 3),
        ("2 another csn", 2, 0, 10, 4),
        ("3 gone", 3, 5, 99, 3),
        ("3 another csn", 3, 5, 10, 99),
        ("3 untouched", 3, 0, 20, 99),
        ("3 largest, lsn 3", 3, 3, u32::MAX, 37),
        ("3 largest, lsn 2", 3, 2, u32::MAX, 37),
        ("mode 0", 0, 0, 10, 3),
        ("mode 4", 4, 0, 10, 3),
        ("entry of key 0", 1, 0, 0, 0),
        ("1 lsn 6", 1, 6, 10, 3),
        ("2 lsn 6", 2, 6, 10, 3),
        ("3 lsn 6", 3, 6, 10, 3),
        ("1 lsn 5", 1, 5, 10, 3),
    ] {
        book.check(what, &r, mode, lsn, &[key], &[csn]);
    }
    book.check("a repeat", &r, 2, 0, &[20, 10, 20], &[0, 3, 0]);
    book.check("1st of two", &r, 2, 0, &[20, 10, 99], &[0, 4, 0]);
    book.check("seen later", &r, 2, 0, &[10, 10, 99], &[3, 4, 0]);
    book.check("too new", &r, 3, 3, &[20, 10, 99], &[0, 3, 0]);
    book.check("key 0 later", &r, 2, 0, &[99, 0, 10], &[0, 0, 3]);
    book.check("bad mode", &r, 4, 0, &[10, 10, 10], &[3, 3, 3]);
    book.check("ill-formed", &r[..7], 4, 6, &[0, 0, 0], &[0, 0, 0]);
    book.check("no entry", &r, 3, 0, &[], &[]);
    book.check("32 entries", &r, 2, 5, &[10; 32], &[3; 32]);
    let mut last = [3; 32];
    last[31] = 4;
    book.check("the last of 32", &r, 2, 5, &[10; 32], &last);
    book.check("33 entries", &r, 2, 5, &[10; 33], &[3; 33]);
    book.check("more keys", &r, 1, 0, &[10, 20], &[3]);
    book.check("more csns", &r, 1, 0, &[10], &[3, 0]);
    for (what, register) in ill_formed_registers() {
        book.check(what, &register, 1, 0, &[10], &[0]);
    }
    book
}

pub fn books() -> Vec<Book> {
    vec![open(), put_book(), notice(), join(), close(), check()]
}
