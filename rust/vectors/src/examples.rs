//! The clerk's examples A to O, step by step as a depot would call the operations.

use crate::forms::{change, delete, fresh, insert, register_r, ROSTER};
use crate::Book;
use paper::{Mark, Register, Row};

/// A set as it is offered: csn, sen, records.
type Set = (u64, u32, Vec<u8>);

fn set(csn: u64, records: &[Vec<u8>]) -> Set {
    (csn, 1, records.concat())
}

/// Opens a sheet and puts the sets in, each step a case.
fn sheet_of(book: &mut Book, epoch: u32, sets: &[Set]) -> Vec<u8> {
    let mut sheet = book.open("open", epoch, ROSTER);
    for (csn, sen, records) in sets {
        sheet = book.put(&format!("put {csn}"), &sheet, epoch, *sen, *csn, records);
    }
    sheet
}

/// Full notices from masters 3 and 5.
fn noticed(book: &mut Book, epoch: u32, mut sheet: Vec<u8>) -> Vec<u8> {
    for m in [3u8, 5] {
        let sent = paper::Sheet::read(&sheet).and_then(|s| s.offers).map_or(0, |o| o.sets_of(m.into()));
        sheet = book.notice(&format!("notice {m}"), &sheet, epoch, m, sent as u8);
    }
    sheet
}

/// An example that gathers the sets, with full notices, and closes on R.
fn closes(name: &'static str, snapshot: u32, sets: &[Set]) -> Book {
    let mut book = Book::new(name);
    let sheet = sheet_of(&mut book, snapshot + 1, sets);
    let sheet = noticed(&mut book, snapshot + 1, sheet);
    book.close("close", &register_r(snapshot), &sheet);
    book
}

/// One set put twice: the same sheet as once, also from two depots, and beside notice 1.
fn g() -> Book {
    let mut book = Book::new("G");
    let six = change(10, 6);
    let once = sheet_of(&mut book, 1, &[set(3, &[six.clone()])]);
    book.put("put 3 again", &once, 1, 1, 3, &six);
    book.join("join with itself", &once, &once);
    let one = book.notice("notice 3 of 1", &once, 1, 3, 1);
    book.put("and put 3 again", &one, 1, 1, 3, &six);
    book.notice("and notice 3 again", &one, 1, 3, 1);
    book.join("once and noticed", &once, &one);
    book
}

/// csn 3 with values 6 and 7: spoiled in either order and from two depots, and for good.
fn h() -> Book {
    let mut book = Book::new("H");
    let (six, seven) = (change(10, 6), change(10, 7));
    let empty = book.open("open", 1, ROSTER);
    let first = book.put("put 6", &empty, 1, 1, 3, &six);
    let second = book.put("put 7", &empty, 1, 1, 3, &seven);
    let spoiled = book.put("6 then 7", &first, 1, 1, 3, &seven);
    book.put("7 then 6", &second, 1, 1, 3, &six);
    book.join("join 6 and 7", &first, &second);
    book.join("join 7 and 6", &second, &first);
    book.put("then put 19", &spoiled, 1, 1, 19, &six);
    book.notice("then notice 3", &spoiled, 1, 3, 1);
    book.join("spoiled and 6", &spoiled, &first);
    book.join("6 and spoiled", &first, &spoiled);
    book.close("close", &register_r(0), &spoiled);
    // the same clash in sen alone
    book.put("then sen 0", &first, 1, 0, 3, &six);
    book
}

/// Full sets, no notice from 5: 7.
fn i() -> Book {
    let mut book = Book::new("I");
    let sheet = sheet_of(&mut book, 1, &[set(3, &[change(10, 6)]), set(5, &[change(10, 2)])]);
    let sheet = book.notice("notice 3", &sheet, 1, 3, 1);
    book.close("close", &register_r(0), &sheet);
    book
}

/// Notice 0 from 3 and a set csn 3, in either order; two notices of one master.
fn j() -> Book {
    let mut book = Book::new("J");
    let empty = book.open("open", 1, ROSTER);
    let six = change(10, 6);
    let put = book.put("put 3", &empty, 1, 1, 3, &six);
    let none = book.notice("notice 3 of 0", &empty, 1, 3, 0);
    book.notice("set, then notice", &put, 1, 3, 0);
    book.put("notice, then set", &none, 1, 1, 3, &six);
    book.join("join set and notice", &put, &none);
    book.join("join notice and set", &none, &put);
    book.notice("notice 0, then 1", &none, 1, 3, 1);
    book
}

/// n sets of 3 records each, of master 3 or of 3 and 5 in turn.
fn many(from: u64, to: u64) -> Vec<u8> {
    let mut sheet = paper::open(1, ROSTER, paper::SHEET_ROOM).unwrap();
    for i in from..to {
        let records = [change(10, i), change(20, i), insert(30, i)].concat();
        sheet = paper::put(&sheet, 1, 1, i * 16 + 3 + i % 2 * 2, &records, paper::SHEET_ROOM).unwrap();
    }
    sheet
}

/// Sixty-four sets sound, sixty-five spoiled; sixty-four and a repeat sound.
fn k() -> Book {
    let mut book = Book::new("K");
    let records = |i: u64| [change(10, i), change(20, i), insert(30, i)].concat();
    let sixty_four = book.put("64 sets", &many(0, 63), 1, 1, 63 * 16 + 5, &records(63));
    book.put("65 sets", &sixty_four, 1, 1, 64 * 16 + 3, &records(64));
    book.put("64 and a repeat", &sixty_four, 1, 1, 16 + 5, &records(1));
    book.join("64 with itself", &sixty_four, &sixty_four);
    book.join("40 and 40, 64 in all", &many(0, 40), &many(24, 64));
    book.join("33 and 32, 65 in all", &many(0, 33), &many(33, 65));
    let noticed = book.notice("notice 3 of 32", &sixty_four, 1, 3, 32);
    let noticed = book.notice("notice 5 of 32", &noticed, 1, 5, 32);
    book.close("close", &register_r(0), &noticed);
    book
}

/// 1,024 rows: insert and delete committed, closes; insert alone, 8.
fn l() -> Book {
    let mut book = Book::new("L");
    let rows: Vec<(u32, u64)> = (1..=1024).map(|key| (key, u64::from(key) * 7)).collect();
    let full = fresh(0, &rows);
    let both = sheet_of(&mut book, 1, &[set(3, &[insert(5000, 1)]), set(5, &[delete(77)])]);
    let both = noticed(&mut book, 1, both);
    book.close("insert and delete", &full, &both);
    let one = book.put("put 3 alone", &paper::open(1, ROSTER, paper::SHEET_ROOM).unwrap(), 1, 1, 3, &insert(5000, 1));
    book.close("7 before 8", &full, &one);
    let one = paper::notice(&one, 1, 3, 1, paper::SHEET_ROOM).unwrap();
    let one = book.notice("notice 3 and 5", &one, 1, 5, 0);
    book.close("insert alone", &full, &one);
    book.short_by(1, 0).close("8 before 9", &full, &one);
    book
}

/// A sheet closed again on its result: 4.
fn m() -> Book {
    let mut book = Book::new("M");
    let sheet = sheet_of(&mut book, 1, &[set(3, &[change(10, 6)])]);
    let sheet = noticed(&mut book, 1, sheet);
    let next = book.close("close", &register_r(0), &sheet);
    book.close("close again", &next, &sheet);
    book
}

/// Snapshot 5, row cen 5, mode 3: lsn 4 passes, lsn 3 fails with 3.
fn o() -> Book {
    let mut book = Book::new("O");
    let row = Row { value: 1, mark: Mark { cen: 5, sen: 1, csn: 3 } };
    let register = Register { snapshot: 5, rows: [(10, row)].into() }.bytes();
    book.check("lsn 4", &register, 3, 4, &[10], &[3]);
    book.check("lsn 3", &register, 3, 3, &[10], &[3]);
    book
}

pub fn books() -> Vec<Book> {
    vec![
        closes("A", 0, &[set(3, &[change(10, 6)]), set(5, &[change(10, 2)])]),
        closes("B", 1, &[(3, 1, change(10, 6)), (21, 2, change(10, 7))]),
        closes("C", 0, &[set(3, &[change(10, 6)]), set(5, &[change(10, 2), change(20, 8)]), set(19, &[change(20, 9)])]),
        closes("D", 0, &[set(3, &[change(10, 6), change(30, 1)]), set(5, &[change(10, 2)])]),
        closes("E", 0, &[set(3, &[insert(30, 6)]), set(5, &[insert(30, 2)])]),
        closes("F", 0, &[set(3, &[delete(20)]), set(5, &[change(20, 2)])]),
        g(),
        h(),
        i(),
        j(),
        k(),
        l(),
        m(),
        closes("N", 0, &[]),
        o(),
    ]
}
