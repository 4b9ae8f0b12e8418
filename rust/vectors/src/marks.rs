//! Whose mark a row bears when an epoch is closed: a committed set marks every row that it changes or inserts, and one that is lost marks
//! none, also where it won the row. What read checks then find.

use crate::forms::{change, delete, insert, sheet_of, ROSTER};
use crate::Book;
use paper::{Mark, Register, Row};

/// Snapshot 4: rows 10, 20 and 30 with marks of earlier epochs, and row 40, which no epoch has touched.
fn register_4() -> Vec<u8> {
    let row = |value, cen, sen, csn| Row { value, mark: Mark { cen, sen, csn } };
    let rows = [(10, row(1, 4, 3, 53)), (20, row(0, 2, 0, 21)), (30, row(7, 3, 3, 35)), (40, row(0, 0, 0, 0))];
    Register { snapshot: 4, rows: rows.into() }.bytes()
}

/// The sheet that closes on it.
fn sheet(sets: &[(u64, &[Vec<u8>])], notices: &[(u8, u8)]) -> Vec<u8> {
    sheet_of(5, ROSTER, sets, notices)
}

pub fn book() -> Book {
    let mut book = Book::new("marks");
    let r = register_4();
    let several: (u64, &[Vec<u8>]) = (3, &[change(10, 6), delete(20), change(30, 8), insert(50, 9)]);
    book.close("several rows", &r, &sheet(&[several], &[(3, 1), (5, 0)]));

    // csn 5 loses row 10 and wins rows 20 and 30 and key 50; csn 19 loses row 20 to it
    let one: (u64, &[Vec<u8>]) = (3, &[change(10, 6)]);
    let loser: (u64, &[Vec<u8>]) = (5, &[change(10, 2), change(20, 8), delete(30), insert(50, 9)]);
    let second: (u64, &[Vec<u8>]) = (19, &[change(20, 9)]);
    book.close("won by a loser", &r, &sheet(&[one, loser, second], &[(3, 2), (5, 1)]));
    let more: (u64, &[Vec<u8>]) = (3, &[change(10, 6), change(40, 4), insert(60, 5)]);
    let next = book.close("both", &r, &sheet(&[more, loser, second], &[(3, 2), (5, 1)]));

    // reads of register r: those of rows 20 and 30 still stand, that of row 40 does not
    book.check("2 stands", &next, 2, 0, &[20, 30, 20], &[21, 35, 21]);
    book.check("2 fails", &next, 2, 0, &[20, 40, 10], &[21, 0, 53]);
    book.check("3 stands", &next, 3, 3, &[20, 30, 20], &[21, 35, 21]);
    book.check("3 fails", &next, 3, 3, &[20, 40, 10], &[21, 0, 53]);
    book
}
