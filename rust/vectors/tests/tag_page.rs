//! Damm's table in docs/FORMS.md is that of `paper`, and the check digit of 572 is found in it as the page tells.

mod page;

use page::{page, rows, under};
use paper::{tagged, DAMM};

#[test]
fn the_table_is_damms() {
    let page = page();
    let told = rows(under(&page, "### Damm's table"), 11);
    assert_eq!(told.len(), 10);
    for ((i, row), entries) in told.iter().enumerate().zip(DAMM) {
        assert_eq!(row[0], i.to_string());
        assert_eq!(row[1..], entries.map(|entry| entry.to_string()), "row {i}");
    }
}

/// The number that a cell begins with.
fn number(cell: &str) -> usize {
    cell.split([':', ' ']).next().unwrap().parse().unwrap()
}

/// Each digit of the tag in turn, in the row that the entry before it names; the tenth entry is the eleventh digit.
#[test]
fn the_check_digit_is_found() {
    let page = page();
    let tag = tagged(572);
    let (mut next, mut entries) = (0, vec![0]);
    for told in rows(under(&page, "### The check digit of 572"), 4) {
        let (first, last) = told[0].split_once(" to ").unwrap_or((told[0], told[0]));
        for place in number(first)..=number(last) {
            assert_eq!(place, next, "the place");
            let (digit, row, entry) = (number(told[1]), number(told[2]), number(told[3]));
            assert_eq!(digit, usize::from(tag[place] - b'0'), "the digit at {place}");
            assert_eq!(Some(&row), entries.last(), "the row at {place}");
            assert_eq!(entry, usize::from(DAMM[row][digit]), "the entry at {place}");
            entries.push(entry);
            next += 1;
        }
    }
    assert_eq!(next, 11);
    assert_eq!(entries[10..], [usize::from(tag[10] - b'0'), 0]);
}
