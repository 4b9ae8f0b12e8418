//! The refusals in docs/FORMS.md: numbered in order, given by the operations that give them in the cases, and found by links.

mod page;

use page::{page, read, rows, under};
use std::collections::BTreeSet;

/// The last number.
const LAST: usize = 13;

/// Numbers 1 to 13 in order, each with an anchor in its first row and nowhere else.
#[test]
fn refusals_stand_in_order() {
    let page = page();
    let mut last = 0;
    for row in rows(under(&page, "## Refusals"), 5) {
        if row[0] != last.to_string() {
            last += 1;
            assert_eq!(row[0], format!("<a id=\"refusal-{last}\"></a>{last}"));
        }
    }
    assert_eq!(last, LAST);
    assert_eq!(page.matches("<a id=").count(), LAST);
}

/// Which refusals each operation gives in the cases, and the closing program on the inputs of `lessons`.
fn given() -> BTreeSet<(&'static str, u32)> {
    let names = ["open", "put", "notice", "join", "close", "check", "check_reads", "desk_enter", "desk_offer", "desk_tag"];
    // the open set may follow
    let number = |line: &str| line.rsplit_once("refused ").map(|(_, rest)| rest.split(' ').next().unwrap().parse().unwrap());
    let mut given = BTreeSet::new();
    for book in vectors::books() {
        let mut data = &book.data[..];
        for line in book.lines.lines() {
            given.extend(number(line).map(|n| (names[usize::from(data[24]) - 1], n)));
            let lengths = data[44..56].chunks(4).map(|n| u32::from_le_bytes(n.try_into().unwrap()) as usize);
            data = &data[64 + lengths.sum::<usize>()..];
        }
    }
    let printed = read("crates/lessons/stdout");
    given.extend(printed.lines().filter_map(number).map(|n| ("the closing program", n)));
    given
}

/// The matrix has what the cases show, and the table below it names the same operations at each number.
#[test]
fn operations_give_these_refusals() {
    let page = page();
    let text = under(&page, "## Refusals");
    let mut matrix = BTreeSet::new();
    for row in rows(text, 1 + LAST) {
        for (n, cell) in (1..).zip(&row[1..]).filter(|(_, cell)| !cell.is_empty()) {
            assert_eq!(*cell, n.to_string(), "the row of {}", row[0]);
            matrix.extend(row[0].split(", ").map(|name| (name, n)));
        }
    }
    assert_eq!(matrix, given());
    let number = |cell: &str| cell.rsplit('>').next().unwrap().parse().unwrap();
    let table: BTreeSet<_> = rows(text, 5).iter().flat_map(|row| row[1].split(", ").map(|name| (name, number(row[0])))).collect();
    matrix.retain(|(name, _)| *name != "the closing program");
    assert_eq!(table, matrix);
}

/// Links to the page, from others and within it, lead to an anchor or a heading.
#[test]
fn links_lead_somewhere() {
    let page = page();
    let headings = page.lines().filter_map(|line| line.strip_prefix("## ")).map(|h| h.to_lowercase().replace(' ', "-"));
    let anchors: BTreeSet<String> = headings.chain((1..=LAST).map(|n| format!("refusal-{n}"))).collect();
    for (name, sign) in [("README.md", "(docs/FORMS.md#"), ("docs/LESSONS.md", "(FORMS.md#"), ("docs/FORMS.md", "(#")] {
        let other = read(name);
        let links: Vec<&str> = other.split(sign).skip(1).map(|rest| rest.split(')').next().unwrap()).collect();
        assert!(!links.is_empty(), "{name} does not link docs/FORMS.md");
        for link in links {
            assert!(anchors.contains(link), "{name} links {link}");
        }
    }
}
