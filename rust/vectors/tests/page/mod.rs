//! docs/FORMS.md, and what stands in it: sections and the rows of tables.

use std::fs;

pub fn read(name: &str) -> String {
    fs::read_to_string(vectors::repository().join(name)).unwrap()
}

pub fn page() -> String {
    read("docs/FORMS.md")
}

/// What stands under a heading, up to the next one.
pub fn under<'a>(page: &'a str, heading: &str) -> &'a str {
    let (_, rest) = page.split_once(&format!("\n{heading}\n")).unwrap_or_else(|| panic!("docs/FORMS.md has no '{heading}'"));
    rest.split("\n#").next().unwrap()
}

/// The rows of the tables with so many columns, each as its cells; a table's head is left out.
pub fn rows(text: &str, columns: usize) -> Vec<Vec<&str>> {
    let lines = text.lines().zip(text.lines().skip(1).chain([""]));
    let rows = lines.filter(|(line, next)| line.starts_with("| ") && !next.starts_with("|-"));
    let cells = rows.map(|(line, _)| line.trim_matches('|').split('|').map(str::trim).collect());
    cells.filter(|cells: &Vec<&str>| cells.len() == columns).collect()
}
