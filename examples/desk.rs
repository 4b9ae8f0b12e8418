//! The visit desk from Rust: a clerk types two visits, offers them as one set, and the epoch is closed. Prints the records as they were typed
//! in, and what becomes of the set.
//!
//!     tools/build
//!     cd rust && cargo run --example desk

use castorpedal::{record, tag, OpenSet, Refusal, Register, Row, Sheet};

fn main() -> Result<(), Refusal> {
    let mut sheet = Sheet::open(1, 8)?; // epoch 1, master 3

    let mut set = OpenSet::new();
    set.enter(record::CHANGE, "00000005724", 6)?; // station 572 is to have 6
    let slip = set.enter(record::CHANGE, "00000005742", 6); // two digits exchanged
    assert_eq!(slip, Err(Refusal::BadTag)); // the set stays as it was
    set.enter(record::DELETE, tag(20)?, 0)?; // typed later, but 20 is the smaller key
    for r in set.records() {
        println!("typed {} {} {}", r.kind, r.key, r.value);
    }
    set.offer(&mut sheet, 1, 1, 3)?; // epoch, sen, csn: the sheet has it as one set
    assert!(set.is_empty()); // ready for the next

    sheet.notice(1, 3, 1)?; // epoch, master, its number of sets
    let (next, verdicts) = Register::drawn_up(&[(20, 0), (572, 1)])?.close(&sheet)?;
    println!("set 3 {}", verdicts[0]);
    for Row { key, value, cen, sen, csn } in next.rows() {
        println!("row {key} {value} {cen} {sen} {csn}");
    }
    Ok(())
}
