//! The clerk's example A from Rust: two masters change station 10, and the smaller csn wins. Prints the report of document 01, and what a
//! depot's read checks then find.
//!
//!     tools/build
//!     cd rust && cargo run --example close

use castorpedal::{record, Checked, Read, Refusal, Register, Row, Sheet};
use std::process::ExitCode;

fn main() -> ExitCode {
    match close_example_a() {
        Ok(()) => ExitCode::SUCCESS,
        Err(refusal) => {
            println!("refused {}", refusal.number());
            eprintln!("{refusal}");
            ExitCode::FAILURE
        }
    }
}

fn close_example_a() -> Result<(), Refusal> {
    let register = Register::drawn_up(&[(10, 1), (20, 0)])?; // snapshot 0, fresh marks
    let mut sheet = Sheet::open(1, 40)?; // epoch 1, masters 3 and 5
    sheet.put(1, 1, 3, &record::change(10, 6))?; // epoch, sen, csn
    sheet.put(1, 1, 5, &record::change(10, 2))?;
    sheet.notice(1, 3, 1)?; // epoch, master, its number of sets
    sheet.notice(1, 5, 1)?;
    sheet.join(&sheet.clone())?; // a sheet that comes again changes nothing

    let (next, verdicts) = register.close(&sheet)?;
    println!("snapshot {} rows {}", next.snapshot(), next.rows().len());
    for (csn, verdict) in sheet.csns().zip(verdicts) {
        println!("set {csn} {verdict}");
    }
    for Row { key, value, cen, sen, csn } in next.rows() {
        println!("row {key} {value} {cen} {sen} {csn}");
    }

    // The depot had read station 10 with the fresh mark's csn, 0: the reads as two lists, on slices, and as one list.
    print_check(castorpedal::check(next.bytes(), 2, 0, &[10], &[0])?);
    print_check(next.check(2, 0, &[Read { key: 10, csn: 0 }])?);
    Ok(())
}

/// As the C example prints it: code 0, then the failing entry's index, key and reason.
fn print_check(checked: Checked) {
    match checked {
        Checked::Pass => println!("check 0 0 0 0"),
        Checked::Fails { index, key, reason } => println!("check 0 {index} {key} {}", reason.number()),
    }
}
