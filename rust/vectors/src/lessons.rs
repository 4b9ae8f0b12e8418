//! The inputs of the course's three lessons: a register and then sheets, as the closing program reads them.

use crate::closing::run;
use crate::forms::{change, register_r, sheet_of, ROSTER};

/// An input file and what the closing program prints of it.
pub struct Lesson {
    pub name: &'static str,
    pub input: Vec<u8>,
    pub text: String,
}

/// A depot's sheet of epoch 1: the sets and notices that it has.
fn sheet(sets: &[(u64, &[Vec<u8>])], notices: &[(u8, u8)]) -> Vec<u8> {
    sheet_of(1, ROSTER, sets, notices)
}

fn lesson(name: &'static str, sheets: &[Vec<u8>]) -> Lesson {
    let input = [register_r(0), sheets.concat()].concat();
    Lesson { name, text: run(&input), input }
}

pub fn lessons() -> Vec<Lesson> {
    let six: (u64, &[Vec<u8>]) = (3, &[change(10, 6)]);
    let seven: (u64, &[Vec<u8>]) = (3, &[change(10, 7)]);
    let two: (u64, &[Vec<u8>]) = (5, &[change(10, 2)]);
    let both: (u64, &[Vec<u8>]) = (5, &[change(10, 2), change(20, 8)]);
    let nine: (u64, &[Vec<u8>]) = (19, &[change(20, 9)]);

    // 1: the same set comes twice, where master 3 noticed one set, and where it noticed two
    let of = |count| [sheet(&[six], &[(3, count), (5, 0)]), sheet(&[six], &[])];
    // 2: two depots' sheets, in either order: csn 3 with values 6 and 7; and csn 3 and 5 on one row
    let clash = [sheet(&[six], &[(3, 1)]), sheet(&[seven], &[(5, 0)])];
    let claims = [sheet(&[six], &[(3, 1)]), sheet(&[two], &[(5, 1)])];
    let turned = |s: &[Vec<u8>; 2]| [s[1].clone(), s[0].clone()];
    // 3: example C, with csn 5's set between two others
    let half = [sheet(&[six, nine], &[(3, 2)]), sheet(&[both], &[(5, 1)])];
    vec![
        lesson("twice", &of(1)),
        lesson("twice_for_two", &of(2)),
        lesson("clash", &clash),
        lesson("clash_turned", &turned(&clash)),
        lesson("claims", &claims),
        lesson("claims_turned", &turned(&claims)),
        lesson("half_a_set", &half),
    ]
}
