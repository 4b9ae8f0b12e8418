//! Inputs of the closing program that end early or are refused, each at the first refusal met.

use crate::closing::run;
use crate::forms::{change, fresh, insert, register_r, sheet_of, with, ROSTER};
use crate::lessons::Lesson;

pub fn endings() -> Vec<Lesson> {
    let six: (u64, &[Vec<u8>]) = (3, &[change(10, 6)]);
    let register = register_r(0);
    let sheet = sheet_of(1, ROSTER, &[six], &[(3, 1), (5, 0)]);
    let later = sheet_of(2, ROSTER, &[], &[]);
    let wider = sheet_of(1, 56, &[], &[]);
    let rows: Vec<(u32, u64)> = (1..=1024).map(|k| (k, 0)).collect();
    let added: (u64, &[Vec<u8>]) = (3, &[insert(2000, 1)]);

    let cut = |bytes: &[u8], n: usize| bytes[..n].to_vec();
    let ending = |name, parts: &[&[u8]]| {
        let input = parts.concat();
        Lesson { name, text: run(&input), input }
    };
    vec![
        // 1, whatever follows
        ending("nothing", &[]),
        ending("register_cut_in_head", &[&cut(&register, 7)]),
        ending("register_cut", &[&cut(&register, 63)]),
        ending("register_of_1025_rows", &[&with(&register, 4, &[1, 4]), &sheet]),
        ending("register_ill_formed", &[&with(&register, 8, &[20]), &cut(&sheet, 30)]),
        // 2: no sheet, one that ends early, one that is ill-formed
        ending("no_sheet", &[&register]),
        ending("sheet_cut_in_head", &[&register, &cut(&sheet, 23)]),
        ending("sheet_cut_in_contents", &[&register, &cut(&sheet, 39)]),
        ending("sheet_cut_in_bodies", &[&register, &cut(&sheet, 55)]),
        ending("sheet_of_65_sets", &[&register, &with(&sheet, 7, &[65])]),
        ending("sheet_ill_formed", &[&register, &with(&sheet, 41, &[1]), &later]),
        ending("second_sheet_cut", &[&register, &sheet, &cut(&sheet, 55)]),
        // 4 and 5: sheets that cannot be joined, met before what comes behind them
        ending("other_epoch", &[&register, &sheet, &later, &cut(&sheet, 23)]),
        ending("other_roster", &[&register, &sheet, &wider, &cut(&sheet, 23)]),
        // met at closing: 4 and 8
        ending("register_of_another_epoch", &[&register_r(1), &sheet]),
        ending("rows_1025", &[&fresh(0, &rows), &sheet_of(1, ROSTER, &[added], &[(3, 1), (5, 0)])]),
    ]
}
