//! Whose mark a row bears when an epoch is closed, as a depot reads it by the wrapper: over seeded worlds, a row that a committed set names
//! bears that set's mark, and all others stand as they stood, so that a depot that read them need not work again.

use castorpedal::{Checked, Read, Register, Row, Sheet, Verdict};
use paper::{Kind, Set};
use worlds::{crowded, register, world, Rng};

fn named(sets: &[&Set], key: u32) -> bool {
    sets.iter().any(|set| set.records.iter().any(|r| r.key == key))
}

/// The rows that none of the sets names, and the bytes of each.
fn unnamed<'a>(register: &'a Register, sets: &[&Set]) -> Vec<(Row, &'a [u8])> {
    let rows = register.rows().zip(register.bytes()[8..].chunks(28));
    rows.filter(|(row, _)| !named(sets, row.key)).collect()
}

/// The rows that a committed set names have its values and its mark, and those that it deletes are gone.
fn bears(next: &Register, epoch: u32, set: &Set) {
    for r in &set.records {
        let row = Row { key: r.key, value: r.value, cen: epoch, sen: set.sen, csn: set.csn };
        let expected = (r.kind != Kind::Delete).then_some(row);
        assert_eq!(next.rows().find(|row| row.key == r.key), expected, "row {} by {}", r.key, set.csn);
    }
}

/// Whoever read these rows before the epoch was closed finds them so, in mode 2 by their csns.
fn stand(next: &Register, rows: &[(Row, &[u8])]) {
    let reads: Vec<Read> = rows.iter().map(|(row, _)| Read { key: row.key, csn: row.csn }).collect();
    assert_eq!(next.check(2, 0, &reads), Ok(Checked::Pass));
}

#[test]
fn seeded_worlds() {
    let mut rng = Rng(1);
    let (mut closed, mut several, mut won_by_losers) = (0, 0, 0);
    for _ in 0..300 {
        let w = world(&mut rng);
        let (register, sheet) = (register(&mut rng, &w), crowded(&mut rng, &w));
        let sheet = Sheet::try_from(&sheet[..]).unwrap();
        let Ok(register) = Register::try_from(&register[..]) else { continue };
        let Ok((next, verdicts)) = register.close(&sheet) else { continue };
        let sets = paper::Sheet::read(sheet.bytes()).unwrap().offers.unwrap().sets;
        let judged = |is: fn(&Verdict) -> bool| sets.iter().zip(&verdicts).filter(|(_, v)| is(v)).map(|(set, _)| set).collect();
        let committed: Vec<&Set> = judged(|v| *v == Verdict::Commit);
        let lost: Vec<&Set> = judged(|v| matches!(v, Verdict::Lost(_)));
        committed.iter().for_each(|set| bears(&next, w.epoch, set));
        let others = unnamed(&register, &committed);
        assert_eq!(unnamed(&next, &committed), others, "the rows that no committed set names");
        stand(&next, &others);
        closed += 1;
        several += committed.iter().filter(|set| set.records.len() > 1).count();
        won_by_losers += others.iter().filter(|(row, _)| named(&lost, row.key)).count();
    }
    assert!(closed > 200 && several > 100 && won_by_losers > 100, "{closed} {several} {won_by_losers}");
}
