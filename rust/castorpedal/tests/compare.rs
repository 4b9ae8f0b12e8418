//! The proved library against the paper, on seeded random cases: more than 200,000 calls a run.

mod common;

use common::{check, Buffers};
use paper::{Mark, Register, Row};
use worlds::{crowded, damaged, eight, noticed, offer, register, sets_of, world, Offer, Rng, World};

/// Deals offers over sheets, with repeats, joins the sheets in a random grouping, and compares every step.
fn gathered(rng: &mut Rng, w: &World, b: &mut Buffers, calls: &mut u64) -> Option<Vec<u8>> {
    let offers: Vec<Offer> = (0..rng.below(6)).map(|_| offer(rng, w)).collect();
    let mut sheets = Vec::new();
    for _ in 0..1 + rng.below(3) {
        let Some(mut sheet) = b.open(rng, w.epoch, w.roster) else { continue };
        *calls += 1;
        for o in &offers {
            for _ in 0..rng.below(3) {
                let epoch = if rng.once_in(80) { rng.below(3) as u32 } else { w.epoch };
                let given = damaged(rng, sheet.clone(), 100);
                *calls += 1;
                sheet = b.put(rng, &given, epoch, o.sen, o.csn, &o.records).unwrap_or(sheet);
            }
        }
        sheets.push(sheet);
    }
    let full = !rng.once_in(4);
    while sheets.len() > 1 {
        let at = rng.below(sheets.len() as u64) as usize;
        let one = sheets.swap_remove(at);
        let at = rng.below(sheets.len() as u64) as usize;
        *calls += 1;
        let given = damaged(rng, one, 100);
        if let Some(joined) = b.join(rng, &given, &sheets[at]) {
            sheets[at] = joined;
        }
    }
    let mut sheet = sheets.pop()?;
    for m in 0..16u8 {
        if !w.masters.contains(&m) && !rng.once_in(200) {
            continue;
        }
        let sent = sets_of(&sheet, m);
        let count = if full { sent } else { rng.pick(&[sent, sent, sent + 1, sent.saturating_sub(1), 64, 65]) };
        let master = if rng.once_in(300) { 16 } else { m };
        for _ in 0..1 + rng.below(2) {
            *calls += 1;
            sheet = b.notice(rng, &sheet, w.epoch, master, count).unwrap_or(sheet);
        }
    }
    Some(sheet)
}

/// A read check whose entries mostly stand, in a mode and with an lsn that are mostly right.
fn compare_check(rng: &mut Rng, w: &World, register: &[u8]) {
    let (snapshot, rows) = Register::read(register).map_or((0, Default::default()), |r| (r.snapshot, r.rows));
    let mode = if rng.once_in(12) { rng.below(6) } else { 1 + rng.below(3) } as u8;
    let lsn = if rng.once_in(12) { rng.below(8) } else { rng.below(u64::from(snapshot) + 1) } as u32;
    let n = if rng.once_in(10) { 30 + rng.below(6) } else { rng.below(6) };
    let keys: Vec<u32> = (0..n).map(|_| if rng.once_in(60) { 0 } else { rng.pick(&w.keys) }).collect();
    let seen = |key| rows.get(key).map_or(0, |r: &Row| r.mark.csn);
    let mut csns: Vec<u64> = keys.iter().map(|k| if rng.once_in(8) { rng.below(40) } else { seen(k) }).collect();
    if rng.once_in(40) {
        csns.push(3);
    }
    check(register, mode, lsn, &keys, &csns);
}

fn run(seed: u64, least: u64) {
    let mut rng = Rng(seed);
    let mut b = Buffers::new(&mut rng);
    let mut calls = 0;
    while calls < least {
        let w = world(&mut rng);
        let mut register = register(&mut rng, &w);
        let Some(sheet) = gathered(&mut rng, &w, &mut b, &mut calls) else { continue };
        let given = damaged(&mut rng, sheet.clone(), 50);
        calls += 1;
        if let Some(next) = b.close(&mut rng, &register, &given) {
            calls += 1;
            b.close(&mut rng, &next, &sheet);
            register = next;
        }
        for _ in 0..4 {
            calls += 1;
            compare_check(&mut rng, &w, &register);
        }
    }
}

#[test]
fn two_hundred_thousand_calls() {
    std::thread::scope(|s| {
        for seed in 1..=4 {
            s.spawn(move || run(seed, 60_000));
        }
    });
}

/// Forms alone: well-formed ones with every single byte changed, and every cut.
#[test]
fn every_byte_matters() {
    let mut rng = Rng(7);
    let mut b = Buffers::new(&mut rng);
    let mut calls = 0;
    for _ in 0..12 {
        let w = world(&mut rng);
        let register = register(&mut rng, &w);
        let Some(sheet) = gathered(&mut rng, &w, &mut b, &mut calls) else { continue };
        for at in 0..sheet.len() {
            for bit in 0..8 {
                let mut other = sheet.clone();
                other[at] ^= 1 << bit;
                b.join(&mut rng, &other, &sheet);
            }
            b.join(&mut rng, &sheet, &sheet[..at]);
        }
        for at in 0..register.len() {
            for bit in 0..8 {
                let mut other = register.clone();
                other[at] ^= 1 << bit;
                b.close(&mut rng, &other, &sheet);
            }
            b.close(&mut rng, &register[..at], &sheet);
        }
    }
}

/// Many sets on few keys, so that most keys are fought over.
#[test]
fn crowded_epochs() {
    let mut rng = Rng(5);
    let mut b = Buffers::new(&mut rng);
    for _ in 0..2_000 {
        let w = world(&mut rng);
        let register = register(&mut rng, &w);
        let sheet = crowded(&mut rng, &w);
        b.close(&mut rng, &register, &sheet);
    }
}

/// Examples K and L: 64 sets of 8 records, each put twice, and one set more; 1,024 rows, and an insert with a delete beside it or alone.
#[test]
fn at_the_limits() {
    let mut rng = Rng(11);
    let mut b = Buffers::new(&mut rng);
    let rows = (1..=1024).map(|k| (k, Row { value: 1, mark: Mark::FRESH })).collect();
    let register = Register { snapshot: 0, rows }.bytes();
    let w = World { epoch: 1, roster: 0xffff, masters: (0..16).collect(), keys: vec![], times: 0 };
    for (sets, delete, refused) in [(64, true, None), (64, false, Some(8)), (65, true, Some(6))] {
        let mut sheet = paper::open(w.epoch, w.roster, 9240).unwrap();
        for i in 0..sets {
            let set = eight(i, delete);
            // a buffer that is too short is refused, and another is lent
            let mut taken = |sheet: &[u8]| loop {
                if let Some(next) = b.put(&mut rng, sheet, 1, 1, u64::from(i * 16 + i % 16), &set) {
                    return next;
                }
            };
            sheet = taken(&sheet);
            assert_eq!(taken(&sheet), sheet, "a repeat changes nothing");
        }
        sheet = noticed(sheet, &w);
        assert_eq!(paper::close(&register, &sheet, 28680, 320).err(), refused);
        for _ in 0..50 {
            b.close(&mut rng, &register, &sheet);
            b.join(&mut rng, &sheet, &sheet);
        }
    }
}
