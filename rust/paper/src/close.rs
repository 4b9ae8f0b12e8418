//! 'Closing': verdicts and the next register. The sentence on marks is that of document 02, L1: a row's mark changes only when its winner
//! commits.

use crate::register::{Mark, Register, Row};
use crate::sheet::{Kind, Offers, Set, Sheet};
use crate::{Refusal, REGISTER_ROOM, VERDICT_ROOM};
use std::collections::BTreeMap;

/// What closing writes into its two buffers.
#[derive(Clone, Debug, PartialEq, Eq)]
pub struct Closing {
    pub register: Vec<u8>,
    pub verdicts: Vec<u8>,
}

#[derive(Clone, Copy, PartialEq, Eq)]
enum Verdict {
    Commit,
    Lost(u32),
    Unfit(u32),
}

/// The first key that a set names wrongly: a change or delete of an absent one, an insert of a present one.
fn wrong(register: &Register, set: &Set) -> Option<u32> {
    let bad = |kind, key| (kind == Kind::Insert) == register.rows.contains_key(key);
    set.records.iter().find(|r| bad(r.kind, &r.key)).map(|r| r.key)
}

fn complete(sheet: &Sheet, offers: &Offers) -> bool {
    (0..16).all(|m| !sheet.in_roster(m) || offers.notices[m].is_some_and(|x| offers.sets_of(m) >= x as usize))
}

pub fn close(register: &[u8], sheet: &[u8], next_room: usize, verdict_room: usize) -> Result<Closing, Refusal> {
    let register = Register::read(register).ok_or(1u32)?;
    let sheet = Sheet::read(sheet).ok_or(2u32)?;
    if u64::from(sheet.epoch) != u64::from(register.snapshot) + 1 {
        return Err(4);
    }
    let offers = sheet.offers.as_ref().ok_or(6u32)?;
    if !complete(&sheet, offers) {
        return Err(7);
    }

    let mark = |set: &Set| Mark { cen: sheet.epoch, sen: set.sen, csn: set.csn };
    let mut winners: BTreeMap<u32, Mark> = BTreeMap::new();
    for set in offers.sets.iter().filter(|s| wrong(&register, s).is_none()) {
        for r in &set.records {
            let best = winners.entry(r.key).or_insert(mark(set));
            if mark(set).precedes(*best) {
                *best = mark(set);
            }
        }
    }

    let judge = |set: &Set| match wrong(&register, set) {
        Some(key) => Verdict::Unfit(key),
        None => match set.records.iter().find(|r| winners[&r.key] != mark(set)) {
            Some(r) => Verdict::Lost(r.key),
            None => Verdict::Commit,
        },
    };
    let verdicts: Vec<Verdict> = offers.sets.iter().map(judge).collect();

    // A committed set is the winner of every key that it names. All other rows stay, mark and all: a winner that was lost stamps nothing.
    let mut rows = register.rows.clone();
    for (set, _) in offers.sets.iter().zip(&verdicts).filter(|(_, v)| **v == Verdict::Commit) {
        for r in &set.records {
            if r.kind == Kind::Delete {
                rows.remove(&r.key);
            } else {
                rows.insert(r.key, Row { value: r.value, mark: mark(set) });
            }
        }
    }
    if rows.len() > 1024 {
        return Err(8);
    }
    if next_room < REGISTER_ROOM || verdict_room < VERDICT_ROOM {
        return Err(9);
    }
    let mut told = Vec::new();
    for v in verdicts {
        let (code, key) = match v {
            Verdict::Commit => (1u8, 0),
            Verdict::Lost(key) => (2, key),
            Verdict::Unfit(key) => (3, key),
        };
        told.push(code);
        told.extend(u32::to_le_bytes(key));
    }
    Ok(Closing { register: Register { snapshot: sheet.epoch, rows }.bytes(), verdicts: told })
}
