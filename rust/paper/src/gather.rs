//! 'Gathering': every operation gives the sheet of the offers together.

use crate::sheet::{read_records, Offers, Set, Sheet};
use crate::{Refusal, SHEET_ROOM};
use std::collections::{BTreeMap, BTreeSet};

/// The sheet of the sets and notices, however they come: spoiled for one of the four reasons, or sound.
fn gathered(epoch: u32, roster: u16, sets: Vec<Set>, notices: Vec<(usize, u8)>) -> Sheet {
    let spoiled = Sheet { epoch, roster, offers: None };
    let distinct: BTreeSet<Set> = sets.into_iter().collect();
    let noticed: BTreeSet<(usize, u8)> = notices.into_iter().collect();
    let mut by_csn: BTreeMap<u64, Set> = BTreeMap::new();
    for set in distinct {
        if by_csn.insert(set.csn, set).is_some() {
            return spoiled;
        }
    }
    let mut offers = Offers::default();
    for (master, number) in noticed {
        if offers.notices[master].replace(number).is_some() {
            return spoiled;
        }
    }
    offers.sets = by_csn.into_values().collect();
    if offers.sets.len() > 64 || offers.over_notice() {
        return spoiled;
    }
    Sheet { epoch, roster, offers: Some(offers) }
}

fn sets_and_notices(offers: &Offers) -> (Vec<Set>, Vec<(usize, u8)>) {
    let notices = offers.notices.iter().enumerate().filter_map(|(m, x)| x.map(|x| (m, x)));
    (offers.sets.clone(), notices.collect())
}

/// The sheet with more sets and notices.
fn together(sheet: &Sheet, more: Option<(Vec<Set>, Vec<(usize, u8)>)>) -> Sheet {
    match (&sheet.offers, more) {
        (Some(offers), Some((sets, notices))) => {
            let (mut all, mut said) = sets_and_notices(offers);
            all.extend(sets);
            said.extend(notices);
            gathered(sheet.epoch, sheet.roster, all, said)
        }
        _ => Sheet { epoch: sheet.epoch, roster: sheet.roster, offers: None },
    }
}

pub fn open(epoch: u32, roster: u16, room: usize) -> Result<Vec<u8>, Refusal> {
    if epoch == 0 {
        return Err(4);
    }
    if roster == 0 {
        return Err(5);
    }
    if room < SHEET_ROOM {
        return Err(9);
    }
    Ok(gathered(epoch, roster, vec![], vec![]).bytes())
}

fn offer(sheet: &Sheet, epoch: u32, master: usize, room: usize, sets: Vec<Set>, notices: Vec<(usize, u8)>) -> Result<Vec<u8>, Refusal> {
    if epoch != sheet.epoch {
        return Err(4);
    }
    if !sheet.in_roster(master) {
        return Err(5);
    }
    if room < SHEET_ROOM {
        return Err(9);
    }
    Ok(together(sheet, Some((sets, notices))).bytes())
}

pub fn put(sheet: &[u8], epoch: u32, sen: u32, csn: u64, records: &[u8], room: usize) -> Result<Vec<u8>, Refusal> {
    let sheet = Sheet::read(sheet).ok_or(2u32)?;
    let records = read_records(records).ok_or(3u32)?;
    if epoch == 0 || sen > epoch {
        return Err(3);
    }
    let set = Set { csn, sen, records };
    let master = set.master();
    offer(&sheet, epoch, master, room, vec![set], vec![])
}

pub fn notice(sheet: &[u8], epoch: u32, master: u8, count: u8, room: usize) -> Result<Vec<u8>, Refusal> {
    let sheet = Sheet::read(sheet).ok_or(2u32)?;
    if epoch == 0 || master > 15 || count > 64 {
        return Err(3);
    }
    offer(&sheet, epoch, master as usize, room, vec![], vec![(master as usize, count)])
}

pub fn join(a: &[u8], b: &[u8], room: usize) -> Result<Vec<u8>, Refusal> {
    let a = Sheet::read(a).ok_or(2u32)?;
    let b = Sheet::read(b).ok_or(2u32)?;
    if a.epoch != b.epoch {
        return Err(4);
    }
    if a.roster != b.roster {
        return Err(5);
    }
    if room < SHEET_ROOM {
        return Err(9);
    }
    Ok(together(&a, b.offers.as_ref().map(sets_and_notices)).bytes())
}
