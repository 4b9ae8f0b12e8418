//! Gathering: two sheets walked together in csn order, once for what spoils the joined sheet and once to write it. A set or a notice is
//! put in by joining the sheet of that one offer.

use super::forms::{is_sheet, offered, Record, Set, Sheet, ENTRY, HEAD, MAX_SETS, NO_NOTICE, RECORD, SHEET_ROOM};
use std::cmp::Ordering;
use std::mem::replace;

/// Visits the distinct sets of two sheets in csn order, until a visit says no; whether none did. Of two sets with one csn both are shown.
fn walk<'a>(a: Sheet<'a>, b: Sheet<'a>, mut visit: impl FnMut(Set<'a>, Option<Set<'a>>) -> bool) -> bool {
    let (mut a, mut b) = (a.sets(), b.sets());
    let (mut x, mut y) = (a.next(), b.next());
    loop {
        let order = match (x, y) {
            (Some(x), Some(y)) => x.csn.cmp(&y.csn),
            (Some(_), None) => Ordering::Less,
            _ => Ordering::Greater,
        };
        let (set, second) = match order {
            Ordering::Less => (replace(&mut x, a.next()), None),
            Ordering::Equal => (replace(&mut x, a.next()), replace(&mut y, b.next())),
            Ordering::Greater => (replace(&mut y, b.next()), None),
        };
        let Some(set) = set else { return true };
        if !visit(set, second) {
            return false;
        }
    }
}

/// How many distinct sets there are, if nothing spoils the sheet that the two are joined to.
fn sound_count(a: Sheet, b: Sheet) -> Option<usize> {
    let (mut n, mut by) = (0, [0u8; 16]);
    let agree = walk(a, b, |set, second| {
        n += 1;
        by[set.master()] += 1;
        second.is_none_or(|s| s == set)
    });
    // No notice is the largest byte, so the smaller one is what both say together.
    let sound = |((x, y), sets): ((&u8, &u8), &u8)| (x == y || *x.max(y) == NO_NOTICE) && sets <= x.min(y);
    (agree && n <= MAX_SETS && a.notices().iter().zip(b.notices()).zip(&by).all(sound)).then_some(n)
}

fn put_start(out: &mut [u8], sheet: Sheet, state: u8, sets: usize) {
    out[..6].copy_from_slice(&sheet.head[..6]);
    out[6] = state;
    out[7] = sets as u8;
}

fn put_entry(entry: &mut [u8; ENTRY], set: Set, first: usize) {
    entry[..8].copy_from_slice(&set.csn.to_le_bytes());
    entry[8..12].copy_from_slice(&set.sen.to_le_bytes());
    entry[12..14].copy_from_slice(&(first as u16).to_le_bytes());
    entry[14..].copy_from_slice(&(set.records.len() as u16).to_le_bytes());
}

fn put_spoiled(out: &mut [u8], sheet: Sheet) -> usize {
    put_start(out, sheet, 1, 0);
    out[8..HEAD].fill(NO_NOTICE);
    HEAD
}

/// The sound sheet of n sets: head, contents and bodies.
fn put_sound(out: &mut [u8], a: Sheet, b: Sheet, n: usize) -> usize {
    put_start(out, a, 0, n);
    for (to, (x, y)) in out[8..HEAD].iter_mut().zip(a.notices().iter().zip(b.notices())) {
        *to = *x.min(y);
    }
    let (contents, bodies) = out[HEAD..].as_chunks_mut().0.split_at_mut(n);
    let (mut k, mut first) = (0, 0);
    walk(a, b, |set, _| {
        put_entry(&mut contents[k], set, first);
        bodies[first..first + set.records.len()].copy_from_slice(set.records);
        k += 1;
        first += set.records.len();
        true
    });
    HEAD + ENTRY * n + RECORD * first
}

fn join_into(a: Sheet, b: Sheet, out: &mut [u8]) -> usize {
    if a.is_spoiled() || b.is_spoiled() {
        return put_spoiled(out, a);
    }
    match sound_count(a, b) {
        Some(n) => put_sound(out, a, b, n),
        None => put_spoiled(out, a),
    }
}

pub fn join(a: &[u8], b: &[u8], out: &mut [u8]) -> Result<usize, u32> {
    if !is_sheet(a) || !is_sheet(b) {
        return Err(2);
    }
    let (a, b) = (Sheet::new(a), Sheet::new(b));
    if a.epoch() != b.epoch() {
        return Err(4);
    }
    if a.roster() != b.roster() {
        return Err(5);
    }
    if out.len() < SHEET_ROOM {
        return Err(9);
    }
    Ok(join_into(a, b, out))
}

/// The refusals that a well-formed offer of a master may meet.
fn admit(sheet: Sheet, epoch: u32, master: usize, room: usize) -> Result<(), u32> {
    if epoch != sheet.epoch() {
        return Err(4);
    }
    if !sheet.in_roster(master) {
        return Err(5);
    }
    if room < SHEET_ROOM {
        return Err(9);
    }
    Ok(())
}

/// The sheet of one offer: its head, an entry for a set, and its records.
fn one<'a>(room: &'a mut [u8; HEAD + ENTRY + 8 * RECORD], sheet: Sheet, set: Option<Set>) -> &'a mut [u8] {
    put_start(room, sheet, 0, usize::from(set.is_some()));
    room[8..HEAD].fill(NO_NOTICE);
    let Some(set) = set else { return &mut room[..HEAD] };
    let parts: &mut [Record] = room[HEAD..].as_chunks_mut().0;
    put_entry(&mut parts[0], set, 0);
    parts[1..1 + set.records.len()].copy_from_slice(set.records);
    &mut room[..HEAD + ENTRY + RECORD * set.records.len()]
}

pub fn put(sheet: &[u8], epoch: u32, sen: u32, csn: u64, records: &[u8], out: &mut [u8]) -> Result<usize, u32> {
    if !is_sheet(sheet) {
        return Err(2);
    }
    let records = offered(records).filter(|_| epoch != 0 && sen <= epoch).ok_or(3u32)?;
    let (sheet, set) = (Sheet::new(sheet), Set { csn, sen, records });
    admit(sheet, epoch, set.master(), out.len())?;
    let mut room = [0; HEAD + ENTRY + 8 * RECORD];
    Ok(join_into(sheet, Sheet::new(one(&mut room, sheet, Some(set))), out))
}

pub fn notice(sheet: &[u8], epoch: u32, master: u8, count: u8, out: &mut [u8]) -> Result<usize, u32> {
    if !is_sheet(sheet) {
        return Err(2);
    }
    if epoch == 0 || master > 15 || count > 64 {
        return Err(3);
    }
    let (sheet, master) = (Sheet::new(sheet), master as usize);
    admit(sheet, epoch, master, out.len())?;
    let mut room = [0; HEAD + ENTRY + 8 * RECORD];
    let noticed = one(&mut room, sheet, None);
    noticed[8 + master] = count;
    Ok(join_into(sheet, Sheet::new(noticed), out))
}
