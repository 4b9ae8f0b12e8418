//! Closing as the library does it: a table of the first key found wrong in each set and one of the first key lost, for which the winner of
//! each key is looked for among all sets; and then, for each row, the committed set that names it.

use super::forms::*;

/// Every master of the roster has a notice, and as many sets as it says.
fn complete(sheet: Sheet) -> bool {
    let sets_of = |m| sheet.sets().filter(|s| s.master() == m).count();
    sheet.notices().iter().enumerate().all(|(m, x)| !sheet.in_roster(m) || *x != NO_NOTICE && sets_of(m) >= *x as usize)
}

/// The key of the first record that the register does not bear, or 0. Keys ascend in both, so rows once passed are passed for all.
fn wrong_key(rows: &[Row], set: Set) -> u32 {
    let mut rows = rows.iter().map(row_key).peekable();
    for r in set.records {
        while rows.next_if(|k| *k < key(r)).is_some() {}
        if (rows.peek() == Some(&key(r))) == (kind(r) == INSERT) {
            return key(r);
        }
    }
    0
}

/// The fit set that precedes all others on a key: larger sen, and at equal sen the smaller csn, which comes first.
fn winner<'a>(sheet: Sheet<'a>, wrong: &Table, key: u32) -> Option<Set<'a>> {
    let mut lead: Option<Set> = None;
    for (set, wrong) in sheet.sets().zip(wrong) {
        if *wrong == 0 && set.record_of(key).is_some() && lead.is_none_or(|l| set.sen > l.sen) {
            lead = Some(set);
        }
    }
    lead
}

/// The first key of a set that it does not win, or 0. An unfit set wins nothing, so just those that commit have none.
fn lost_key(sheet: Sheet, wrong: &Table, set: Set) -> u32 {
    let won = |k| winner(sheet, wrong, k).is_some_and(|w| w.csn == set.csn);
    set.records.iter().map(key).find(|k| !won(*k)).unwrap_or(0)
}

fn committed<'a>(sheet: Sheet<'a>, lost: &'a Table) -> impl Iterator<Item = Set<'a>> {
    sheet.sets().zip(lost).filter(|(_, lost)| **lost == 0).map(|(set, _)| set)
}

/// The committed set that names a key, and its record for it.
fn applied<'a>(sheet: Sheet<'a>, lost: &'a Table, key: u32) -> Option<(Set<'a>, &'a Record)> {
    committed(sheet, lost).find_map(|set| Some((set, set.record_of(key)?)))
}

fn applied_count(sheet: Sheet, lost: &Table, k: u8) -> usize {
    committed(sheet, lost).flat_map(|set| set.records).filter(|r| kind(r) == k).count()
}

/// The first key above another that a committed set inserts.
fn next_insert(sheet: Sheet, lost: &Table, after: u32) -> Option<u32> {
    let first = |set: Set| set.records.iter().find(|r| kind(r) == INSERT && key(r) > after).map(key);
    committed(sheet, lost).filter_map(first).min()
}

/// What an old row becomes, if it is not deleted; or the row of an insert, from one that no epoch has touched. The committed set that names it
/// gives value and mark; without one the row stays as it is.
fn becomes(mut row: Row, sheet: Sheet, lost: &Table) -> Option<Row> {
    if let Some((set, r)) = applied(sheet, lost, row_key(&row)) {
        if kind(r) == DELETE {
            return None;
        }
        row[4..12].copy_from_slice(&r[8..]);
        stamp(&mut row, sheet.epoch(), set.sen, set.csn);
    }
    Some(row)
}

/// The rows that remain and those that are inserted, in the order of their keys.
fn put_rows(rows: &[Row], sheet: Sheet, lost: &Table, out: &mut [Row]) {
    let mut out = out.iter_mut();
    let mut old = rows.iter().peekable();
    let mut insert = next_insert(sheet, lost, 0);
    loop {
        let row = match (old.next_if(|row| insert.is_none_or(|k| row_key(row) < k)), insert) {
            (Some(row), _) => becomes(*row, sheet, lost),
            (None, Some(key)) => {
                insert = next_insert(sheet, lost, key);
                becomes(untouched(key), sheet, lost)
            }
            (None, None) => return,
        };
        if let Some(row) = row {
            *out.next().unwrap() = row;
        }
    }
}

/// The rows and the sheet, if nothing is refused before the sets are judged.
pub fn closable<'a>(register: &'a [u8], sheet: &'a [u8], complete: fn(Sheet) -> bool) -> Result<(&'a [Row], Sheet<'a>), u32> {
    if !is_register(register) {
        return Err(1);
    }
    if !is_sheet(sheet) {
        return Err(2);
    }
    let snapshot = u32_at(register, 0);
    let (rows, sheet) = (rows(register), Sheet::new(sheet));
    if Some(sheet.epoch()) != snapshot.checked_add(1) {
        return Err(4);
    }
    if sheet.is_spoiled() {
        return Err(6);
    }
    if !complete(sheet) {
        return Err(7);
    }
    Ok((rows, sheet))
}

/// The room for the next rows, with the head of a register of n rows before it, if n is not too many and the lent bytes are enough.
pub fn started<'a>(next: &'a mut [u8], verdicts: &[u8], sheet: Sheet, n: usize) -> Result<&'a mut [Row], u32> {
    if n > MAX_ROWS {
        return Err(8);
    }
    if next.len() < REGISTER_ROOM || verdicts.len() < VERDICT_ROOM {
        return Err(9);
    }
    let (head, rest) = next.split_at_mut(REGISTER_HEAD);
    head[..4].copy_from_slice(&sheet.epoch().to_le_bytes());
    head[4..].copy_from_slice(&(n as u32).to_le_bytes());
    Ok(&mut rest.as_chunks_mut().0[..n])
}

pub fn close(register: &[u8], sheet: &[u8], next: &mut [u8], verdicts: &mut [u8]) -> Result<(usize, usize), u32> {
    let (rows, sheet) = closable(register, sheet, complete)?;
    let (mut wrong, mut lost) = ([0; MAX_SETS], [0; MAX_SETS]);
    for (w, set) in wrong.iter_mut().zip(sheet.sets()) {
        *w = wrong_key(rows, set);
    }
    for (l, set) in lost.iter_mut().zip(sheet.sets()) {
        *l = lost_key(sheet, &wrong, set);
    }
    let n = rows.len() + applied_count(sheet, &lost, INSERT) - applied_count(sheet, &lost, DELETE);
    put_rows(rows, sheet, &lost, started(next, verdicts, sheet, n)?);
    Ok((REGISTER_HEAD + ROW * n, put_verdicts(verdicts, sheet, &wrong, &lost)))
}
