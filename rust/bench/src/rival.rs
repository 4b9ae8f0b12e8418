//! A fast closing in plain Rust, with the answers of `twin::close`: the records of all sets are sorted once, and then everything is decided
//! in the order of keys, beside the rows. It is the mark that a faster closing of the library is held to.

use crate::twin::forms::*;
use crate::twin::{closable, started};

const MAX_RECORDS: usize = 8 * MAX_SETS;

/// Every master of the roster has as many sets as it noticed; no notice is more than any number of sets.
fn complete(sheet: Sheet) -> bool {
    let mut by = [0; 16];
    for set in sheet.sets() {
        by[set.master()] += 1;
    }
    (0..16).all(|m| !sheet.in_roster(m) || by[m] >= sheet.notices()[m])
}

/// A record as one number: its key, the rank of its set, the set's number, its kind and its own number. In the order of these numbers keys
/// ascend, and of the claims of one key the first precedes all others.
#[derive(Clone, Copy, PartialEq, Eq, PartialOrd, Ord)]
struct Claim(u64);

impl Claim {
    fn new(r: &Record, rank: u8, set: usize, number: usize) -> Claim {
        Claim(u64::from(key(r)) << 32 | u64::from(rank) << 24 | (set << 16) as u64 | u64::from(kind(r)) << 12 | number as u64)
    }

    fn key(self) -> u32 {
        (self.0 >> 32) as u32
    }

    fn set(self) -> usize {
        (self.0 >> 16) as usize % MAX_SETS
    }

    fn kind(self) -> u8 {
        (self.0 >> 12) as u8 % 4
    }

    fn number(self) -> usize {
        self.0 as usize % MAX_RECORDS
    }
}

/// The place of each set in the order of precedence: larger sen first. The sets come in csn order, so their numbers decide at equal sen.
fn ranks(sheet: Sheet) -> [u8; MAX_SETS] {
    let (mut order, mut ranks) = ([0; MAX_SETS], [0; MAX_SETS]);
    for ((i, set), o) in sheet.sets().enumerate().zip(&mut order) {
        *o = u64::from(!set.sen) << 8 | i as u64;
    }
    let order = &mut order[..sheet.set_count()];
    order.sort_unstable();
    for (rank, o) in order.iter().enumerate() {
        ranks[*o as usize % MAX_SETS] = rank as u8;
    }
    ranks
}

/// What is found out on the way.
struct Work {
    claims: [Claim; MAX_RECORDS],
    /// How many rows stand before the key of each claim.
    before: [u16; MAX_RECORDS],
    wrong: Table,
    lost: Table,
}

impl Work {
    /// All records, sorted; how many there are.
    fn sort(&mut self, sheet: Sheet) -> usize {
        let (ranks, mut n) = (ranks(sheet), 0);
        for (i, set) in sheet.sets().enumerate() {
            for r in set.records {
                self.claims[n] = Claim::new(r, ranks[i], i, n);
                n += 1;
            }
        }
        self.claims[..n].sort_unstable();
        n
    }

    /// Rows and claims are passed together. The first key found wrong in a set is its smallest, since keys ascend.
    fn find_wrong(&mut self, rows: &[Row], n: usize) {
        let mut left = rows;
        for (claim, before) in self.claims[..n].iter().zip(&mut self.before) {
            let mut present = false;
            while let [row, rest @ ..] = left {
                present = row_key(row) == claim.key();
                if row_key(row) >= claim.key() {
                    break;
                }
                left = rest;
            }
            *before = (rows.len() - left.len()) as u16;
            let wrong = &mut self.wrong[claim.set()];
            if present == (claim.kind() == INSERT) && *wrong == 0 {
                *wrong = claim.key();
            }
        }
    }

    /// Of the claims of fit sets the first of each key is kept, the winner's; the others' sets lose the key. How many are kept.
    fn keep_winners(&mut self, n: usize) -> usize {
        let (mut kept, mut last) = (0, 0);
        for i in 0..n {
            let claim = self.claims[i];
            if self.wrong[claim.set()] != 0 {
                continue;
            }
            if claim.key() != last {
                last = claim.key();
                self.claims[kept] = claim;
                self.before[kept] = self.before[i];
                kept += 1;
            } else if self.lost[claim.set()] == 0 {
                self.lost[claim.set()] = last;
            }
        }
        kept
    }

    /// How many rows there are when the committed sets have applied their records.
    fn next_count(&self, rows: usize, sheet: Sheet) -> usize {
        let (mut inserts, mut deletes) = (0, 0);
        let tables = self.wrong.iter().zip(&self.lost);
        for (set, _) in sheet.sets().zip(tables).filter(|(_, keys)| *keys == (&0, &0)) {
            inserts += set.records.iter().filter(|r| kind(r) == INSERT).count();
            deletes += set.records.iter().filter(|r| kind(r) == DELETE).count();
        }
        rows + inserts - deletes
    }

    /// One pass over the keys that committed sets won: the rows before each as they are, and then the one that it becomes. A key won by a
    /// set that was lost elsewhere is passed over, so its row stays.
    fn put_rows(&self, rows: &[Row], sheet: Sheet, winners: usize, out: &mut [Row]) {
        let (mut from, mut to) = (0, 0);
        let winners = self.claims[..winners].iter().zip(&self.before);
        for (claim, before) in winners.filter(|(claim, _)| self.lost[claim.set()] == 0) {
            let untouched = &rows[from..*before as usize];
            out[to..to + untouched.len()].copy_from_slice(untouched);
            from += untouched.len() + usize::from(claim.kind() != INSERT);
            to += untouched.len();
            if claim.kind() != DELETE {
                let (value, (csn, sen)) = (u64_at(&sheet.bodies[claim.number()], 8), sheet.numbers(claim.set()));
                put_row(&mut out[to], claim.key(), value, sheet.epoch(), sen, csn);
                to += 1;
            }
        }
        out[to..to + rows.len() - from].copy_from_slice(&rows[from..]);
    }
}

fn put_row(row: &mut Row, key: u32, value: u64, cen: u32, sen: u32, csn: u64) {
    row[..4].copy_from_slice(&key.to_le_bytes());
    row[4..12].copy_from_slice(&value.to_le_bytes());
    stamp(row, cen, sen, csn);
}

pub fn close(register: &[u8], sheet: &[u8], next: &mut [u8], verdicts: &mut [u8]) -> Result<(usize, usize), u32> {
    let (rows, sheet) = closable(register, sheet, complete)?;
    let mut w = Work { claims: [Claim(0); MAX_RECORDS], before: [0; MAX_RECORDS], wrong: [0; MAX_SETS], lost: [0; MAX_SETS] };
    let claims = w.sort(sheet);
    w.find_wrong(rows, claims);
    let winners = w.keep_winners(claims);
    let n = w.next_count(rows.len(), sheet);
    w.put_rows(rows, sheet, winners, started(next, verdicts, sheet, n)?);
    Ok((REGISTER_HEAD + ROW * n, put_verdicts(verdicts, sheet, &w.wrong, &w.lost)))
}
