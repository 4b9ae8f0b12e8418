//! Bytes of registers, records and entries, for the cases.

use paper::{Mark, Register, Row, SHEET_ROOM};

/// The roster of the clerk's examples: masters 3 and 5.
pub const ROSTER: u16 = 40;

/// A register of rows with fresh marks.
pub fn fresh(snapshot: u32, rows: &[(u32, u64)]) -> Vec<u8> {
    let rows = rows.iter().map(|(key, value)| (*key, Row { value: *value, mark: Mark::FRESH })).collect();
    Register { snapshot, rows }.bytes()
}

/// The clerk's register R, at a snapshot.
pub fn register_r(snapshot: u32) -> Vec<u8> {
    fresh(snapshot, &[(10, 1), (20, 0)])
}

/// A record: kind, key, value.
pub fn record(kind: u8, key: u32, value: u64) -> Vec<u8> {
    let mut out = vec![kind, 0, 0, 0];
    out.extend(key.to_le_bytes());
    out.extend(value.to_le_bytes());
    out
}

pub fn change(key: u32, value: u64) -> Vec<u8> {
    record(1, key, value)
}

pub fn insert(key: u32, value: u64) -> Vec<u8> {
    record(2, key, value)
}

pub fn delete(key: u32) -> Vec<u8> {
    record(3, key, 0)
}

/// A sheet of sets, each csn and records with sen 1, and of notices, each master and count.
pub fn sheet_of(epoch: u32, roster: u16, sets: &[(u64, &[Vec<u8>])], notices: &[(u8, u8)]) -> Vec<u8> {
    let mut sheet = paper::open(epoch, roster, SHEET_ROOM).unwrap();
    for (csn, records) in sets {
        sheet = paper::put(&sheet, epoch, 1, *csn, &records.concat(), SHEET_ROOM).unwrap();
    }
    for (master, count) in notices {
        sheet = paper::notice(&sheet, epoch, *master, *count, SHEET_ROOM).unwrap();
    }
    sheet
}

pub fn keys_bytes(keys: &[u32]) -> Vec<u8> {
    keys.iter().flat_map(|k| k.to_le_bytes()).collect()
}

pub fn csns_bytes(csns: &[u64]) -> Vec<u8> {
    csns.iter().flat_map(|c| c.to_le_bytes()).collect()
}

/// The bytes with some of them replaced.
pub fn with(bytes: &[u8], at: usize, new: &[u8]) -> Vec<u8> {
    let mut out = bytes.to_vec();
    out[at..at + new.len()].copy_from_slice(new);
    out
}
