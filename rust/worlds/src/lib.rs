//! Seeded cases for the tests and the benchmark: few keys and few csns, so that sets meet; bytes that are sometimes damaged.

pub mod desk;
mod rng;

use paper::{Mark, Register, Row, SHEET_ROOM};
use std::collections::BTreeMap;

pub use rng::Rng;

/// A case's world: an epoch and its roster, and what sets are drawn from.
pub struct World {
    pub epoch: u32,
    pub roster: u16,
    pub masters: Vec<u8>,
    pub keys: Vec<u32>,
    /// How many different times csns have.
    pub times: u64,
}

/// A set that is offered.
pub struct Offer {
    pub sen: u32,
    pub csn: u64,
    pub records: Vec<u8>,
}

pub fn world(rng: &mut Rng) -> World {
    let roster = match rng.below(4) {
        0 => 40,
        1 => 0xffff,
        2 => 1 << rng.below(16),
        _ => (rng.next() as u16).max(1),
    };
    let epoch = if rng.once_in(30) { u32::MAX } else { 1 + rng.below(5) as u32 };
    let masters = (0..16).filter(|m| roster >> m & 1 == 1).collect();
    let mut keys: Vec<u32> = (0..2 + rng.below(12)).map(|_| 1 + rng.below(60) as u32).collect();
    if rng.once_in(10) {
        keys.push(u32::MAX);
    }
    keys.sort();
    keys.dedup();
    World { epoch, roster, masters, keys, times: 1 + rng.below(8) }
}

/// The bytes, and once in n times with one changed, cut off or added.
pub fn damaged(rng: &mut Rng, mut bytes: Vec<u8>, n: u64) -> Vec<u8> {
    if !rng.once_in(n) || bytes.is_empty() {
        return bytes;
    }
    let at = rng.below(bytes.len() as u64) as usize;
    match rng.below(6) {
        0 => bytes.truncate(at),
        1 => bytes.push(rng.next() as u8),
        2 => bytes[at] = 0,
        3 => bytes[at] = 255,
        4 => bytes[at] ^= 1 << rng.below(8),
        _ => bytes[at] = rng.next() as u8,
    }
    bytes
}

pub fn record(kind: u8, key: u32, value: u64) -> Vec<u8> {
    let mut out = vec![kind, 0, 0, 0];
    out.extend(key.to_le_bytes());
    out.extend(value.to_le_bytes());
    out
}

/// Record bytes: mostly well-formed, sometimes in the wrong order or with one byte wrong.
fn records(rng: &mut Rng, w: &World) -> Vec<u8> {
    let most = rng.pick(&[4, 4, 4, 8]);
    let mut keys: Vec<u32> = (0..1 + rng.below(most)).map(|_| rng.pick(&w.keys)).collect();
    if !rng.once_in(40) {
        keys.sort();
        keys.dedup();
    }
    let mut out = Vec::new();
    for key in keys {
        let kind = rng.pick(&[1u8, 1, 1, 1, 1, 1, 2, 3]);
        out.extend(record(kind, key, if kind == 3 { 0 } else { rng.below(3) }));
    }
    damaged(rng, out, 60)
}

/// A set that mostly can be offered.
pub fn offer(rng: &mut Rng, w: &World) -> Offer {
    let master = if rng.once_in(80) { rng.below(16) } else { u64::from(rng.pick(&w.masters)) };
    let time = if rng.once_in(100) { u64::MAX / 16 } else { rng.below(w.times) };
    let sen = if rng.once_in(60) { w.epoch.wrapping_add(1) } else { rng.below(u64::from(w.epoch.min(4)) + 1) as u32 };
    Offer { sen, csn: time * 16 + master, records: records(rng, w) }
}

/// Most of the world's keys as rows, mostly of the snapshot before the epoch.
pub fn register(rng: &mut Rng, w: &World) -> Vec<u8> {
    let snapshot = if rng.once_in(20) { rng.below(6) as u32 } else { w.epoch - 1 };
    let mut rows = BTreeMap::new();
    for key in &w.keys {
        if rng.once_in(6) {
            continue;
        }
        let cen = rng.below(u64::from(snapshot) + 1) as u32;
        let sen = rng.below(u64::from(cen) + 1) as u32;
        rows.insert(*key, Row { value: rng.below(9), mark: Mark { cen, sen, csn: rng.below(40) } });
    }
    let bytes = Register { snapshot, rows }.bytes();
    damaged(rng, bytes, 40)
}

/// How many sets a master has in a sheet.
pub fn sets_of(sheet: &[u8], master: u8) -> u8 {
    paper::Sheet::read(sheet).and_then(|s| s.offers).map_or(0, |o| o.sets_of(master as usize)) as u8
}

/// The sheet with a full notice from every master of its roster.
pub fn noticed(mut sheet: Vec<u8>, w: &World) -> Vec<u8> {
    for m in &w.masters {
        sheet = paper::notice(&sheet, w.epoch, *m, sets_of(&sheet, *m), SHEET_ROOM).unwrap();
    }
    sheet
}

/// A sheet of up to 64 sets on the world's few keys, so that most are fought over, with full notices.
pub fn crowded(rng: &mut Rng, w: &World) -> Vec<u8> {
    let mut sheet = paper::open(w.epoch, w.roster, SHEET_ROOM).unwrap();
    for i in 0..rng.below(65) {
        let o = offer(rng, w);
        sheet = paper::put(&sheet, w.epoch, o.sen, i * 16 + o.csn % 16, &o.records, SHEET_ROOM).unwrap_or(sheet);
    }
    noticed(sheet, w)
}

/// The 8 records of set i of the full epoch over rows 1 to 1,024: changes of every second key, but the last set inserts a row, and the one
/// before it may delete one.
pub fn eight(i: u32, delete: bool) -> Vec<u8> {
    let one = |j| match (i, j) {
        (63, 7) => record(2, 5000, 1),
        (62, 7) if delete => record(3, 1024, 0),
        _ => record(1, 1 + (i * 8 + j) * 2, 1),
    };
    (0..8).flat_map(one).collect()
}
