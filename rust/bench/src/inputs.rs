//! Seeded inputs of the measured calls: registers of 1,024 rows, and 64 sets of 8 records, four of each master, in one sheet or in two.

use paper::{Kind, Mark, Record, Register, Row, Set, Sheet};
use worlds::Rng;

pub const EPOCH: u32 = 100;
const ROSTER: u16 = 0xffff;

/// What a call is given; what it does not take is empty.
#[derive(Default)]
pub struct Input {
    pub register: Vec<u8>,
    pub sheet: Vec<u8>,
    /// The sheet that is joined.
    pub second: Vec<u8>,
    /// The set that is put: sen, csn and record bytes.
    pub set: (u32, u64, Vec<u8>),
    /// The notice that is put: master and count.
    pub notice: (u8, u8),
}

/// The keys of a register's rows, and others between them, both shuffled.
struct Keys {
    present: Vec<u32>,
    absent: Vec<u32>,
}

/// 1,024 rows, their keys some way apart and their marks those of earlier epochs.
fn register(rng: &mut Rng) -> (Vec<u8>, Keys) {
    let (mut key, mut keys, mut rows) = (0, Keys { present: vec![], absent: vec![] }, std::collections::BTreeMap::new());
    for _ in 0..1024 {
        keys.absent.push(key + 1);
        key += 2 + rng.below(30) as u32;
        keys.present.push(key);
        let cen = rng.below(u64::from(EPOCH)) as u32;
        let mark = Mark { cen, sen: cen.saturating_sub(rng.below(4) as u32), csn: rng.next() };
        rows.insert(key, Row { value: rng.next(), mark });
    }
    rng.shuffle(&mut keys.present);
    rng.shuffle(&mut keys.absent);
    (Register { snapshot: EPOCH - 1, rows }.bytes(), keys)
}

/// 64 sets of the given records: csns at random times, four sets of each master, and a sen of the last few epochs.
fn sets(rng: &mut Rng, mut records: impl FnMut(&mut Rng) -> Vec<Record>) -> Vec<Set> {
    let (mut masters, mut time): (Vec<u64>, u64) = ((0..64).map(|i| i % 16).collect(), 1 << 40);
    rng.shuffle(&mut masters);
    let set = |m| {
        time += 1 + rng.below(1000);
        Set { csn: time * 16 + m, sen: EPOCH - rng.below(4) as u32, records: records(rng) }
    };
    masters.into_iter().map(set).collect()
}

/// The records of a set, in the order of their keys.
fn sorted(mut records: Vec<Record>) -> Vec<Record> {
    records.sort_by_key(|r| r.key);
    records
}

fn changes(rng: &mut Rng, keys: impl IntoIterator<Item = u32>) -> Vec<Record> {
    sorted(keys.into_iter().map(|key| Record { kind: Kind::Change, key, value: rng.next() }).collect())
}

/// FEW CONFLICTS: each set changes 8 rows of its own; but one set in four names, in place of one of them, a row of the next set.
fn few(rng: &mut Rng, keys: &Keys) -> Vec<Set> {
    let mut turn = 0;
    sets(rng, |rng| {
        let mut own = keys.present[turn * 8..turn * 8 + 8].to_vec();
        if rng.once_in(4) {
            own[0] = keys.present[(turn * 8 + 9) % 512];
        }
        turn += 1;
        changes(rng, own)
    })
}

/// CROWDED: every set changes 8 of the same 128 rows, so that four sets name a row in the mean.
fn crowded(rng: &mut Rng, keys: &Keys) -> Vec<Set> {
    let mut hot = keys.present[..128].to_vec();
    sets(rng, |rng| {
        rng.shuffle(&mut hot);
        changes(rng, hot[..8].iter().copied())
    })
}

/// INSERTS AND DELETES: each set inserts 2 rows, deletes 3 and changes 3 of its own; but one set in four inserts, in place of one of them, a
/// row that the next set inserts, and one set in sixteen inserts a row that is there, so that it is unfit.
fn mixed(rng: &mut Rng, keys: &Keys) -> Vec<Set> {
    let mut turn = 0;
    sets(rng, |rng| {
        let (present, absent) = (&keys.present[turn * 6..], &keys.absent[turn * 2..]);
        let mut inserted = [absent[0], absent[1]];
        if rng.once_in(4) {
            inserted[0] = keys.absent[(turn * 2 + 3) % 128];
        }
        if rng.once_in(16) {
            inserted[1] = keys.present[600 + turn];
        }
        turn += 1;
        let mut all: Vec<Record> = changes(rng, present[..3].iter().copied());
        all.extend(present[3..6].iter().map(|key| Record { kind: Kind::Delete, key: *key, value: 0 }));
        all.extend(inserted.map(|key| Record { kind: Kind::Insert, key, value: rng.next() }));
        sorted(all)
    })
}

/// The sheet of some sets and of the notices of some masters.
fn sheet(sets: Vec<Set>, noticed: impl Iterator<Item = usize>) -> Vec<u8> {
    let mut sheet = Sheet::read(&paper::open(EPOCH, ROSTER, paper::SHEET_ROOM).unwrap()).unwrap();
    let offers = sheet.offers.as_mut().unwrap();
    offers.sets = sets;
    for m in noticed {
        offers.notices[m] = Some(4);
    }
    sheet.bytes()
}

/// 64 sets, as of a closing with few conflicts.
fn offers(rng: &mut Rng) -> Vec<Set> {
    let (_, keys) = register(rng);
    few(rng, &keys)
}

pub fn full_register(rng: &mut Rng) -> Input {
    Input { register: register(rng).0, ..Input::default() }
}

pub fn full_sheet(rng: &mut Rng) -> Input {
    Input { sheet: sheet(offers(rng), 0..16), ..Input::default() }
}

/// Before the notices come, and the set is any of the 64.
pub fn last_set(rng: &mut Rng) -> Input {
    let mut sets = offers(rng);
    let last = sets.remove(rng.below(64) as usize);
    let (sen, csn) = (last.sen, last.csn);
    // In the sheet of this set alone the records stand behind the head and one entry.
    let records = sheet(vec![last], 0..0)[24 + 16..].to_vec();
    Input { sheet: sheet(sets, 0..0), set: (sen, csn, records), ..Input::default() }
}

/// All sets are there and all notices but one.
pub fn last_notice(rng: &mut Rng) -> Input {
    let last = rng.below(16) as usize;
    Input { sheet: sheet(offers(rng), (0..16).filter(|m| *m != last)), notice: (last as u8, 4), ..Input::default() }
}

/// Both sheets have all notices.
pub fn same_sets(rng: &mut Rng) -> Input {
    let sheet = sheet(offers(rng), 0..16);
    Input { second: sheet.clone(), sheet, ..Input::default() }
}

/// One sheet has the sets and notices of eight masters, the other those of the other eight.
pub fn two_halves(rng: &mut Rng) -> Input {
    let mut masters: Vec<usize> = (0..16).collect();
    rng.shuffle(&mut masters);
    let (first, second) = masters.split_at(8);
    let (one, other) = offers(rng).into_iter().partition(|s| first.contains(&s.master()));
    Input { sheet: sheet(one, first.iter().copied()), second: sheet(other, second.iter().copied()), ..Input::default() }
}

/// 21 sets of one sheet, 21 of the other and 22 of both; both have all notices.
pub fn some_shared(rng: &mut Rng) -> Input {
    let mut holds: Vec<usize> = (0..64).collect();
    rng.shuffle(&mut holds);
    let sets = offers(rng);
    let dealt = |to: std::ops::Range<usize>| sets.iter().zip(&holds).filter(|(_, h)| to.contains(h)).map(|(s, _)| s.clone()).collect();
    Input { sheet: sheet(dealt(0..43), 0..16), second: sheet(dealt(21..64), 0..16), ..Input::default() }
}

fn closing(rng: &mut Rng, draw: impl Fn(&mut Rng, &Keys) -> Vec<Set>) -> Input {
    let (register, keys) = register(rng);
    Input { sheet: sheet(draw(rng, &keys), 0..16), register, ..Input::default() }
}

pub fn few_conflicts(rng: &mut Rng) -> Input {
    closing(rng, few)
}

pub fn most_crowded(rng: &mut Rng) -> Input {
    closing(rng, crowded)
}

pub fn inserts_and_deletes(rng: &mut Rng) -> Input {
    closing(rng, mixed)
}
