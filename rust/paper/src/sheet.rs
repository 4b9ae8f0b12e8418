//! 'Sheet': head, contents, bodies.

use crate::number;

#[derive(Clone, Copy, Debug, PartialEq, Eq, PartialOrd, Ord)]
pub enum Kind {
    Change = 1,
    Insert = 2,
    Delete = 3,
}

impl Kind {
    /// The kind that has the number, where a record of it may have the value: that of a delete is 0.
    pub fn read(number: u8, value: u64) -> Option<Kind> {
        match number {
            1 => Some(Kind::Change),
            2 => Some(Kind::Insert),
            3 if value == 0 => Some(Kind::Delete),
            _ => None,
        }
    }
}

#[derive(Clone, Copy, Debug, PartialEq, Eq, PartialOrd, Ord)]
pub struct Record {
    pub kind: Kind,
    pub key: u32,
    pub value: u64,
}

#[derive(Clone, Debug, PartialEq, Eq, PartialOrd, Ord)]
pub struct Set {
    pub csn: u64,
    pub sen: u32,
    pub records: Vec<Record>,
}

impl Set {
    pub fn master(&self) -> usize {
        (self.csn % 16) as usize
    }
}

/// A sheet's offers: `None` where it is spoiled.
#[derive(Clone, Debug, PartialEq, Eq)]
pub struct Sheet {
    pub epoch: u32,
    pub roster: u16,
    pub offers: Option<Offers>,
}

#[derive(Clone, Debug, Default, PartialEq, Eq)]
pub struct Offers {
    pub notices: [Option<u8>; 16],
    pub sets: Vec<Set>,
}

/// The records that the bytes are: 1 to 8 whole ones with strictly ascending keys.
pub fn read_records(bytes: &[u8]) -> Option<Vec<Record>> {
    if bytes.len() % 16 != 0 || bytes.is_empty() || bytes.len() > 128 {
        return None;
    }
    let mut records = Vec::new();
    let mut last = 0;
    for r in bytes.chunks(16) {
        let key = number(&r[4..8]) as u32;
        let value = number(&r[8..16]);
        let kind = Kind::read(r[0], value)?;
        if r[1] != 0 || r[2] != 0 || r[3] != 0 || key <= last {
            return None;
        }
        last = key;
        records.push(Record { kind, key, value });
    }
    Some(records)
}

pub fn record_bytes(records: &[Record]) -> Vec<u8> {
    let mut out = Vec::new();
    for r in records {
        out.extend([r.kind as u8, 0, 0, 0]);
        out.extend(r.key.to_le_bytes());
        out.extend(r.value.to_le_bytes());
    }
    out
}

impl Sheet {
    pub fn in_roster(&self, master: usize) -> bool {
        master < 16 && self.roster >> master & 1 == 1
    }

    /// The sheet that the bytes are, if they are well-formed.
    pub fn read(bytes: &[u8]) -> Option<Sheet> {
        if bytes.len() < 24 {
            return None;
        }
        let mut sheet = Sheet { epoch: number(&bytes[0..4]) as u32, roster: number(&bytes[4..6]) as u16, offers: None };
        if sheet.epoch == 0 || sheet.roster == 0 {
            return None;
        }
        let (state, n, heads) = (bytes[6], bytes[7] as usize, &bytes[8..24]);
        if state == 1 {
            let bare = bytes.len() == 24 && n == 0 && heads.iter().all(|x| *x == 255);
            return bare.then_some(sheet);
        }
        if state != 0 || n > 64 || bytes.len() < 24 + 16 * n {
            return None;
        }
        let mut offers = Offers::default();
        for (m, x) in heads.iter().enumerate() {
            match *x {
                255 => {}
                x if x <= 64 && sheet.in_roster(m) => offers.notices[m] = Some(x),
                _ => return None,
            }
        }
        let bodies = &bytes[24 + 16 * n..];
        let mut at = 0;
        for entry in bytes[24..24 + 16 * n].chunks(16) {
            let csn = number(&entry[0..8]);
            let sen = number(&entry[8..12]) as u32;
            let (first, count) = (number(&entry[12..14]) as usize, number(&entry[14..16]) as usize);
            if first != at || !(1..=8).contains(&count) || bodies.len() < 16 * (at + count) || sen > sheet.epoch {
                return None;
            }
            let records = read_records(&bodies[16 * at..16 * (at + count)])?;
            at += count;
            let set = Set { csn, sen, records };
            if !sheet.in_roster(set.master()) || offers.sets.last().is_some_and(|s| s.csn >= csn) {
                return None;
            }
            offers.sets.push(set);
        }
        if bodies.len() != 16 * at || offers.over_notice() {
            return None;
        }
        sheet.offers = Some(offers);
        Some(sheet)
    }

    pub fn bytes(&self) -> Vec<u8> {
        let mut out = Vec::new();
        out.extend(self.epoch.to_le_bytes());
        out.extend(self.roster.to_le_bytes());
        let Some(offers) = &self.offers else {
            out.extend([1, 0]);
            out.extend([255; 16]);
            return out;
        };
        out.extend([0, offers.sets.len() as u8]);
        out.extend(offers.notices.map(|x| x.unwrap_or(255)));
        let mut first = 0u16;
        for set in &offers.sets {
            out.extend(set.csn.to_le_bytes());
            out.extend(set.sen.to_le_bytes());
            out.extend(first.to_le_bytes());
            out.extend((set.records.len() as u16).to_le_bytes());
            first += set.records.len() as u16;
        }
        for set in &offers.sets {
            out.extend(record_bytes(&set.records));
        }
        out
    }
}

impl Offers {
    /// How many sets a master has.
    pub fn sets_of(&self, master: usize) -> usize {
        self.sets.iter().filter(|s| s.master() == master).count()
    }

    /// Whether some master has more sets than its notice.
    pub fn over_notice(&self) -> bool {
        (0..16).any(|m| self.notices[m].is_some_and(|x| self.sets_of(m) > x as usize))
    }
}
