//! 'Register', and the marks of 'Numbers'.

use crate::number;
use std::collections::BTreeMap;

#[derive(Clone, Copy, Debug, PartialEq, Eq)]
pub struct Mark {
    pub cen: u32,
    pub sen: u32,
    pub csn: u64,
}

impl Mark {
    pub const FRESH: Mark = Mark { cen: 0, sen: 0, csn: 0 };

    /// Of two epochs the smaller cen; of one epoch the larger sen; at equal sen the smaller csn.
    pub fn precedes(self, other: Mark) -> bool {
        (self.cen, std::cmp::Reverse(self.sen), self.csn) < (other.cen, std::cmp::Reverse(other.sen), other.csn)
    }
}

#[derive(Clone, Copy, Debug, PartialEq, Eq)]
pub struct Row {
    pub value: u64,
    pub mark: Mark,
}

#[derive(Clone, Debug, PartialEq, Eq)]
pub struct Register {
    pub snapshot: u32,
    pub rows: BTreeMap<u32, Row>,
}

impl Register {
    /// The register that the bytes are, if they are well-formed.
    pub fn read(bytes: &[u8]) -> Option<Register> {
        if bytes.len() < 8 {
            return None;
        }
        let snapshot = number(&bytes[0..4]) as u32;
        let count = number(&bytes[4..8]) as usize;
        if count > 1024 || bytes.len() != 8 + 28 * count {
            return None;
        }
        let mut rows = BTreeMap::new();
        let mut last = 0;
        for row in bytes[8..].chunks(28) {
            let key = number(&row[0..4]) as u32;
            let value = number(&row[4..12]);
            let mark = Mark { cen: number(&row[12..16]) as u32, sen: number(&row[16..20]) as u32, csn: number(&row[20..28]) };
            if key <= last || mark.cen > snapshot || mark.sen > mark.cen {
                return None;
            }
            last = key;
            rows.insert(key, Row { value, mark });
        }
        Some(Register { snapshot, rows })
    }

    pub fn bytes(&self) -> Vec<u8> {
        let mut out = Vec::new();
        out.extend(self.snapshot.to_le_bytes());
        out.extend((self.rows.len() as u32).to_le_bytes());
        for (key, row) in &self.rows {
            out.extend(key.to_le_bytes());
            out.extend(row.value.to_le_bytes());
            out.extend(row.mark.cen.to_le_bytes());
            out.extend(row.mark.sen.to_le_bytes());
            out.extend(row.mark.csn.to_le_bytes());
        }
        out
    }
}
