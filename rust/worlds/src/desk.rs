//! Seeded cases of the desk: what a clerk types, and open sets; then what can be wrong with a tag and with an open set.

use crate::Rng;
use paper::{tagged, Kind, OpenSet, Record};
use std::collections::BTreeSet;

/// A visit as it is typed.
pub struct Visit {
    pub kind: u8,
    pub tag: Vec<u8>,
    pub value: u64,
}

/// What can be wrong with a tag.
#[derive(Clone, Copy, Debug, PartialEq, Eq, PartialOrd, Ord)]
pub enum TagFlaw {
    Length,
    NoDigit,
    OtherDigit,
    Exchanged,
    CheckDigit,
    KeyZero,
    KeyAbove,
}

pub const TAG_FLAWS: [TagFlaw; 7] = {
    use TagFlaw::*;
    [Length, NoDigit, OtherDigit, Exchanged, CheckDigit, KeyZero, KeyAbove]
};

/// What can be wrong with an open set.
#[derive(Clone, Copy, Debug, PartialEq, Eq, PartialOrd, Ord)]
pub enum SetFlaw {
    Count,
    Behind,
    Kind,
    KeyZero,
    KeysEqual,
    KeysFall,
    DeleteWithValue,
    Padding,
}

pub const SET_FLAWS: [SetFlaw; 8] = {
    use SetFlaw::*;
    [Count, Behind, Kind, KeyZero, KeysEqual, KeysFall, DeleteWithValue, Padding]
};

/// A station's key: mostly one of few, so that visits meet.
pub fn station(rng: &mut Rng) -> u32 {
    match rng.below(12) {
        0 => 1 + rng.below(u64::from(u32::MAX)) as u32,
        1 => u32::MAX - rng.below(2) as u32,
        _ => 1 + rng.below(16) as u32,
    }
}

fn value(rng: &mut Rng) -> u64 {
    let any = rng.next();
    rng.pick(&[0, 1, any, u64::MAX])
}

/// A visit of a station; kind and value are mostly right.
pub fn visit(rng: &mut Rng, key: u32) -> Visit {
    let kind = if rng.once_in(20) { rng.pick(&[0, 4, 5, 129, 255]) } else { rng.pick(&[1, 1, 2, 3]) };
    let value = if kind == 3 && !rng.once_in(10) { 0 } else { value(rng) };
    Visit { kind, tag: tagged(key.into()), value }
}

fn record(rng: &mut Rng, key: u32) -> Record {
    match rng.pick(&[Kind::Change, Kind::Insert, Kind::Delete]) {
        Kind::Delete => Record { kind: Kind::Delete, key, value: 0 },
        kind => Record { kind, key, value: value(rng) },
    }
}

/// A well-formed open set of so many records, 0 to 8.
pub fn open_set(rng: &mut Rng, count: usize) -> OpenSet {
    let mut keys = BTreeSet::new();
    while keys.len() < count {
        keys.insert(station(rng));
    }
    let records: Vec<Record> = keys.into_iter().map(|key| record(rng, key)).collect();
    OpenSet::of(&records)
}

/// A byte that is another than this one.
fn other(rng: &mut Rng, byte: u8) -> u8 {
    byte.wrapping_add(1 + rng.below(255) as u8)
}

fn other_digit(rng: &mut Rng, digit: u8) -> u8 {
    b'0' + (digit - b'0' + 1 + rng.below(9) as u8) % 10
}

/// A station's tag with a flaw. One of key 0 or above 4,294,967,295 has the right check digit.
pub fn flawed_tag(rng: &mut Rng, key: u32, flaw: TagFlaw) -> Vec<u8> {
    let mut tag = tagged(key.into());
    let at = rng.below(10) as usize;
    match flaw {
        TagFlaw::Length => match rng.below(4) {
            0 => tag.truncate(at),
            1 => tag.insert(0, b'0'),
            2 => tag.push(b'0'),
            _ => drop(tag.remove(0)),
        },
        TagFlaw::NoDigit => tag[at] = rng.pick(b"\0 +-/:Ox\xb0\xff"),
        TagFlaw::OtherDigit => tag[at] = other_digit(rng, tag[at]),
        TagFlaw::Exchanged => {
            // There are such: no tag of a key has eleven equal digits.
            let unequal: Vec<usize> = (0..10).filter(|i| tag[*i] != tag[i + 1]).collect();
            let i = rng.pick(&unequal);
            tag.swap(i, i + 1);
        }
        TagFlaw::CheckDigit => tag[10] = other_digit(rng, tag[10]),
        TagFlaw::KeyZero => tag = tagged(0),
        TagFlaw::KeyAbove => {
            let most = 9_999_999_999 - u64::from(u32::MAX);
            let above = rng.pick(&[1, 2, most]).min(1 + rng.below(most));
            tag = tagged(u64::from(u32::MAX) + above);
        }
    }
    tag
}

/// An open set of 2 to 8 records with a flaw; a full one has nothing behind its records.
pub fn flawed_set(rng: &mut Rng, flaw: SetFlaw) -> OpenSet {
    let most = if [SetFlaw::Count, SetFlaw::Behind].contains(&flaw) { 7 } else { 8 };
    let count = 2 + rng.below(most - 1) as usize;
    let mut set = open_set(rng, count);
    let (end, at) = (16 * count, 16 * rng.below(count as u64) as usize);
    let next = 16 * (1 + rng.below(count as u64 - 1) as usize);
    match flaw {
        SetFlaw::Count => {
            let wrong = [0, set.count - 1, set.count + 1, 8, 9, 256 + set.count, 1 << 31 | set.count, u32::MAX];
            set.count = rng.pick(&wrong);
        }
        SetFlaw::Behind => set.records[end + rng.below(128 - end as u64) as usize] = other(rng, 0),
        SetFlaw::Kind => set.records[at] = rng.pick(&[0, 4, 5, 129, 255]),
        SetFlaw::KeyZero => set.records[at + 4..at + 8].fill(0),
        SetFlaw::KeysEqual => set.records.copy_within(next - 12..next - 8, next + 4),
        SetFlaw::KeysFall => set.records[next - 16..next + 16].rotate_left(16),
        SetFlaw::DeleteWithValue => {
            set.records[at] = 3;
            set.records[at + 8 + rng.below(8) as usize] = other(rng, 0);
        }
        SetFlaw::Padding => set.records[at + 1 + rng.below(3) as usize] = other(rng, 0),
    }
    set
}

#[cfg(test)]
mod tests {
    use super::*;

    #[test]
    fn what_has_no_flaw_is_taken() {
        let mut rng = Rng(1);
        for count in (0..=8).cycle().take(900) {
            let mut set = open_set(&mut rng, count);
            assert_eq!(set.read().map(|records| records.len()), Some(count));
            let refused = paper::enter(&mut set, 1, &tagged(station(&mut rng).into()), 1).err();
            assert!([None, Some(12), Some(13)].contains(&refused), "{refused:?}");
        }
    }

    #[test]
    fn every_flaw_is_one() {
        let mut rng = Rng(2);
        for _ in 0..300 {
            for flaw in SET_FLAWS {
                assert_eq!(flawed_set(&mut rng, flaw).read(), None, "{flaw:?}");
            }
            for flaw in TAG_FLAWS {
                let key = station(&mut rng);
                let tag = flawed_tag(&mut rng, key, flaw);
                assert_eq!(paper::enter(&mut OpenSet::EMPTY.clone(), 1, &tag, 1), Err(11), "{flaw:?} {tag:?}");
            }
        }
    }
}
