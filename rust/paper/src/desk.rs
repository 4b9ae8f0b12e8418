//! Document 02, L2, 'The visit desk': tags, the open set, and what a clerk does with them.

use crate::sheet::{read_records, record_bytes, Kind, Record};
use crate::{put, Refusal, TAG_ROOM};

/// Damm's ten by ten table (H. M. Damm, 2004): the row is what the digits so far lead to, the column is the next digit.
pub const DAMM: [[u8; 10]; 10] = [
    [0, 3, 1, 7, 5, 9, 8, 6, 4, 2],
    [7, 0, 9, 2, 1, 5, 4, 8, 6, 3],
    [4, 2, 0, 6, 8, 7, 1, 3, 5, 9],
    [1, 7, 5, 0, 9, 8, 3, 4, 2, 6],
    [6, 1, 2, 3, 0, 4, 5, 9, 7, 8],
    [3, 6, 7, 4, 2, 0, 9, 5, 8, 1],
    [5, 8, 6, 9, 7, 2, 0, 1, 3, 4],
    [8, 9, 4, 5, 3, 6, 2, 0, 1, 7],
    [9, 4, 3, 8, 6, 1, 7, 2, 0, 5],
    [2, 5, 8, 1, 4, 3, 6, 7, 9, 0],
];

/// The check digit of some digits.
fn check_digit(digits: &[u8]) -> u8 {
    digits.iter().fold(0, |row, digit| DAMM[usize::from(row)][usize::from(*digit)])
}

/// The digits that bytes of ASCII are.
fn digits(bytes: &[u8]) -> Vec<u8> {
    bytes.iter().map(|b| b - b'0').collect()
}

/// A number's ten digits, with leading zeros, and the check digit, in ASCII: a tag where the number is a key.
pub fn tagged(number: u64) -> Vec<u8> {
    let mut bytes = format!("{number:010}").into_bytes();
    bytes.push(b'0' + check_digit(&digits(&bytes)));
    bytes
}

/// The key of a right tag.
fn key_of(tag: &[u8]) -> Option<u32> {
    if tag.len() != 11 || !tag.iter().all(u8::is_ascii_digit) {
        return None;
    }
    let digits = digits(tag);
    let key = digits[..10].iter().fold(0, |n, digit| n * 10 + u64::from(*digit));
    let right = check_digit(&digits[..10]) == digits[10] && (1..=u64::from(u32::MAX)).contains(&key);
    right.then_some(key as u32)
}

/// The open set as it is lent: `count` records of 16 bytes as under 'Bodies', the rest zero.
#[derive(Clone, Copy, Debug, PartialEq, Eq)]
pub struct OpenSet {
    pub count: u32,
    pub records: [u8; 128],
}

impl OpenSet {
    pub const EMPTY: OpenSet = OpenSet { count: 0, records: [0; 128] };

    /// The open set of at most 8 records.
    pub fn of(records: &[Record]) -> OpenSet {
        let mut set = OpenSet { count: records.len() as u32, ..OpenSet::EMPTY };
        set.records[..16 * records.len()].copy_from_slice(&record_bytes(records));
        set
    }

    /// The records that it holds, if it is well-formed.
    pub fn read(&self) -> Option<Vec<Record>> {
        if self.count > 8 {
            return None;
        }
        let (held, rest) = self.records.split_at(16 * self.count as usize);
        if rest.iter().any(|b| *b != 0) {
            return None;
        }
        if held.is_empty() { Some(vec![]) } else { read_records(held) }
    }

    /// Its 132 bytes, as they lie in memory.
    pub fn bytes(&self) -> Vec<u8> {
        [&self.count.to_le_bytes()[..], &self.records].concat()
    }
}

/// One record more in the open set, in key order.
pub fn enter(set: &mut OpenSet, kind: u8, tag: &[u8], value: u64) -> Result<(), Refusal> {
    let mut records = set.read().ok_or(3u32)?;
    let kind = Kind::read(kind, value).ok_or(3u32)?;
    let key = key_of(tag).ok_or(11u32)?;
    if records.iter().any(|r| r.key == key) {
        return Err(12);
    }
    if records.len() == 8 {
        return Err(13);
    }
    records.push(Record { kind, key, value });
    records.sort_by_key(|r| r.key);
    *set = OpenSet::of(&records);
    Ok(())
}

/// The sheet with the open set put in, which is then empty. An ill-formed open set offers no records, as an empty one does: `put` refuses both.
pub fn offer(set: &mut OpenSet, sheet: &[u8], epoch: u32, sen: u32, csn: u64, room: usize) -> Result<Vec<u8>, Refusal> {
    let records = set.read().unwrap_or_default();
    let written = put(sheet, epoch, sen, csn, &record_bytes(&records), room)?;
    *set = OpenSet::EMPTY;
    Ok(written)
}

/// The tag of a key.
pub fn tag(key: u32, room: usize) -> Result<Vec<u8>, Refusal> {
    if key == 0 {
        return Err(11);
    }
    if room < TAG_ROOM {
        return Err(9);
    }
    Ok(tagged(key.into()))
}

#[cfg(test)]
mod tests {
    use super::*;
    use crate::{open, Sheet, SHEET_ROOM};
    use std::collections::BTreeSet;

    fn next(row: u8, digit: u8) -> u8 {
        DAMM[usize::from(row)][usize::from(digit)]
    }

    /// Every digit stands once in each row and once in each column.
    #[test]
    fn damms_table_is_a_latin_square() {
        let digits: BTreeSet<u8> = (0..10).collect();
        for i in 0..10 {
            assert_eq!((0..10).map(|j| next(i, j)).collect::<BTreeSet<u8>>(), digits, "row {i}");
            assert_eq!((0..10).map(|j| next(j, i)).collect::<BTreeSet<u8>>(), digits, "column {i}");
        }
    }

    #[test]
    fn damms_table_has_a_zero_diagonal() {
        assert!((0..10).all(|i| next(i, i) == 0));
    }

    /// Two unequal digits, in one order and in the other, lead from no row to the same entry.
    #[test]
    fn damms_table_is_weakly_totally_anti_symmetric() {
        for row in 0..10 {
            for x in 0..10 {
                for y in (0..10).filter(|y| *y != x) {
                    assert_ne!(next(next(row, x), y), next(next(row, y), x), "row {row}, digits {x} and {y}");
                }
            }
        }
    }

    #[test]
    fn station_572() {
        assert_eq!(tag(572, 11), Ok(b"00000005724".to_vec()));
        assert_eq!(key_of(b"00000005724"), Some(572));
    }

    /// Some keys: small ones, large ones, and every power of ten with its neighbours.
    fn keys() -> Vec<u32> {
        let powers = (0..10).flat_map(|n| [10u32.pow(n), 10u32.pow(n) + 1, 10u32.pow(n).wrapping_sub(1)]);
        powers.chain([572, 1234567890, u32::MAX - 1, u32::MAX]).filter(|key| *key != 0).collect()
    }

    #[test]
    fn a_tag_gives_its_key_back() {
        for key in keys() {
            assert_eq!(key_of(&tag(key, 11).unwrap()), Some(key));
        }
    }

    #[test]
    fn one_digit_altered_is_no_right_tag() {
        for right in keys().into_iter().map(|key| tag(key, 11).unwrap()) {
            for at in 0..11 {
                for other in (0..=255).filter(|b| *b != right[at]) {
                    let mut wrong = right.clone();
                    wrong[at] = other;
                    assert_eq!(key_of(&wrong), None, "{wrong:?}");
                }
            }
        }
    }

    #[test]
    fn unequal_neighbours_exchanged_are_no_right_tag() {
        for right in keys().into_iter().map(|key| tag(key, 11).unwrap()) {
            for at in (0..10).filter(|at| right[*at] != right[at + 1]) {
                let mut wrong = right.clone();
                wrong.swap(at, at + 1);
                assert_eq!(key_of(&wrong), None, "{wrong:?}");
            }
        }
    }

    /// Right check digits alone do not make a tag.
    #[test]
    fn tags_out_of_range_are_none() {
        assert_eq!(key_of(&tagged(4_294_967_295)), Some(u32::MAX));
        for number in [0, 4_294_967_296, 9_999_999_999, 10_000_000_000] {
            assert_eq!(key_of(&tagged(number)), None, "{number}");
        }
        for tag in ["", "0000005724", "000000005724", "0000000572 ", "0000000572x"] {
            assert_eq!(key_of(tag.as_bytes()), None, "{tag}");
        }
    }

    /// Three visits in every order, then offered.
    #[test]
    fn records_stand_in_key_order() {
        let visits = [(1, 20, 8), (2, 572, 6), (3, 10, 0)];
        let expected = [(Kind::Delete, 10, 0), (Kind::Change, 20, 8), (Kind::Insert, 572, 6)];
        let expected = OpenSet::of(&expected.map(|(kind, key, value)| Record { kind, key, value }));
        for order in [[0, 1, 2], [0, 2, 1], [1, 0, 2], [1, 2, 0], [2, 0, 1], [2, 1, 0]] {
            let mut set = OpenSet::EMPTY;
            for (kind, key, value) in order.map(|i| visits[i]) {
                enter(&mut set, kind, &tag(key, 11).unwrap(), value).unwrap();
            }
            assert_eq!(set, expected);
            let sheet = open(1, 40, SHEET_ROOM).unwrap();
            let written = offer(&mut set, &sheet, 1, 1, 3, SHEET_ROOM).unwrap();
            assert_eq!(Sheet::read(&written).unwrap().offers.unwrap().sets[0].records, expected.read().unwrap());
            assert_eq!(set, OpenSet::EMPTY);
        }
    }

    /// Changes of stations 1, 2, ..
    fn changes(count: u32) -> OpenSet {
        let one = |key| Record { kind: Kind::Change, key, value: 1 };
        OpenSet::of(&(1..=count).map(one).collect::<Vec<_>>())
    }

    /// Each call meets two refusals, and gives the one that the documents have first; the open set stays.
    #[test]
    fn refusals_come_in_order() {
        let (mut full, mut ill) = (changes(8), OpenSet { count: 9, ..OpenSet::EMPTY });
        let (known, new) = (tag(1, 11).unwrap(), tag(9, 11).unwrap());
        let mut wrong = known.clone();
        wrong.swap(9, 10);
        assert_eq!(enter(&mut ill, 1, &wrong, 1), Err(3));
        assert_eq!(enter(&mut full, 4, &wrong, 1), Err(3));
        assert_eq!(enter(&mut full, 3, &known, 1), Err(3));
        assert_eq!(enter(&mut full, 1, &wrong, 1), Err(11));
        assert_eq!(enter(&mut full, 1, &known, 1), Err(12));
        assert_eq!(enter(&mut full, 1, &new, 1), Err(13));
        assert_eq!(tag(0, 10), Err(11));
        assert_eq!(tag(1, 10), Err(9));

        let sheet = open(1, 40, SHEET_ROOM).unwrap();
        assert_eq!(offer(&mut ill, &[], 2, 1, 4, 0), Err(2));
        assert_eq!(offer(&mut ill, &sheet, 2, 1, 4, 0), Err(3));
        assert_eq!(offer(&mut OpenSet::EMPTY.clone(), &sheet, 2, 1, 4, 0), Err(3));
        assert_eq!(offer(&mut full, &sheet, 2, 1, 4, 0), Err(4));
        assert_eq!(offer(&mut full, &sheet, 1, 1, 4, 0), Err(5));
        assert_eq!(offer(&mut full, &sheet, 1, 1, 3, 0), Err(9));
        assert_eq!((full, ill), (changes(8), OpenSet { count: 9, ..OpenSet::EMPTY }));
    }

    /// Each rule of the open set's form broken.
    #[test]
    fn ill_formed_open_sets() {
        let two = changes(2);
        assert!(two.read().is_some() && changes(8).read().is_some() && OpenSet::EMPTY.read().is_some());
        for (at, byte) in [(0, 0), (0, 4), (0, 3), (1, 1), (3, 1), (4, 0), (4, 2), (4, 3), (20, 1), (32, 1), (127, 1)] {
            let mut broken = two;
            broken.records[at] = byte;
            assert_eq!(broken.read(), None, "byte {at} is {byte}");
        }
        for count in [0, 1, 3, 8, 9, u32::MAX] {
            assert_eq!(OpenSet { count, ..two }.read(), None, "{count} records");
        }
    }
}
