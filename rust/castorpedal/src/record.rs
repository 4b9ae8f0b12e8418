//! The records of a set, 16 bytes each. A set with more than one is their bytes together, the keys strictly ascending:
//! `[record::change(10, 6), record::delete(20)].concat()`. At the desk they are typed one by one, in any order, into an
//! [`OpenSet`](crate::OpenSet).

use crate::words::word;

/// The kind of a change.
pub const CHANGE: u8 = 1;
/// The kind of an insert.
pub const INSERT: u8 = 2;
/// The kind of a delete, whose value is 0.
pub const DELETE: u8 = 3;

/// The length of a record.
pub(crate) const RECORD: usize = 16;

/// A record's kind, key and value.
#[derive(Clone, Copy, Debug, PartialEq, Eq, Hash)]
pub struct Record {
    /// What is to be done with the row: [`CHANGE`], [`INSERT`] or [`DELETE`].
    pub kind: u8,
    /// The pay station's key, not 0.
    pub key: u32,
    /// The value that the row is to have.
    pub value: u64,
}

impl Record {
    /// The record that sixteen bytes are.
    pub(crate) fn read(bytes: &[u8]) -> Record {
        Record { kind: bytes[0], key: u32::from_le_bytes(word(bytes, 4)), value: u64::from_le_bytes(word(bytes, 8)) }
    }
}

/// A present row is to have this value.
pub fn change(key: u32, value: u64) -> [u8; RECORD] {
    record(CHANGE, key, value)
}

/// A row that is absent is to be there, with this value.
pub fn insert(key: u32, value: u64) -> [u8; RECORD] {
    record(INSERT, key, value)
}

/// A present row is to go.
pub fn delete(key: u32) -> [u8; RECORD] {
    record(DELETE, key, 0)
}

fn record(kind: u8, key: u32, value: u64) -> [u8; RECORD] {
    let mut bytes = [0; RECORD];
    bytes[0] = kind;
    bytes[4..8].copy_from_slice(&key.to_le_bytes());
    bytes[8..].copy_from_slice(&value.to_le_bytes());
    bytes
}
