//! The visit desk: an open set that is always well-formed, and tags.

use crate::calls::{self, TAG_ROOM};
use crate::record::{Record, RECORD};
use crate::sheet::written;
use crate::{Refusal, Sheet};

/// An open set as the library takes it: `count` records of 16 bytes, their keys strictly ascending, and zero bytes behind them. [`desk_enter`]
/// and [`desk_offer`] refuse any other with 3.
///
/// [`desk_enter`]: crate::desk_enter
/// [`desk_offer`]: crate::desk_offer
#[repr(C)]
#[derive(Clone, Copy, Debug, PartialEq, Eq, Hash)]
pub struct RawOpenSet {
    /// How many records there are, 0 to 8.
    pub count: u32,
    /// The records, and zero bytes.
    pub records: [u8; 128],
}

/// The set that a clerk is typing. It is always well-formed; the same records are the same set, whatever the order in which they were typed.
///
/// A refusal leaves an open set as it was.
#[derive(Clone, Debug, PartialEq, Eq, Hash)]
pub struct OpenSet {
    raw: RawOpenSet,
}

impl OpenSet {
    /// The open set with no record.
    pub fn new() -> OpenSet {
        OpenSet { raw: RawOpenSet { count: 0, records: [0; 128] } }
    }

    /// Takes in a record: its kind (see [`record`](crate::record)), the station's tag, as the eleven characters, and the value. Refusals: 3 kind
    /// or value, 11, 12, 13.
    pub fn enter(&mut self, kind: u8, tag: impl AsRef<[u8]>, value: u64) -> Result<(), Refusal> {
        calls::desk_enter(&mut self.raw, kind, tag.as_ref(), value)
    }

    /// Puts the records into a sheet, as [`Sheet::put`] does, and is then empty: also where that spoils the sheet. Refusals: 3 (also where there
    /// is no record), 4, 5.
    pub fn offer(&mut self, sheet: &mut Sheet, epoch: u32, sen: u32, csn: u64) -> Result<(), Refusal> {
        *sheet = written(|out| calls::desk_offer(&mut self.raw, sheet.bytes(), epoch, sen, csn, out))?;
        Ok(())
    }

    /// The records, their keys ascending.
    pub fn records(&self) -> impl ExactSizeIterator<Item = Record> + '_ {
        self.raw.records[..RECORD * self.raw.count as usize].chunks_exact(RECORD).map(Record::read)
    }

    /// Whether there is no record.
    pub fn is_empty(&self) -> bool {
        self.raw.count == 0
    }
}

/// The open set with no record.
impl Default for OpenSet {
    fn default() -> OpenSet {
        OpenSet::new()
    }
}

/// The tag of a station: ten digits of its key and a check digit. Refusal: 11 key 0.
pub fn tag(key: u32) -> Result<String, Refusal> {
    let mut out = [0; TAG_ROOM];
    let len = calls::desk_tag(key, &mut out)?;
    Ok(out[..len].iter().map(|digit| char::from(*digit)).collect())
}

#[cfg(test)]
mod tests {
    use super::*;

    /// As `struct castorpedal_open_set` of the header: the count and the records, with nothing between or behind them.
    #[test]
    fn lies_as_in_c() {
        assert_eq!((size_of::<RawOpenSet>(), align_of::<RawOpenSet>()), (132, 4));
        assert_eq!(std::mem::offset_of!(RawOpenSet, records), 4);
    }
}
