//! A sheet that owns its bytes.

use crate::calls::{self, SHEET_ROOM};
use crate::words::word;
use crate::Refusal;

/// One epoch's sets and notices, gathered. It is always well-formed; equal contents are equal bytes, so `==` compares the contents.
///
/// A refusal leaves a sheet as it was.
#[derive(Clone, Debug, PartialEq, Eq, Hash)]
pub struct Sheet {
    bytes: Vec<u8>,
}

/// Where the notices stand in the head, one byte a master, and the byte for none.
const NOTICES: usize = 8;
const NO_NOTICE: u8 = 255;

/// The length of a head, and of an entry of the contents after it.
const HEAD: usize = 24;
const ENTRY: usize = 16;

impl Sheet {
    /// The sound sheet with no set and no notice. Bit m of the roster is master m. Refusals: 4 epoch 0, 5 roster 0.
    pub fn open(epoch: u32, roster: u16) -> Result<Sheet, Refusal> {
        written(|out| calls::open(epoch, roster, out))
    }

    /// Puts in a set, given by its numbers and the bytes of its 1 to 8 records (see [`record`](crate::record)). Refusals: 3, 4, 5.
    pub fn put(&mut self, epoch: u32, sen: u32, csn: u64, records: &[u8]) -> Result<(), Refusal> {
        *self = written(|out| calls::put(&self.bytes, epoch, sen, csn, records, out))?;
        Ok(())
    }

    /// Puts in the notice that a master sent this number of sets. Refusals: 3, 4, 5.
    pub fn notice(&mut self, epoch: u32, master: u8, count: u8) -> Result<(), Refusal> {
        *self = written(|out| calls::notice(&self.bytes, epoch, master, count, out))?;
        Ok(())
    }

    /// Puts in all that another sheet has. Refusals: 4 epochs differ, 5 rosters differ.
    pub fn join(&mut self, other: &Sheet) -> Result<(), Refusal> {
        *self = written(|out| calls::join(&self.bytes, &other.bytes, out))?;
        Ok(())
    }

    /// The epoch whose sets are gathered.
    pub fn epoch(&self) -> u32 {
        u32::from_le_bytes(word(&self.bytes, 0))
    }

    /// The roster; bit m is master m.
    pub fn roster(&self) -> u16 {
        u16::from_le_bytes(word(&self.bytes, 4))
    }

    /// Whether the offers contradict one another. That is final: neither this sheet nor any that it is joined to can be closed.
    pub fn is_spoiled(&self) -> bool {
        self.bytes[6] == 1
    }

    /// The csns of the sets, ascending. Closing gives its verdicts in the same order.
    pub fn csns(&self) -> impl ExactSizeIterator<Item = u64> + '_ {
        let sets = usize::from(self.bytes[7]);
        self.bytes[HEAD..HEAD + ENTRY * sets].chunks_exact(ENTRY).map(|entry| u64::from_le_bytes(word(entry, 0)))
    }

    /// How many sets a master of the roster noticed, if it did. Where closing is refused with 7, a master has no notice or fewer sets.
    pub fn noticed(&self, master: u8) -> Option<u8> {
        let notice = *self.bytes[NOTICES..HEAD].get(usize::from(master))?;
        (notice != NO_NOTICE).then_some(notice)
    }

    /// The sheet's bytes, as they are sent and stored.
    pub fn bytes(&self) -> &[u8] {
        &self.bytes
    }
}

impl AsRef<[u8]> for Sheet {
    fn as_ref(&self) -> &[u8] {
        &self.bytes
    }
}

/// The sheet that the bytes are. Refusal: 2.
impl TryFrom<&[u8]> for Sheet {
    type Error = Refusal;

    fn try_from(bytes: &[u8]) -> Result<Sheet, Refusal> {
        // The library examines what it joins, and a sheet joined with itself is the same sheet.
        written(|out| calls::join(bytes, bytes, out))
    }
}

/// The sheet that an operation writes.
pub(crate) fn written(operation: impl FnOnce(&mut [u8]) -> Result<usize, Refusal>) -> Result<Sheet, Refusal> {
    let mut out = [0; SHEET_ROOM];
    let len = operation(&mut out)?;
    Ok(Sheet { bytes: out[..len].to_vec() })
}
