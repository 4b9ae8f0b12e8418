//! A register that owns its bytes.

use crate::calls::{self, REGISTER_ROOM, VERDICT_ROOM};
use crate::verdict::{Verdict, VERDICT};
use crate::words::word;
use crate::{Checked, Read, Refusal, Sheet};

/// A snapshot and its rows. It is always well-formed; equal contents are equal bytes, so `==` compares the contents.
#[derive(Clone, Debug, PartialEq, Eq, Hash)]
pub struct Register {
    bytes: Vec<u8>,
}

/// A row of a register: key, value, and the mark of the set that last committed to it. Closing leaves a row that no committed set names as it
/// was, mark and all.
#[derive(Clone, Copy, Debug, PartialEq, Eq, Hash)]
pub struct Row {
    /// The pay station's key, not 0.
    pub key: u32,
    /// The pay station's value.
    pub value: u64,
    /// The mark's epoch; 0 while no set has committed to the row.
    pub cen: u32,
    /// The mark's start epoch.
    pub sen: u32,
    /// The mark's commit number.
    pub csn: u64,
}

/// The length of a head, and of a row after it.
const HEAD: usize = 8;
const ROW: usize = 28;

impl Register {
    /// The register of snapshot 0 with these keys and values, each row with the fresh mark. Refusal: 1 a key is 0, keys do not strictly
    /// ascend, or there are over 1,024 rows.
    pub fn drawn_up(rows: &[(u32, u64)]) -> Result<Register, Refusal> {
        let mut bytes = vec![0; HEAD + ROW * rows.len()];
        // A count that is cut to 32 bits is not that of the length, and so is refused too.
        bytes[4..HEAD].copy_from_slice(&(rows.len() as u32).to_le_bytes());
        for (row, (key, value)) in bytes[HEAD..].chunks_exact_mut(ROW).zip(rows) {
            row[..4].copy_from_slice(&key.to_le_bytes());
            row[4..12].copy_from_slice(&value.to_le_bytes());
        }
        Register::try_from(&bytes[..])
    }

    /// Closes the epoch: the next register, and a verdict for each set, in the order of [`Sheet::csns`]. Refusals: 4, 6, 7, 8.
    pub fn close(&self, sheet: &Sheet) -> Result<(Register, Vec<Verdict>), Refusal> {
        let (mut next, mut verdicts) = ([0; REGISTER_ROOM], [0; VERDICT_ROOM]);
        let closed = calls::close(&self.bytes, sheet.bytes(), &mut next, &mut verdicts)?;
        let register = Register { bytes: next[..closed.register].to_vec() };
        Ok((register, verdicts[..closed.verdicts].chunks_exact(VERDICT).map(Verdict::read).collect()))
    }

    /// Whether what a depot read still stands. Mode 1 is Read Committed, 2 Repeatable Read, 3 Snapshot Isolation with latest snapshot lsn;
    /// at most 32 reads. Refusal: 10.
    pub fn check(&self, mode: u8, lsn: u32, reads: &[Read]) -> Result<Checked, Refusal> {
        calls::check_reads(&self.bytes, mode, lsn, reads)
    }

    /// The number of the last epoch that was closed.
    pub fn snapshot(&self) -> u32 {
        u32::from_le_bytes(word(&self.bytes, 0))
    }

    /// The rows, their keys ascending.
    pub fn rows(&self) -> impl ExactSizeIterator<Item = Row> + '_ {
        self.bytes[HEAD..].chunks_exact(ROW).map(|row| Row {
            key: u32::from_le_bytes(word(row, 0)),
            value: u64::from_le_bytes(word(row, 4)),
            cen: u32::from_le_bytes(word(row, 12)),
            sen: u32::from_le_bytes(word(row, 16)),
            csn: u64::from_le_bytes(word(row, 20)),
        })
    }

    /// The register's bytes, as they are sent and stored.
    pub fn bytes(&self) -> &[u8] {
        &self.bytes
    }
}

/// The empty register: snapshot 0 and no row.
impl Default for Register {
    fn default() -> Register {
        Register { bytes: vec![0; HEAD] }
    }
}

impl AsRef<[u8]> for Register {
    fn as_ref(&self) -> &[u8] {
        &self.bytes
    }
}

/// The register that the bytes are. Refusal: 1.
impl TryFrom<&[u8]> for Register {
    type Error = Refusal;

    fn try_from(bytes: &[u8]) -> Result<Register, Refusal> {
        // A read check of no entry in mode 1 with lsn 0 has nothing else to refuse than the register's form.
        calls::check_reads(bytes, 1, 0, &[])?;
        Ok(Register { bytes: bytes.to_vec() })
    }
}
