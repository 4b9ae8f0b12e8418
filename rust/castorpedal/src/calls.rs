//! The functions on slices: one for each that the library exports, over buffers that the caller lends.
//!
//! All that is unsafe stands here. A slice is passed as its pointer and its length, and never null; the library reads and writes nothing
//! beyond them. Rust's own rules see to it that a buffer lent for writing overlaps no other.

use crate::reads::{Checked, Read, Reason};
use crate::{sys, RawOpenSet, Refusal};

/// The least length of a buffer for a sheet.
pub const SHEET_ROOM: usize = 9240;
/// The least length of a buffer for a register.
pub const REGISTER_ROOM: usize = 28680;
/// The least length of a buffer for verdicts.
pub const VERDICT_ROOM: usize = 320;
/// The length of a tag, and the least of a buffer for one.
pub const TAG_ROOM: usize = 11;

/// The lengths that closing wrote.
#[derive(Clone, Copy, Debug, PartialEq, Eq, Hash)]
pub struct Closed {
    /// The length of the next register.
    pub register: usize,
    /// The length of the verdicts.
    pub verdicts: usize,
}

fn answer(a: sys::Answer) -> Result<usize, Refusal> {
    Refusal::of(a.code)?;
    Ok(a.len as usize)
}

/// The sound sheet of an epoch and a roster, with no set and no notice. Refusals: 4 epoch 0, 5 roster 0, 9.
pub fn open(epoch: u32, roster: u16, out: &mut [u8]) -> Result<usize, Refusal> {
    answer(unsafe { sys::castorpedal_open(epoch, roster, out.as_mut_ptr(), out.len()) })
}

/// The sheet with one set more, given by its numbers and record bytes. Refusals: 2, 3, 4, 5, 9.
pub fn put(sheet: &[u8], epoch: u32, sen: u32, csn: u64, records: &[u8], out: &mut [u8]) -> Result<usize, Refusal> {
    answer(unsafe {
        sys::castorpedal_put(sheet.as_ptr(), sheet.len(), epoch, sen, csn, records.as_ptr(), records.len(), out.as_mut_ptr(), out.len())
    })
}

/// The sheet with a master's number of sets noticed. Refusals: 2, 3, 4, 5, 9.
pub fn notice(sheet: &[u8], epoch: u32, master: u8, count: u8, out: &mut [u8]) -> Result<usize, Refusal> {
    answer(unsafe { sys::castorpedal_notice(sheet.as_ptr(), sheet.len(), epoch, master, count, out.as_mut_ptr(), out.len()) })
}

/// The sheet of two sheets' offers together. Refusals: 2, 4, 5, 9.
pub fn join(a: &[u8], b: &[u8], out: &mut [u8]) -> Result<usize, Refusal> {
    answer(unsafe { sys::castorpedal_join(a.as_ptr(), a.len(), b.as_ptr(), b.len(), out.as_mut_ptr(), out.len()) })
}

/// The next register and the verdicts, five bytes a set. Refusals: 1, 2, 4, 6, 7, 8, 9.
pub fn close(register: &[u8], sheet: &[u8], next: &mut [u8], verdicts: &mut [u8]) -> Result<Closed, Refusal> {
    let c = unsafe {
        sys::castorpedal_close(
            register.as_ptr(), register.len(), sheet.as_ptr(), sheet.len(),
            next.as_mut_ptr(), next.len(), verdicts.as_mut_ptr(), verdicts.len(),
        )
    };
    Refusal::of(c.code)?;
    Ok(Closed { register: c.register_len as usize, verdicts: c.verdicts_len as usize })
}

fn checked(c: sys::Checked) -> Result<Checked, Refusal> {
    Refusal::of(c.code)?;
    Ok(match Reason::of(c.reason) {
        None => Checked::Pass,
        Some(reason) => Checked::Fails { index: c.index as usize, key: c.key, reason },
    })
}

/// Whether what was read still stands, the reads as keys and csns. Refusals: 1, 10.
pub fn check(register: &[u8], mode: u8, lsn: u32, keys: &[u32], csns: &[u64]) -> Result<Checked, Refusal> {
    checked(unsafe {
        sys::castorpedal_check(register.as_ptr(), register.len(), mode, lsn, keys.as_ptr(), keys.len(), csns.as_ptr(), csns.len())
    })
}

/// The same with the reads as a list of entries.
pub fn check_reads(register: &[u8], mode: u8, lsn: u32, reads: &[Read]) -> Result<Checked, Refusal> {
    checked(unsafe { sys::castorpedal_check_reads(register.as_ptr(), register.len(), mode, lsn, reads.as_ptr(), reads.len()) })
}

/// One record more in the open set, the station given by its tag. Refusals: 3, 11, 12, 13.
pub fn desk_enter(set: &mut RawOpenSet, kind: u8, tag: &[u8], value: u64) -> Result<(), Refusal> {
    Refusal::of(unsafe { sys::castorpedal_desk_enter(set, kind, tag.as_ptr(), tag.len(), value) })
}

/// The sheet with the open set put in, which is then empty. Refusals: 2, 3, 4, 5, 9.
pub fn desk_offer(set: &mut RawOpenSet, sheet: &[u8], epoch: u32, sen: u32, csn: u64, out: &mut [u8]) -> Result<usize, Refusal> {
    answer(unsafe { sys::castorpedal_desk_offer(set, sheet.as_ptr(), sheet.len(), epoch, sen, csn, out.as_mut_ptr(), out.len()) })
}

/// The tag of a key. Refusals: 11 key 0, then 9.
pub fn desk_tag(key: u32, out: &mut [u8]) -> Result<usize, Refusal> {
    answer(unsafe { sys::castorpedal_desk_tag(key, out.as_mut_ptr(), out.len()) })
}
