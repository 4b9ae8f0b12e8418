// What include/castorpedal.h declares. Nothing checks these lines against the library, so they are few and plain.
use crate::{RawOpenSet, Read};

#[repr(C)]
pub struct Answer {
    pub code: u32,
    pub len: u32,
}

#[repr(C)]
pub struct Closed {
    pub code: u32,
    pub register_len: u32,
    pub verdicts_len: u32,
}

#[repr(C)]
pub struct Checked {
    pub code: u32,
    pub index: u32,
    pub key: u32,
    pub reason: u32,
}

extern "C" {
    pub fn castorpedal_open(epoch: u32, roster: u16, out: *mut u8, out_len: usize) -> Answer;
    pub fn castorpedal_put(
        sheet: *const u8, sheet_len: usize, epoch: u32, sen: u32, csn: u64,
        records: *const u8, records_len: usize, out: *mut u8, out_len: usize,
    ) -> Answer;
    pub fn castorpedal_notice(
        sheet: *const u8, sheet_len: usize, epoch: u32, master: u8, count: u8, out: *mut u8, out_len: usize,
    ) -> Answer;
    pub fn castorpedal_join(a: *const u8, a_len: usize, b: *const u8, b_len: usize, out: *mut u8, out_len: usize) -> Answer;
    pub fn castorpedal_close(
        register: *const u8, register_len: usize, sheet: *const u8, sheet_len: usize,
        next: *mut u8, next_len: usize, verdicts: *mut u8, verdicts_len: usize,
    ) -> Closed;
    pub fn castorpedal_check(
        register: *const u8, register_len: usize, mode: u8, lsn: u32,
        keys: *const u32, keys_len: usize, csns: *const u64, csns_len: usize,
    ) -> Checked;
    pub fn castorpedal_check_reads(
        register: *const u8, register_len: usize, mode: u8, lsn: u32, reads: *const Read, reads_len: usize,
    ) -> Checked;
    pub fn castorpedal_desk_enter(set: *mut RawOpenSet, kind: u8, tag: *const u8, tag_len: usize, value: u64) -> u32;
    pub fn castorpedal_desk_offer(
        set: *mut RawOpenSet, sheet: *const u8, sheet_len: usize, epoch: u32, sen: u32, csn: u64, out: *mut u8, out_len: usize,
    ) -> Answer;
    pub fn castorpedal_desk_tag(key: u32, out: *mut u8, out_len: usize) -> Answer;
}

/// A number that the documents do not have is an answer of another library than this one.
pub fn unknown(what: &str, number: u32) -> ! {
    panic!("the library answered {what} {number}: library and wrapper do not belong together")
}
