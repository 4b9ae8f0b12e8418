//! Calls that compare the proved library with the paper: the answer and every byte of every lent buffer and open set.
#![allow(dead_code)]

use castorpedal as lib;
use paper::OpenSet;
use worlds::Rng;

/// What an operation on one buffer must leave: the bytes at its start and all else as it was, or at a refusal all as it was.
fn one_buffer(expected: Result<Vec<u8>, u32>, before: &[u8], got: Result<usize, lib::Refusal>, after: &[u8]) -> Option<Vec<u8>> {
    match expected {
        Ok(bytes) => {
            assert_eq!(got, Ok(bytes.len()));
            assert_eq!(&after[..bytes.len()], bytes, "what is written");
            assert_eq!(&after[bytes.len()..], &before[bytes.len()..], "the bytes after it");
            Some(bytes)
        }
        Err(number) => {
            assert_eq!(got.map_err(|r| r as u32), Err(number));
            assert_eq!(after, before, "a refusal writes nothing");
            None
        }
    }
}

/// Lent buffers, filled with noise; mostly long enough.
pub struct Buffers {
    noise: Vec<u8>,
    out: Vec<u8>,
    second: Vec<u8>,
}

impl Buffers {
    pub fn new(rng: &mut Rng) -> Buffers {
        let mut noise = vec![0; 40_000];
        rng.fill(&mut noise);
        Buffers { out: noise.clone(), second: noise.clone(), noise }
    }

    fn lend(&mut self, rng: &mut Rng, room: usize) -> usize {
        let n = match rng.below(40) {
            0 => room - 1,
            1 => rng.below(room as u64) as usize,
            2..=6 => room + rng.below(100) as usize,
            _ => room,
        };
        self.out[..n].copy_from_slice(&self.noise[..n]);
        n
    }

    pub fn open(&mut self, rng: &mut Rng, epoch: u32, roster: u16) -> Option<Vec<u8>> {
        let n = self.lend(rng, lib::SHEET_ROOM);
        let got = lib::open(epoch, roster, &mut self.out[..n]);
        one_buffer(paper::open(epoch, roster, n), &self.noise[..n], got, &self.out[..n])
    }

    pub fn put(&mut self, rng: &mut Rng, sheet: &[u8], epoch: u32, sen: u32, csn: u64, records: &[u8]) -> Option<Vec<u8>> {
        let n = self.lend(rng, lib::SHEET_ROOM);
        let got = lib::put(sheet, epoch, sen, csn, records, &mut self.out[..n]);
        one_buffer(paper::put(sheet, epoch, sen, csn, records, n), &self.noise[..n], got, &self.out[..n])
    }

    pub fn notice(&mut self, rng: &mut Rng, sheet: &[u8], epoch: u32, master: u8, count: u8) -> Option<Vec<u8>> {
        let n = self.lend(rng, lib::SHEET_ROOM);
        let got = lib::notice(sheet, epoch, master, count, &mut self.out[..n]);
        one_buffer(paper::notice(sheet, epoch, master, count, n), &self.noise[..n], got, &self.out[..n])
    }

    pub fn join(&mut self, rng: &mut Rng, a: &[u8], b: &[u8]) -> Option<Vec<u8>> {
        let n = self.lend(rng, lib::SHEET_ROOM);
        let got = lib::join(a, b, &mut self.out[..n]);
        one_buffer(paper::join(a, b, n), &self.noise[..n], got, &self.out[..n])
    }

    /// The next register, where the closing is not refused.
    pub fn close(&mut self, rng: &mut Rng, register: &[u8], sheet: &[u8]) -> Option<Vec<u8>> {
        let n = self.lend(rng, lib::REGISTER_ROOM);
        let m = if rng.once_in(20) { rng.below(320) as usize } else { 320 + rng.below(9) as usize };
        self.second[..m].copy_from_slice(&self.noise[..m]);
        let got = lib::close(register, sheet, &mut self.out[..n], &mut self.second[..m]);
        match paper::close(register, sheet, n, m) {
            Ok(c) => {
                assert_eq!(got, Ok(lib::Closed { register: c.register.len(), verdicts: c.verdicts.len() }));
                one_buffer(Ok(c.verdicts.clone()), &self.noise[..m], Ok(c.verdicts.len()), &self.second[..m]);
                one_buffer(Ok(c.register.clone()), &self.noise[..n], Ok(c.register.len()), &self.out[..n])
            }
            Err(number) => {
                assert_eq!(got.map_err(|r| r as u32), Err(number));
                assert_eq!(&self.out[..n], &self.noise[..n]);
                assert_eq!(&self.second[..m], &self.noise[..m]);
                None
            }
        }
    }
}

/// An open set, between bytes that are nobody's to write.
#[repr(C)]
#[derive(Debug, PartialEq, Eq)]
struct Fenced {
    before: [u8; 32],
    set: lib::RawOpenSet,
    behind: [u8; 32],
}

fn fenced(set: &OpenSet) -> Fenced {
    Fenced { before: [0xa5; 32], set: lib::RawOpenSet { count: set.count, records: set.records }, behind: [0x5a; 32] }
}

/// The paper's answer; the open set is then as both leave it.
pub fn enter(set: &mut OpenSet, kind: u8, tag: &[u8], value: u64) -> Result<(), u32> {
    let mut lent = fenced(set);
    let got = lib::desk_enter(&mut lent.set, kind, tag, value);
    let before = *set;
    let expected = paper::enter(set, kind, tag, value);
    assert_eq!(got.map_err(|r| r as u32), expected, "{before:?} {kind} {tag:?} {value}");
    assert_eq!(lent, fenced(set), "the open set");
    expected
}

impl Buffers {
    /// The paper's answer; the open set is then as both leave it.
    pub fn offer(
        &mut self, rng: &mut Rng, set: &mut OpenSet, sheet: &[u8], epoch: u32, sen: u32, csn: u64,
    ) -> Result<Vec<u8>, u32> {
        let n = self.lend(rng, lib::SHEET_ROOM);
        let mut lent = fenced(set);
        let got = lib::desk_offer(&mut lent.set, sheet, epoch, sen, csn, &mut self.out[..n]);
        let expected = paper::offer(set, sheet, epoch, sen, csn, n);
        one_buffer(expected.clone(), &self.noise[..n], got, &self.out[..n]);
        assert_eq!(lent, fenced(set), "the open set");
        expected
    }

    pub fn tag(&mut self, rng: &mut Rng, key: u32) -> Result<Vec<u8>, u32> {
        let n = self.lend(rng, lib::TAG_ROOM);
        let got = lib::desk_tag(key, &mut self.out[..n]);
        let expected = paper::tag(key, n);
        one_buffer(expected.clone(), &self.noise[..n], got, &self.out[..n]);
        expected
    }
}

pub fn check(register: &[u8], mode: u8, lsn: u32, keys: &[u32], csns: &[u64]) {
    let plain = |f: paper::Finding| (f.index as usize, f.key, f.reason);
    let told = |c: lib::Checked| match c {
        lib::Checked::Pass => (0, 0, 0),
        lib::Checked::Fails { index, key, reason } => (index, key, reason as u32),
    };
    let expected = paper::check(register, mode, lsn, keys, csns).map(plain);
    assert_eq!(lib::check(register, mode, lsn, keys, csns).map(told).map_err(|r| r as u32), expected);
    if keys.len() == csns.len() {
        let reads: Vec<lib::Read> = keys.iter().zip(csns).map(|(key, csn)| lib::Read { key: *key, csn: *csn }).collect();
        assert_eq!(lib::check_reads(register, mode, lsn, &reads).map(told).map_err(|r| r as u32), expected);
    }
}
