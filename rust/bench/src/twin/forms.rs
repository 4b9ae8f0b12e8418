//! The forms: registers and sheets examined, and a sheet that was examined, read by its sets.

pub const SHEET_ROOM: usize = 9240;
pub const REGISTER_ROOM: usize = 28680;
pub const VERDICT_ROOM: usize = 320;
pub const MAX_ROWS: usize = 1024;
pub const MAX_SETS: usize = 64;

/// The lengths of a register's head and row, and of a sheet's head, entry and record.
pub const REGISTER_HEAD: usize = 8;
pub const ROW: usize = 28;
pub const HEAD: usize = 24;
pub const ENTRY: usize = 16;
pub const RECORD: usize = 16;

pub const NO_NOTICE: u8 = 255;

pub type Row = [u8; ROW];
pub type Record = [u8; RECORD];

pub fn u16_at(b: &[u8], at: usize) -> u16 {
    u16::from_le_bytes(b[at..at + 2].try_into().unwrap())
}

pub fn u32_at(b: &[u8], at: usize) -> u32 {
    u32::from_le_bytes(b[at..at + 4].try_into().unwrap())
}

pub fn u64_at(b: &[u8], at: usize) -> u64 {
    u64::from_le_bytes(b[at..at + 8].try_into().unwrap())
}

pub const INSERT: u8 = 2;
pub const DELETE: u8 = 3;

pub fn kind(r: &Record) -> u8 {
    r[0]
}

pub fn key(r: &Record) -> u32 {
    u32_at(r, 4)
}

/// The rows of a register.
pub fn rows(register: &[u8]) -> &[Row] {
    register[REGISTER_HEAD..].as_chunks().0
}

pub fn row_key(row: &Row) -> u32 {
    u32_at(row, 0)
}

/// A row that no epoch has touched, without a value.
pub fn untouched(key: u32) -> Row {
    let mut row = [0; ROW];
    row[..4].copy_from_slice(&key.to_le_bytes());
    row
}

/// Gives a row the mark of an epoch, a sen and a csn.
pub fn stamp(row: &mut Row, cen: u32, sen: u32, csn: u64) {
    row[12..16].copy_from_slice(&cen.to_le_bytes());
    row[16..20].copy_from_slice(&sen.to_le_bytes());
    row[20..].copy_from_slice(&csn.to_le_bytes());
}

/// The first key of each set of which something holds, or 0.
pub type Table = [u32; MAX_SETS];

/// The verdicts, by the first key found wrong in each set and the first key lost; their length.
pub fn put_verdicts(out: &mut [u8], sheet: Sheet, wrong: &Table, lost: &Table) -> usize {
    let n = sheet.set_count();
    for (to, keys) in out.as_chunks_mut::<5>().0.iter_mut().zip(wrong.iter().zip(lost)).take(n) {
        let (code, key) = match keys {
            (0, 0) => (1, 0),
            (0, key) => (2, *key),
            (key, _) => (3, *key),
        };
        to[0] = code;
        to[1..].copy_from_slice(&key.to_le_bytes());
    }
    5 * n
}

pub fn is_register(b: &[u8]) -> bool {
    if b.len() < REGISTER_HEAD {
        return false;
    }
    let (snapshot, n) = (u32_at(b, 0), u32_at(b, 4) as usize);
    if n > MAX_ROWS || b.len() != REGISTER_HEAD + ROW * n {
        return false;
    }
    let mut prev = 0;
    for row in rows(b) {
        let (key, cen, sen) = (row_key(row), u32_at(row, 12), u32_at(row, 16));
        if key <= prev || cen > snapshot || sen > cen {
            return false;
        }
        prev = key;
    }
    true
}

/// Whether the records can be those of one set.
fn is_body(records: &[Record]) -> bool {
    let mut prev = 0;
    for r in records {
        // The kind and the three zero bytes behind it are read as one number.
        let (kind, key) = (u32_at(r, 0), key(r));
        if !matches!(kind, 1..=3) || key <= prev || kind == u32::from(DELETE) && u64_at(r, 8) != 0 {
            return false;
        }
        prev = key;
    }
    true
}

/// The 1 to 8 records that can be offered as a set.
pub fn offered(b: &[u8]) -> Option<&[Record]> {
    let (records, rest) = b.as_chunks();
    (rest.is_empty() && matches!(records.len(), 1..=8) && is_body(records)).then_some(records)
}

/// One walk over contents and bodies, which counts the sets of each master; then the notices.
pub fn is_sheet(b: &[u8]) -> bool {
    if b.len() < HEAD {
        return false;
    }
    let (epoch, roster, n) = (u32_at(b, 0), u16_at(b, 4), b[7] as usize);
    let state = b[6] == 0 || b[6] == 1 && n == 0 && b[8..HEAD] == [NO_NOTICE; 16];
    if epoch == 0 || roster == 0 || !state || n > MAX_SETS || b.len() < HEAD + ENTRY * n || b.len() % 16 != HEAD % 16 {
        return false;
    }
    let (contents, mut bodies) = b[HEAD..].as_chunks::<16>().0.split_at(n);
    let (mut by, mut prev, mut first) = ([0u8; 16], None, 0);
    for e in contents {
        let (csn, sen, count) = (u64_at(e, 0), u32_at(e, 8), u16_at(e, 14) as usize);
        let master = (csn % 16) as usize;
        if prev >= Some(csn) || sen > epoch || roster >> master & 1 == 0 {
            return false;
        }
        if u16_at(e, 12) as usize != first || !matches!(count, 1..=8) || bodies.len() < count {
            return false;
        }
        let (body, rest) = bodies.split_at(count);
        if !is_body(body) {
            return false;
        }
        by[master] += 1;
        prev = Some(csn);
        first += count;
        bodies = rest;
    }
    let sound = |m: usize| b[8 + m] == NO_NOTICE || roster >> m & 1 == 1 && b[8 + m] <= 64 && by[m] <= b[8 + m];
    bodies.is_empty() && (0..16).all(sound)
}

/// A sheet that was examined: its head, contents and bodies.
#[derive(Clone, Copy)]
pub struct Sheet<'a> {
    pub head: &'a [u8],
    contents: &'a [[u8; ENTRY]],
    pub bodies: &'a [Record],
}

impl<'a> Sheet<'a> {
    pub fn new(bytes: &'a [u8]) -> Sheet<'a> {
        let (head, rest) = bytes.split_at(HEAD);
        let (contents, bodies) = rest.as_chunks().0.split_at(head[7] as usize);
        Sheet { head, contents, bodies }
    }

    pub fn epoch(self) -> u32 {
        u32_at(self.head, 0)
    }

    pub fn roster(self) -> u16 {
        u16_at(self.head, 4)
    }

    pub fn in_roster(self, master: usize) -> bool {
        self.roster() >> master & 1 == 1
    }

    pub fn is_spoiled(self) -> bool {
        self.head[6] == 1
    }

    pub fn notices(self) -> &'a [u8] {
        &self.head[8..]
    }

    pub fn set_count(self) -> usize {
        self.contents.len()
    }

    /// The csn and the sen of set i.
    pub fn numbers(self, i: usize) -> (u64, u32) {
        let entry = &self.contents[i];
        (u64_at(entry, 0), u32_at(entry, 8))
    }

    /// Its sets in csn order.
    pub fn sets(self) -> Sets<'a> {
        Sets { contents: self.contents.iter(), bodies: self.bodies }
    }
}

#[derive(Clone, Copy, PartialEq, Eq)]
pub struct Set<'a> {
    pub csn: u64,
    pub sen: u32,
    pub records: &'a [Record],
}

impl<'a> Set<'a> {
    pub fn master(self) -> usize {
        (self.csn % 16) as usize
    }

    /// The record that it has for a key.
    pub fn record_of(self, k: u32) -> Option<&'a Record> {
        for r in self.records {
            if key(r) == k {
                return Some(r);
            }
        }
        None
    }
}

/// The sets that are left of a sheet. The bodies stand behind one another, so the counts alone say where each is.
pub struct Sets<'a> {
    contents: std::slice::Iter<'a, [u8; ENTRY]>,
    bodies: &'a [Record],
}

impl<'a> Iterator for Sets<'a> {
    type Item = Set<'a>;

    #[inline]
    fn next(&mut self) -> Option<Set<'a>> {
        let entry = self.contents.next()?;
        let (records, rest) = self.bodies.split_at(u16_at(entry, 14) as usize);
        self.bodies = rest;
        Some(Set { csn: u64_at(entry, 0), sen: u32_at(entry, 8), records })
    }
}
