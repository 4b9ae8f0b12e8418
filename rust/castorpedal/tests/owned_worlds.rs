//! The owned sheets and registers over seeded worlds: they give what the functions on slices give, and the paper, and tell the same of
//! themselves; a refusal leaves a sheet as it was.

use castorpedal::{self as lib, record, Checked, Read, Refusal, Register, Row, Sheet, Verdict};
use worlds::Rng;

type Bytes = Result<Vec<u8>, Refusal>;

/// What an operation on a slice writes, into a buffer that is long enough.
fn written(operation: impl FnOnce(&mut [u8]) -> Result<usize, Refusal>) -> Bytes {
    let mut out = vec![0; lib::SHEET_ROOM];
    let len = operation(&mut out)?;
    out.truncate(len);
    Ok(out)
}

/// Holds a sheet to what the paper and the slice function give; at a refusal it is as it was before.
fn agree(sheet: &Sheet, before: Sheet, got: Result<(), Refusal>, slice: Bytes, paper: Result<Vec<u8>, u32>) {
    assert_eq!(slice.clone().map_err(Refusal::number), paper);
    match slice {
        Ok(bytes) => assert_eq!((got, sheet.bytes()), (Ok(()), &bytes[..])),
        Err(refusal) => assert_eq!((got, sheet), (Err(refusal), &before)),
    }
}

fn put(sheet: &mut Sheet, epoch: u32, sen: u32, csn: u64, records: &[u8]) {
    let before = sheet.clone();
    let got = sheet.put(epoch, sen, csn, records);
    let slice = written(|out| lib::put(before.bytes(), epoch, sen, csn, records, out));
    let paper = paper::put(before.bytes(), epoch, sen, csn, records, lib::SHEET_ROOM);
    agree(sheet, before, got, slice, paper);
}

fn notice(sheet: &mut Sheet, epoch: u32, master: u8, count: u8) {
    let before = sheet.clone();
    let got = sheet.notice(epoch, master, count);
    let slice = written(|out| lib::notice(before.bytes(), epoch, master, count, out));
    let paper = paper::notice(before.bytes(), epoch, master, count, lib::SHEET_ROOM);
    agree(sheet, before, got, slice, paper);
}

fn join(sheet: &mut Sheet, other: &Sheet) {
    let before = sheet.clone();
    let got = sheet.join(other);
    let slice = written(|out| lib::join(before.bytes(), other.bytes(), out));
    let paper = paper::join(before.bytes(), other.bytes(), lib::SHEET_ROOM);
    agree(sheet, before, got, slice, paper);
}

/// Opens a sheet, where neither epoch nor roster is 0.
fn open(epoch: u32, roster: u16) -> Option<Sheet> {
    let got = Sheet::open(epoch, roster);
    let slice = written(|out| lib::open(epoch, roster, out));
    assert_eq!(slice.clone().map_err(Refusal::number), paper::open(epoch, roster, lib::SHEET_ROOM));
    assert_eq!(got.clone().map(|s| s.bytes().to_vec()), slice);
    got.ok()
}

/// The verdicts as their bytes.
fn told(verdicts: &[Verdict]) -> Vec<u8> {
    let mut bytes = vec![];
    for verdict in verdicts {
        let (code, key) = match *verdict {
            Verdict::Commit => (1, 0u32),
            Verdict::Lost(key) => (2, key),
            Verdict::Unfit(key) => (3, key),
        };
        bytes.push(code);
        bytes.extend(key.to_le_bytes());
    }
    bytes
}

/// The next register, where the closing is not refused.
fn close(register: &Register, sheet: &Sheet) -> Option<Register> {
    let (mut next, mut verdicts) = (vec![0; lib::REGISTER_ROOM], vec![0; lib::VERDICT_ROOM]);
    let slice = lib::close(register.as_ref(), sheet.as_ref(), &mut next, &mut verdicts);
    let slice = slice.map(|c| (next[..c.register].to_vec(), verdicts[..c.verdicts].to_vec()));
    let got = register.close(sheet);
    assert_eq!(got.clone().map(|(r, v)| (r.bytes().to_vec(), told(&v))), slice);
    let paper = paper::close(register.bytes(), sheet.bytes(), lib::REGISTER_ROOM, lib::VERDICT_ROOM);
    assert_eq!(slice.map_err(Refusal::number), paper.map(|c| (c.register, c.verdicts)));
    let (next, verdicts) = got.ok()?;
    assert_eq!(verdicts.len(), sheet.csns().len());
    Some(next)
}

fn check(register: &Register, mode: u8, lsn: u32, reads: &[Read]) {
    let got = register.check(mode, lsn, reads);
    assert_eq!(got, lib::check_reads(register.bytes(), mode, lsn, reads));
    let found = got.map_err(Refusal::number).map(|c| match c {
        Checked::Pass => paper::Finding::default(),
        Checked::Fails { index, key, reason } => paper::Finding { index: index as u32, key, reason: reason.number() },
    });
    let (keys, csns): (Vec<u32>, Vec<u64>) = reads.iter().map(|r| (r.key, r.csn)).unzip();
    assert_eq!(found, paper::check(register.bytes(), mode, lsn, &keys, &csns));
}

/// A sheet tells of itself what the paper reads in its bytes, and is the same sheet from them.
fn reads_back_sheet(sheet: &Sheet) {
    let read = paper::Sheet::read(sheet.bytes()).unwrap();
    assert_eq!((sheet.epoch(), sheet.roster(), sheet.is_spoiled()), (read.epoch, read.roster, read.offers.is_none()));
    let csns: Vec<u64> = read.offers.iter().flat_map(|o| &o.sets).map(|s| s.csn).collect();
    assert_eq!(sheet.csns().collect::<Vec<_>>(), csns);
    let notices = read.offers.map_or([None; 16], |o| o.notices);
    assert_eq!(std::array::from_fn(|m| sheet.noticed(m as u8)), notices);
    assert_eq!(Sheet::try_from(sheet.bytes()).as_ref(), Ok(sheet));
}

fn reads_back_register(register: &Register) {
    let read = paper::Register::read(register.bytes()).unwrap();
    let row = |(key, r): (&u32, &paper::Row)| Row { key: *key, value: r.value, cen: r.mark.cen, sen: r.mark.sen, csn: r.mark.csn };
    assert_eq!((register.snapshot(), register.rows().len()), (read.snapshot, read.rows.len()));
    assert_eq!(register.rows().collect::<Vec<_>>(), read.rows.iter().map(row).collect::<Vec<_>>());
    assert_eq!(Register::try_from(register.bytes()).as_ref(), Ok(register));
}

/// One to three records on keys 1 to 6, now and then in the wrong order.
fn records(rng: &mut Rng) -> Vec<u8> {
    let mut keys: Vec<u32> = (0..1 + rng.below(3)).map(|_| 1 + rng.below(6) as u32).collect();
    if !rng.once_in(30) {
        keys.sort();
        keys.dedup();
    }
    let one = |key| match rng.below(8) {
        0 => record::insert(key, rng.next()),
        1 => record::delete(key),
        _ => record::change(key, rng.below(3)),
    };
    keys.into_iter().map(one).collect::<Vec<_>>().concat()
}

/// A sheet of an epoch with some sets of masters 3, 5 and 8, and now and then an offer that is refused.
fn gathered(rng: &mut Rng, epoch: u32) -> Option<Sheet> {
    let mut sheet = open(if rng.once_in(40) { 0 } else { epoch }, if rng.once_in(40) { 0 } else { 0x128 })?;
    for _ in 0..rng.below(6) {
        let master = if rng.once_in(30) { 4 } else { rng.pick(&[3, 5, 8]) };
        let offered = if rng.once_in(30) { epoch + 1 } else { epoch };
        let sen = rng.below(u64::from(epoch) + 1) as u32 + u32::from(rng.once_in(30));
        put(&mut sheet, offered, sen, rng.below(20) * 16 + master, &records(rng));
    }
    Some(sheet)
}

/// Notices for the sheet's sets, mostly full.
fn noticed(rng: &mut Rng, sheet: &mut Sheet) {
    for master in [3, 5, 8] {
        let sets = sheet.csns().filter(|csn| csn % 16 == u64::from(master)).count() as u8;
        let count = if rng.once_in(20) { rng.below(70) as u8 } else { sets };
        let master = if rng.once_in(40) { 4 } else { master };
        let epoch = sheet.epoch();
        notice(sheet, epoch, master, count);
    }
}

#[test]
fn seeded_worlds() {
    let mut rng = Rng(3);
    let (mut closed, mut spoiled) = (0, 0);
    for _ in 0..600 {
        let present: Vec<u32> = (1..=6).filter(|_| !rng.once_in(4)).collect();
        let rows: Vec<(u32, u64)> = present.into_iter().map(|key| (key, rng.next())).collect();
        let mut register = Register::drawn_up(&rows).unwrap();
        for epoch in 1..=4 {
            let (Some(mut sheet), Some(other)) = (gathered(&mut rng, epoch), gathered(&mut rng, epoch)) else { break };
            join(&mut sheet, &other);
            noticed(&mut rng, &mut sheet);
            reads_back_sheet(&sheet);
            spoiled += u32::from(sheet.is_spoiled());
            let Some(next) = close(&register, &sheet) else { break };
            reads_back_register(&next);
            closed += 1;
            let lsn = rng.below(u64::from(epoch) + 2) as u32;
            let reads: Vec<Read> = next.rows().map(|r| Read { key: r.key, csn: r.csn + u64::from(rng.once_in(9)) }).collect();
            for mode in 0..5 {
                check(&register, mode, lsn, &reads);
                check(&next, mode, lsn, &reads);
            }
            register = next;
        }
    }
    assert!(closed > 500 && spoiled > 100, "{closed} closed, {spoiled} spoiled");
}
