//! The owned sheets and registers, as a user meets them: the clerk's examples read as sentences, what is refused, and bytes back and forth.

use castorpedal::{record, Refusal, Register, Sheet, Verdict, REGISTER_ROOM};

/// Csns, each with its set's records.
type Sets<'a> = &'a [(u64, &'a [[u8; 16]])];

/// Register R of the clerk's examples.
fn r() -> Register {
    Register::drawn_up(&[(10, 1), (20, 0)]).unwrap()
}

/// The sheet of roster 40 with these sets, sen 1, and full notices.
fn sheet_of(sets: Sets) -> Sheet {
    let mut sheet = Sheet::open(1, 40).unwrap();
    for (csn, records) in sets {
        sheet.put(1, 1, *csn, &records.concat()).unwrap();
    }
    for master in [3, 5] {
        let sent = sets.iter().filter(|(csn, _)| csn % 16 == u64::from(master)).count();
        sheet.notice(1, master, sent as u8).unwrap();
    }
    sheet
}

/// R closed with these sets: the verdicts as the report prints them, and each row's five numbers.
fn closed(sets: Sets) -> (Vec<String>, Vec<[u64; 5]>) {
    let (next, verdicts) = r().close(&sheet_of(sets)).unwrap();
    let rows = next.rows().map(|r| [r.key.into(), r.value, r.cen.into(), r.sen.into(), r.csn]);
    (verdicts.iter().map(Verdict::to_string).collect(), rows.collect())
}

#[test]
fn example_a_the_smaller_csn_wins() {
    let (verdicts, rows) = closed(&[(3, &[record::change(10, 6)]), (5, &[record::change(10, 2)])]);
    assert_eq!(verdicts, ["commit 0", "lost 10"]);
    assert_eq!(rows, [[10, 6, 1, 1, 3], [20, 0, 0, 0, 0]]);
}

#[test]
fn example_c_a_lost_set_still_claims_and_leaves_no_trace() {
    let both = [record::change(10, 7), record::change(20, 7)];
    let (verdicts, rows) = closed(&[(3, &[record::change(10, 6)]), (5, &both), (19, &[record::change(20, 8)])]);
    assert_eq!(verdicts, ["commit 0", "lost 10", "lost 20"]);
    assert_eq!(rows, [[10, 6, 1, 1, 3], [20, 0, 0, 0, 0]]);
}

#[test]
fn example_d_an_unfit_set_claims_nothing() {
    let absent = [record::change(10, 6), record::change(30, 6)];
    let (verdicts, rows) = closed(&[(3, &absent), (5, &[record::change(10, 2)])]);
    assert_eq!(verdicts, ["unfit 30", "commit 0"]);
    assert_eq!(rows, [[10, 2, 1, 1, 5], [20, 0, 0, 0, 0]]);
}

#[test]
fn example_f_a_deleted_row_is_gone() {
    let (verdicts, rows) = closed(&[(3, &[record::delete(20)]), (5, &[record::change(20, 4)])]);
    assert_eq!(verdicts, ["commit 0", "lost 20"]);
    assert_eq!(rows, [[10, 1, 0, 0, 0]]);
}

/// Examples M, H, I and the second half of L.
#[test]
fn what_closing_refuses() {
    let sheet = sheet_of(&[(3, &[record::insert(30, 6)])]);
    let (next, _) = r().close(&sheet).unwrap();
    assert_eq!(next.close(&sheet), Err(Refusal::WrongEpoch));

    let mut clashing = sheet.clone();
    clashing.put(1, 1, 3, &record::insert(30, 7)).unwrap();
    assert!(clashing.is_spoiled());
    assert_eq!(r().close(&clashing), Err(Refusal::Spoiled));

    let mut without_notice = Sheet::open(1, 40).unwrap();
    without_notice.notice(1, 3, 0).unwrap();
    assert_eq!(r().close(&without_notice), Err(Refusal::Incomplete));
    assert_eq!([2, 3, 5, 15, 16, 255].map(|m| without_notice.noticed(m)), [None, Some(0), None, None, None, None]);

    let full: Vec<(u32, u64)> = (1001..=2024).map(|key| (key, 1)).collect();
    assert_eq!(Register::drawn_up(&full).unwrap().close(&sheet), Err(Refusal::TooManyRows));
}

#[test]
fn a_refusal_leaves_the_sheet() {
    use Refusal::*;
    let mut sheet = sheet_of(&[(3, &[record::change(10, 6)])]);
    let before = sheet.clone();
    assert_eq!(sheet.put(1, 1, 5, &record::change(0, 6)), Err(OfferIllFormed));
    assert_eq!(sheet.put(1, 2, 5, &record::change(10, 6)), Err(OfferIllFormed));
    assert_eq!(sheet.put(2, 1, 5, &record::change(10, 6)), Err(WrongEpoch));
    assert_eq!(sheet.put(1, 1, 4, &record::change(10, 6)), Err(WrongRoster));
    assert_eq!(sheet.notice(1, 16, 0), Err(OfferIllFormed));
    assert_eq!(sheet.notice(2, 3, 1), Err(WrongEpoch));
    assert_eq!(sheet.notice(1, 4, 1), Err(WrongRoster));
    assert_eq!(sheet.join(&Sheet::open(2, 40).unwrap()), Err(WrongEpoch));
    assert_eq!(sheet.join(&Sheet::open(1, 8).unwrap()), Err(WrongRoster));
    assert_eq!(sheet, before);
    assert_eq!((Sheet::open(0, 40), Sheet::open(1, 0)), (Err(WrongEpoch), Err(WrongRoster)));
}

/// The bytes, with each bit turned, cut everywhere, and with a byte more.
fn others(bytes: &[u8]) -> Vec<Vec<u8>> {
    let turned = |bit: usize| {
        let mut other = bytes.to_vec();
        other[bit / 8] ^= 1 << (bit % 8);
        other
    };
    let cut = (0..=bytes.len()).map(|n| bytes[..n].to_vec());
    (0..8 * bytes.len()).map(turned).chain(cut).chain([[bytes, &[0]].concat()]).collect()
}

/// Well-formed bytes give themselves back; the rest are refused with 2 and with 1, and the paper says which these are.
#[test]
fn from_bytes_and_back() {
    let sheet = sheet_of(&[(3, &[record::change(10, 6), record::delete(20)]), (5, &[record::insert(30, 2)])]);
    for bytes in others(sheet.bytes()) {
        let well_formed = paper::Sheet::read(&bytes).ok_or(Refusal::SheetIllFormed).map(|s| s.bytes());
        assert_eq!(Sheet::try_from(&bytes[..]).map(|s| s.bytes().to_vec()), well_formed);
    }
    let (register, _) = r().close(&sheet).unwrap();
    for bytes in others(register.bytes()) {
        let well_formed = paper::Register::read(&bytes).ok_or(Refusal::RegisterIllFormed).map(|r| r.bytes());
        assert_eq!(Register::try_from(&bytes[..]).map(|r| r.bytes().to_vec()), well_formed);
    }
}

#[test]
fn registers_are_drawn_up() {
    assert_eq!(Register::drawn_up(&[]), Ok(Register::default()));
    assert_eq!(Register::default().bytes(), [0; 8]);
    let full: Vec<(u32, u64)> = (1..=1024).map(|key| (key, u64::MAX)).collect();
    let drawn = Register::drawn_up(&full).unwrap();
    assert_eq!(drawn.snapshot(), 0);
    assert!(drawn.rows().all(|r| (r.cen, r.sen, r.csn) == (0, 0, 0)));
    assert_eq!(drawn.rows().map(|r| (r.key, r.value)).collect::<Vec<_>>(), full);
    assert_eq!(drawn.bytes().len(), REGISTER_ROOM);
    let over: Vec<(u32, u64)> = (1..=1025).map(|key| (key, 0)).collect();
    for rows in [&[(0, 1)][..], &[(20, 1), (10, 1)], &[(10, 1), (10, 1)], &over] {
        assert_eq!(Register::drawn_up(rows), Err(Refusal::RegisterIllFormed));
    }
}
