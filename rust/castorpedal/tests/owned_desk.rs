//! The safe open set as a user meets it: visits typed and offered as sentences; and over seeded visits it is the paper's, and tells the same of
//! itself.

use castorpedal::{record, tag, OpenSet, Record, Refusal, Register, Sheet, Verdict};
use worlds::desk::{flawed_tag, station, visit, TAG_FLAWS};
use worlds::Rng;

#[test]
fn station_572() {
    assert_eq!(tag(572).as_deref(), Ok("00000005724"));
    assert_eq!(tag(u32::MAX).map(|t| t.len()), Ok(11));
    assert_eq!(tag(0), Err(Refusal::BadTag));
}

#[test]
fn a_set_is_typed_offered_and_closed() {
    let mut set = OpenSet::new();
    set.enter(record::CHANGE, "00000005724", 6).unwrap();
    set.enter(record::DELETE, tag(20).unwrap(), 0).unwrap();
    set.enter(record::INSERT, tag(30).unwrap(), u64::MAX).unwrap();
    let expected = [(record::DELETE, 20, 0), (record::INSERT, 30, u64::MAX), (record::CHANGE, 572, 6)];
    assert!(set.records().eq(expected.map(|(kind, key, value)| Record { kind, key, value })));

    let mut sheet = Sheet::open(1, 8).unwrap();
    set.offer(&mut sheet, 1, 1, 3).unwrap();
    assert!(set.is_empty() && set == OpenSet::default());
    sheet.notice(1, 3, 1).unwrap();
    let (next, verdicts) = Register::drawn_up(&[(20, 0), (572, 1)]).unwrap().close(&sheet).unwrap();
    assert_eq!(verdicts, [Verdict::Commit]);
    assert!(next.rows().map(|row| (row.key, row.value)).eq([(30, u64::MAX), (572, 6)]));
}

#[test]
fn a_refusal_leaves_set_and_sheet() {
    use Refusal::*;
    let (mut set, mut sheet) = (OpenSet::new(), Sheet::open(1, 8).unwrap());
    assert_eq!(set.offer(&mut sheet, 1, 1, 3), Err(OfferIllFormed));
    for key in 1..=8 {
        set.enter(record::CHANGE, tag(key).unwrap(), 1).unwrap();
    }
    let (full, opened) = (set.clone(), sheet.clone());
    assert_eq!(set.enter(0, "00000005724", 6), Err(OfferIllFormed));
    assert_eq!(set.enter(record::DELETE, "00000005724", 6), Err(OfferIllFormed));
    assert_eq!(set.enter(record::CHANGE, "00000005742", 6), Err(BadTag));
    assert_eq!(set.enter(record::CHANGE, tag(8).unwrap(), 6), Err(KeyEntered));
    assert_eq!(set.enter(record::CHANGE, "00000005724", 6), Err(NinthRecord));
    assert_eq!(set.offer(&mut sheet, 1, 2, 3), Err(OfferIllFormed));
    assert_eq!(set.offer(&mut sheet, 2, 1, 3), Err(WrongEpoch));
    assert_eq!(set.offer(&mut sheet, 1, 1, 4), Err(WrongRoster));
    assert_eq!((set, sheet), (full, opened));
}

/// Two different sets under one csn: the second offer is taken too.
#[test]
fn an_offer_that_spoils_is_no_refusal() {
    let mut sheet = Sheet::open(1, 8).unwrap();
    for value in [6, 7] {
        let mut set = OpenSet::new();
        set.enter(record::CHANGE, tag(10).unwrap(), value).unwrap();
        set.offer(&mut sheet, 1, 1, 3).unwrap();
        assert!(set.is_empty());
    }
    assert!(sheet.is_spoiled());
}

/// The set has the paper's records.
fn agree(set: &OpenSet, paper: &paper::OpenSet) {
    let records: Vec<Record> = paper.read().unwrap().iter().map(|r| Record { kind: r.kind as u8, key: r.key, value: r.value }).collect();
    assert_eq!(set.records().collect::<Vec<_>>(), records);
    assert_eq!((set.records().len(), set.is_empty()), (records.len(), records.is_empty()));
}

#[test]
fn seeded_visits() {
    let mut rng = Rng(9);
    let (mut entered, mut offered, mut refused) = (0, 0, 0);
    for _ in 0..400 {
        let (mut set, mut plain) = (OpenSet::new(), paper::OpenSet::EMPTY);
        let mut sheet = Sheet::open(2, 40).unwrap();
        for _ in 0..rng.below(30) {
            let key = station(&mut rng);
            let mut typed = visit(&mut rng, key);
            if rng.once_in(8) {
                let flaw = rng.pick(&TAG_FLAWS);
                typed.tag = flawed_tag(&mut rng, key, flaw);
            }
            let got = set.enter(typed.kind, &typed.tag, typed.value).map_err(Refusal::number);
            assert_eq!(got, paper::enter(&mut plain, typed.kind, &typed.tag, typed.value));
            agree(&set, &plain);
            *if got.is_ok() { &mut entered } else { &mut refused } += 1;
            assert_eq!(tag(key).unwrap().into_bytes(), paper::tag(key, 11).unwrap());
            if !rng.once_in(6) {
                continue;
            }
            let (epoch, sen, csn) = (1 + rng.pick(&[0, 1, 1, 1]), rng.below(4) as u32, rng.below(4) * 16 + rng.pick(&[3, 3, 5, 4]));
            let before = sheet.clone();
            let got = set.offer(&mut sheet, epoch, sen, csn).map_err(Refusal::number);
            let expected = paper::offer(&mut plain, before.bytes(), epoch, sen, csn, paper::SHEET_ROOM);
            assert_eq!(got, expected.as_ref().map(|_| ()).map_err(|n| *n));
            assert_eq!(sheet.bytes(), expected.as_deref().unwrap_or(before.bytes()));
            agree(&set, &plain);
            *if got.is_ok() { &mut offered } else { &mut refused } += 1;
        }
    }
    assert!(entered > 2000 && offered > 200 && refused > 1000, "{entered} entered, {offered} offered, {refused} refused");
}
