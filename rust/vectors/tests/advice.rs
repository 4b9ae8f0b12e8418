//! What docs/FORMS.md says of refusals 6, 7 and 8 and of the desk, tried on `paper`: what mends them, what does not, and what makes it worse.

use paper::{tagged, Mark, OpenSet, Register, Refusal, Row, REGISTER_ROOM, SHEET_ROOM, VERDICT_ROOM};

fn opened() -> Vec<u8> {
    paper::open(1, 40, SHEET_ROOM).unwrap()
}

fn put(sheet: &[u8], sen: u32, csn: u64, kind: u8, key: u32, value: u64) -> Vec<u8> {
    let record = [&[kind, 0, 0, 0][..], &key.to_le_bytes(), &value.to_le_bytes()].concat();
    paper::put(sheet, 1, sen, csn, &record, SHEET_ROOM).unwrap()
}

/// The sheet with what masters 3 and 5 noticed.
fn noticed(sheet: &[u8], three: u8, five: u8) -> Vec<u8> {
    let sheet = paper::notice(sheet, 1, 3, three, SHEET_ROOM).unwrap();
    paper::notice(&sheet, 1, 5, five, SHEET_ROOM).unwrap()
}

/// How many rows are left when the sheet is closed on a register of fresh rows 1, 2, .., or the refusal.
fn closed(rows: u32, sheet: &[u8]) -> Result<usize, Refusal> {
    let rows = (1..=rows).map(|key| (key, Row { value: 0, mark: Mark::FRESH })).collect();
    let register = Register { snapshot: 0, rows }.bytes();
    let closing = paper::close(&register, sheet, REGISTER_ROOM, VERDICT_ROOM)?;
    Ok(Register::read(&closing.register).unwrap().rows.len())
}

/// A depot without the clashing offer closes, until the spoiled sheet reaches it. No offer mends that one, and it does not tell its cause.
#[test]
fn spoiled() {
    let ours = noticed(&put(&opened(), 1, 3, 1, 10, 6), 1, 0);
    let spoiled = put(&ours, 0, 3, 1, 10, 6); // another sen alone
    assert_eq!(closed(20, &ours), Ok(20));
    assert_eq!(closed(20, &spoiled), Err(6));
    assert_eq!(closed(20, &paper::join(&ours, &spoiled, SHEET_ROOM).unwrap()), Err(6));
    assert_eq!(noticed(&put(&spoiled, 1, 3, 1, 10, 6), 1, 0), spoiled);
    assert_eq!(spoiled, put(&noticed(&opened(), 0, 0), 1, 3, 1, 10, 6)); // spoiled by a notice
}

/// What is missing mends it, joined; a set that came twice does not, and a notice made up spoils.
#[test]
fn incomplete() {
    let one = put(&opened(), 1, 3, 1, 10, 6);
    let waits = noticed(&one, 2, 0);
    assert_eq!(closed(20, &one), Err(7));
    assert_eq!(closed(20, &waits), Err(7));
    assert_eq!(closed(20, &put(&waits, 1, 3, 1, 10, 6)), Err(7));
    let second = put(&opened(), 1, 19, 1, 20, 9);
    assert_eq!(closed(20, &paper::join(&waits, &second, SHEET_ROOM).unwrap()), Ok(20));
    let made_up = noticed(&one, 1, 0);
    assert_eq!(closed(20, &paper::join(&made_up, &noticed(&opened(), 2, 0), SHEET_ROOM).unwrap()), Err(6));
}

/// A delete before the notices makes room; after them it spoils; one that is lost makes none.
#[test]
fn too_many_rows() {
    let insert = put(&opened(), 1, 3, 2, 5000, 1);
    assert_eq!(closed(1024, &noticed(&insert, 1, 0)), Err(8));
    assert_eq!(closed(1024, &put(&noticed(&insert, 1, 0), 1, 5, 3, 77, 0)), Err(6));
    let both = put(&insert, 1, 5, 3, 77, 0);
    assert_eq!(closed(1024, &noticed(&both, 1, 1)), Ok(1024));
    let lost = put(&put(&insert, 1, 21, 3, 77, 0), 1, 5, 1, 77, 8);
    assert_eq!(closed(1024, &noticed(&lost, 1, 2)), Err(8));
}

/// Changes of these stations to 6, typed.
fn typed(keys: impl IntoIterator<Item = u64>) -> OpenSet {
    let mut set = OpenSet::EMPTY;
    keys.into_iter().for_each(|key| paper::enter(&mut set, 1, &tagged(key), 6).unwrap());
    set
}

fn offered(mut set: OpenSet, sheet: &[u8], csn: u64) -> Vec<u8> {
    let sheet = paper::offer(&mut set, sheet, 1, 1, csn, SHEET_ROOM).unwrap();
    assert_eq!(set, OpenSet::EMPTY);
    sheet
}

/// The codes of the verdicts when the sheet is closed on twenty fresh rows.
fn codes(sheet: &[u8]) -> Vec<u8> {
    let rows = (1..=20).map(|key| (key, Row { value: 0, mark: Mark::FRESH })).collect();
    let register = Register { snapshot: 0, rows }.bytes();
    let verdicts = paper::close(&register, sheet, REGISTER_ROOM, VERDICT_ROOM).unwrap().verdicts;
    verdicts.chunks(5).map(|verdict| verdict[0]).collect()
}

/// 572's tag with a digit altered; with the check digit made to fit it is the tag of another station.
#[test]
fn bad_tag() {
    let mut set = OpenSet::EMPTY;
    assert_eq!(paper::enter(&mut set, 1, b"00000005224", 6), Err(11));
    let fitted = tagged(522);
    assert_eq!(fitted[..10], b"00000005224"[..10]);
    assert_eq!(paper::enter(&mut set, 1, &fitted, 6), Ok(()));
    assert_eq!(set.read().unwrap()[0].key, 522);
}

/// Of two sets of one epoch on one station one is lost.
#[test]
fn station_typed_twice() {
    assert_eq!(paper::enter(&mut typed([10]), 1, &tagged(10), 7), Err(12));
    let both = offered(typed([10]), &offered(typed([10]), &opened(), 3), 19);
    assert_eq!(codes(&noticed(&both, 2, 0)), [1, 2]);
}

/// The ninth visit in a set of its own: both commit, and the notice counts both.
#[test]
fn ninth_visit() {
    assert_eq!(paper::enter(&mut typed(1..=8), 1, &tagged(9), 6), Err(13));
    let both = offered(typed([9]), &offered(typed(1..=8), &opened(), 3), 19);
    assert_eq!(codes(&noticed(&both, 2, 0)), [1, 1]);
    assert_eq!(closed(20, &noticed(&both, 1, 0)), Err(6));
}

/// A refused offer is made again with what was typed; one that spoils, or meets a spoiled sheet, empties the open set all the same.
#[test]
fn offering() {
    let mut set = typed([10, 20]);
    assert_eq!(paper::offer(&mut set, &opened(), 2, 1, 3, SHEET_ROOM), Err(4));
    let sheet = offered(set, &opened(), 3);
    assert_eq!(codes(&noticed(&sheet, 1, 0)), [1]);
    let spoiled = offered(typed([10]), &sheet, 3);
    assert_eq!(closed(20, &spoiled), Err(6));
    assert_eq!(offered(typed([11]), &spoiled, 19), spoiled);
}
