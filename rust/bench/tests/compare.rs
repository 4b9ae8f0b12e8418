//! `twin` and `rival` against the paper, on seeded cases: the answer and every lent byte of more than 20,000 calls.

use bench::lines::{assert_alike, Buffers, LINES};
use bench::{rival, twin};
use paper::{Mark, Register, Row, REGISTER_ROOM, SHEET_ROOM, VERDICT_ROOM};
use std::collections::{BTreeMap, BTreeSet};
use worlds::{crowded, damaged, eight, noticed, offer, record, register, sets_of, world, Rng, World};

/// Makes the calls, each with lent bytes full of noise, and keeps what was seen: the refusals, and 0 for a success.
struct Desk {
    rng: Rng,
    noise: Vec<u8>,
    calls: usize,
    seen: BTreeSet<(&'static str, u32)>,
}

impl Desk {
    fn new(seed: u64) -> Desk {
        let mut rng = Rng(seed);
        let noise = (0..REGISTER_ROOM + 100).map(|_| rng.next() as u8).collect();
        Desk { rng, noise, calls: 0, seen: BTreeSet::new() }
    }

    /// Mostly just enough room.
    fn room(&mut self, least: usize) -> usize {
        match self.rng.below(40) {
            0 => least - 1,
            1 => self.rng.below(least as u64) as usize,
            2..=6 => least + self.rng.below(100) as usize,
            _ => least,
        }
    }

    /// Whether these were written at the start of lent bytes, and all else is as it was.
    fn wrote(&self, written: &[u8], lent: &[u8]) -> bool {
        lent.starts_with(written) && lent[written.len()..] == self.noise[written.len()..lent.len()]
    }

    fn sheet(
        &mut self,
        what: &'static str,
        expected: impl Fn(usize) -> Result<Vec<u8>, u32>,
        call: impl Fn(&mut [u8]) -> Result<usize, u32>,
    ) -> Option<Vec<u8>> {
        let room = self.room(SHEET_ROOM);
        let (expected, mut out) = (expected(room), self.noise[..room].to_vec());
        let answer = call(&mut out);
        self.calls += 1;
        self.seen.insert((what, *expected.as_ref().err().unwrap_or(&0)));
        assert_eq!(answer, expected.as_ref().map(Vec::len).map_err(|x| *x), "{what}");
        assert!(self.wrote(expected.as_deref().unwrap_or(&[]), &out), "{what}: the lent bytes");
        expected.ok()
    }

    fn put(&mut self, s: &[u8], epoch: u32, sen: u32, csn: u64, r: &[u8]) -> Option<Vec<u8>> {
        self.sheet("put", |n| paper::put(s, epoch, sen, csn, r, n), |out| twin::put(s, epoch, sen, csn, r, out))
    }

    fn notice(&mut self, s: &[u8], epoch: u32, master: u8, count: u8) -> Option<Vec<u8>> {
        self.sheet("notice", |n| paper::notice(s, epoch, master, count, n), |out| twin::notice(s, epoch, master, count, out))
    }

    fn join(&mut self, a: &[u8], b: &[u8]) -> Option<Vec<u8>> {
        self.sheet("join", |n| paper::join(a, b, n), |out| twin::join(a, b, out))
    }

    /// Both closings; the next register, if they are not refused.
    fn close(&mut self, register: &[u8], sheet: &[u8]) -> Option<Vec<u8>> {
        let (room, told) = (self.room(REGISTER_ROOM), self.room(VERDICT_ROOM));
        let expected = paper::close(register, sheet, room, told);
        self.seen.insert(("close", *expected.as_ref().err().unwrap_or(&0)));
        let (rows, verdicts) = expected.as_ref().map_or((&[][..], &[][..]), |c| (&c.register, &c.verdicts));
        let lengths = expected.as_ref().map(|_| (rows.len(), verdicts.len())).map_err(|x| *x);
        for (who, close) in [("twin", twin::close as fn(&[u8], &[u8], &mut [u8], &mut [u8]) -> _), ("rival", rival::close)] {
            let (mut next, mut second) = (self.noise[..room].to_vec(), self.noise[..told].to_vec());
            self.calls += 1;
            assert_eq!(close(register, sheet, &mut next, &mut second), lengths, "{who}");
            assert!(self.wrote(rows, &next), "{who}: the bytes lent for a register");
            assert!(self.wrote(verdicts, &second), "{who}: the bytes lent for verdicts");
        }
        expected.ok().map(|c| c.register)
    }

    /// Offers dealt over sheets, with repeats, the sheets joined, and mostly full notices put in.
    fn gathered(&mut self, w: &World) -> Vec<u8> {
        let offers: Vec<_> = (0..self.rng.below(6)).map(|_| offer(&mut self.rng, w)).collect();
        let mut sheets = Vec::new();
        for _ in 0..1 + self.rng.below(3) {
            let mut sheet = paper::open(w.epoch, w.roster, SHEET_ROOM).unwrap();
            for o in &offers {
                for _ in 0..self.rng.below(3) {
                    let epoch = if self.rng.once_in(80) { self.rng.below(3) as u32 } else { w.epoch };
                    let given = damaged(&mut self.rng, sheet.clone(), 100);
                    sheet = self.put(&given, epoch, o.sen, o.csn, &o.records).unwrap_or(sheet);
                }
            }
            sheets.push(sheet);
        }
        let mut sheet = sheets.pop().unwrap();
        for other in sheets {
            let given = damaged(&mut self.rng, other, 100);
            sheet = self.join(&given, &sheet).unwrap_or(sheet);
        }
        let full = !self.rng.once_in(4);
        for m in w.masters.iter().copied().chain([self.rng.below(18) as u8].into_iter().filter(|_| !full)) {
            let sent = sets_of(&sheet, m);
            let count = if full { sent } else { self.rng.pick(&[sent, sent, sent + 1, sent.saturating_sub(1), 64, 65]) };
            let epoch = if self.rng.once_in(80) { self.rng.below(3) as u32 } else { w.epoch };
            let given = damaged(&mut self.rng, sheet.clone(), 100);
            sheet = self.notice(&given, epoch, m, count).unwrap_or(sheet);
        }
        sheet
    }

    fn saw(&self, what: &'static str, answers: &[u32]) {
        let seen: Vec<u32> = self.seen.iter().filter(|(w, _)| *w == what).map(|(_, x)| *x).collect();
        assert_eq!(seen, answers, "{what}: a success and the refusals that it can meet");
    }
}

/// Worlds gathered and closed, and sheets of other epochs and rosters joined.
#[test]
fn twenty_thousand_calls() {
    let mut d = Desk::new(1);
    let mut before: Vec<u8> = Vec::new();
    while d.calls < 20_000 {
        let w = world(&mut d.rng);
        let register = register(&mut d.rng, &w);
        let sheet = d.gathered(&w);
        d.join(&before, &sheet);
        let given = damaged(&mut d.rng, sheet.clone(), 50);
        if let Some(next) = d.close(&register, &given) {
            d.close(&next, &sheet);
        }
        before = sheet;
    }
    d.saw("put", &[0, 2, 3, 4, 5, 9]);
    d.saw("notice", &[0, 2, 3, 4, 5, 9]);
    d.saw("join", &[0, 2, 4, 5, 9]);
    d.saw("close", &[0, 1, 2, 4, 6, 7, 9]);
}

/// Many sets on few keys, so that most keys are fought over.
#[test]
fn crowded_epochs() {
    let mut d = Desk::new(2);
    for _ in 0..150 {
        let w = world(&mut d.rng);
        let register = register(&mut d.rng, &w);
        let sheet = crowded(&mut d.rng, &w);
        d.close(&register, &sheet);
    }
}

/// Every bit of a sheet and of a register turned, and every cut. Some keys and csns next to one another differ in one bit, so that a turn
/// makes them equal.
#[test]
fn every_byte_matters() {
    let mut d = Desk::new(3);
    let rows = [1, 3, 7, 15].map(|k| (k, Row { value: 5, mark: Mark { cen: 2, sen: 1, csn: 40 } })).into();
    let register = Register { snapshot: 2, rows }.bytes();
    let w = World { epoch: 3, roster: 40, masters: vec![3, 5], keys: vec![], times: 0 };
    let mut sheet = paper::open(3, 40, SHEET_ROOM).unwrap();
    for (sen, csn, kind, key) in [(1, 3, 1, 1), (2, 19, 3, 1), (3, 21, 2, 2)] {
        sheet = paper::put(&sheet, 3, sen, csn, &[record(kind, key, 0), record(1, 3, 4)].concat(), SHEET_ROOM).unwrap();
    }
    let sheet = noticed(sheet, &w);
    let turned = |bytes: &[u8], at: usize, bit: u8| {
        let mut other = bytes.to_vec();
        other[at] ^= 1 << bit;
        other
    };
    for at in 0..sheet.len() {
        for bit in 0..8 {
            d.join(&turned(&sheet, at, bit), &sheet);
            d.close(&register, &turned(&sheet, at, bit));
        }
        d.join(&sheet, &sheet[..at]);
    }
    for at in 0..register.len() {
        for bit in 0..8 {
            d.close(&turned(&register, at, bit), &sheet);
        }
        d.close(&register[..at], &sheet);
    }
}

/// 64 sets of 8 records over 1,024 rows, and one set more; an insert with a delete beside it, and alone.
#[test]
fn at_the_limits() {
    let mut d = Desk::new(4);
    let rows = (1..=1024).map(|k| (k, Row { value: 1, mark: Mark::FRESH })).collect();
    let register = Register { snapshot: 0, rows }.bytes();
    let w = World { epoch: 1, roster: 0xffff, masters: (0..16).collect(), keys: vec![], times: 0 };
    for (sets, delete, refused) in [(64, true, None), (64, false, Some(8)), (65, true, Some(6))] {
        let mut sheet = paper::open(1, 0xffff, SHEET_ROOM).unwrap();
        for i in 0..sets {
            let set = eight(i, delete);
            let before = sheet;
            d.put(&before, 1, 1, u64::from(i * 16 + i % 16), &set);
            sheet = paper::put(&before, 1, 1, u64::from(i * 16 + i % 16), &set, SHEET_ROOM).unwrap();
            d.join(&before, &sheet);
        }
        sheet = noticed(sheet, &w);
        assert_eq!(paper::close(&register, &sheet, REGISTER_ROOM, VERDICT_ROOM).err(), refused);
        for _ in 0..20 {
            d.close(&register, &sheet);
            d.join(&sheet, &sheet);
        }
    }
}

/// On the first inputs of each measured line twin and rival do as the library does, and the paper answers the same lengths.
#[test]
fn the_measured_lines() {
    for line in &LINES {
        let (inputs, mut buffers) = (line.inputs(), Buffers::all());
        assert_alike(line, &inputs[..4]);
        for (input, b) in inputs[..4].iter().zip(&mut buffers) {
            let answer = (line.library)(input, b);
            assert_eq!((line.paper)(input, b), answer, "{}", line.what);
            let expected = match line.name {
                "register" => Ok((0, 0)),
                "sheet" => Err(2),
                "few" | "crowded" => Ok((REGISTER_ROOM, VERDICT_ROOM)),
                "mixed" => answer.map(|(n, _)| (n, VERDICT_ROOM)),
                _ => Ok((SHEET_ROOM, 0)),
            };
            assert_eq!(answer, expected, "{}", line.what);
        }
    }
}

/// How many sets of a line's inputs commit, lose a key and are unfit, and how many of the keys that they name several sets name.
fn verdicts(name: &str) -> ([usize; 3], usize, usize) {
    let (mut codes, mut keys, mut several) = ([0; 3], 0, 0);
    for input in LINES.iter().find(|l| l.name == name).unwrap().inputs() {
        let closing = paper::close(&input.register, &input.sheet, REGISTER_ROOM, VERDICT_ROOM).unwrap();
        closing.verdicts.chunks(5).for_each(|v| codes[v[0] as usize - 1] += 1);
        let mut named = BTreeMap::new();
        let sets = paper::Sheet::read(&input.sheet).unwrap().offers.unwrap().sets;
        sets.iter().flat_map(|s| &s.records).for_each(|r| *named.entry(r.key).or_insert(0) += 1);
        keys += named.len();
        several += named.values().filter(|n| **n > 1).count();
    }
    (codes, keys, several)
}

/// The closings that are measured are what their lines say.
#[test]
fn the_measured_closings() {
    let ([commit, lost, unfit], keys, several) = verdicts("few");
    assert!(commit > 10 * 16 && lost > 16 && unfit == 0 && several * 20 < keys, "{commit} {lost} {unfit} {keys} {several}");
    let ([commit, lost, unfit], keys, several) = verdicts("crowded");
    assert!(commit > 0 && lost > 32 * 16 && unfit == 0 && several * 10 > keys * 9, "{commit} {lost} {unfit} {keys} {several}");
    let ([commit, lost, unfit], keys, several) = verdicts("mixed");
    assert!(commit > 32 * 16 && lost > 16 && unfit > 16 && several * 20 < keys, "{commit} {lost} {unfit} {keys} {several}");
}
