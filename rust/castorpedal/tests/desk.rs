//! The desk of the proved library against the paper, on seeded calls: more than 100,000 a run, with every flaw that a tag or an open set can
//! have. What was met is counted, so that a run that meets too little fails.

mod common;

use common::{enter, Buffers};
use paper::{OpenSet, Sheet, SHEET_ROOM};
use std::collections::BTreeMap;
use worlds::desk::{flawed_set, flawed_tag, open_set, station, visit, SetFlaw, TagFlaw, SET_FLAWS, TAG_FLAWS};
use worlds::{crowded, damaged, offer, world, Rng, World};

/// How often each thing was met.
type Counts = BTreeMap<String, u64>;

struct Desk {
    rng: Rng,
    buffers: Buffers,
    calls: u64,
    met: Counts,
}

fn is_full(set: &OpenSet) -> bool {
    set.read().is_some_and(|records| records.len() == 8)
}

fn is_spoiled(sheet: &[u8]) -> bool {
    Sheet::read(sheet).is_some_and(|s| s.offers.is_none())
}

impl Desk {
    fn new(seed: u64) -> Desk {
        let mut rng = Rng(seed);
        Desk { buffers: Buffers::new(&mut rng), rng, calls: 0, met: Counts::new() }
    }

    fn meet(&mut self, what: impl Into<String>) {
        *self.met.entry(what.into()).or_default() += 1;
    }

    /// A call of an operation, and what it answered.
    fn called<T>(&mut self, operation: &str, answer: &Result<T, u32>) {
        self.calls += 1;
        match answer {
            Ok(_) => self.meet(format!("{operation} done")),
            Err(number) => self.meet(format!("{operation} refused {number}")),
        }
    }

    /// The set itself, or once in n times another with a flaw.
    fn perhaps_flawed(&mut self, set: &OpenSet, n: u64) -> (OpenSet, Option<SetFlaw>) {
        if !self.rng.once_in(n) {
            return (*set, None);
        }
        let flaw = self.rng.pick(&SET_FLAWS);
        (flawed_set(&mut self.rng, flaw), Some(flaw))
    }

    /// Types a visit, mostly a right one, into the set, or into one with a flaw.
    fn type_visit(&mut self, set: &mut OpenSet) {
        let rng = &mut self.rng;
        let key = station(rng);
        let mut typed = visit(rng, key);
        let flaw: Option<TagFlaw> = rng.once_in(6).then(|| rng.pick(&TAG_FLAWS));
        if let Some(flaw) = flaw {
            typed.tag = flawed_tag(rng, key, flaw);
        }
        let (mut given, broken) = self.perhaps_flawed(set, 10);
        let before = given;
        let answer = enter(&mut given, typed.kind, &typed.tag, typed.value);
        self.called("enter", &answer);
        if broken.is_none() {
            *set = given;
        }
        self.meet_flaws("enter", broken, flaw);
        let holds = before.read().is_some_and(|records| records.iter().any(|r| r.key == key));
        match answer {
            Err(3) if broken.is_some() && flaw.is_some() => self.meet("3 before 11"),
            Err(11) if flaw == Some(TagFlaw::CheckDigit) && holds => self.meet("11 before 12"),
            Err(11) if is_full(&before) => self.meet("11 before 13"),
            Err(12) if is_full(&before) => self.meet("12 before 13"),
            _ => {}
        }
    }

    fn meet_flaws(&mut self, operation: &str, set: Option<SetFlaw>, tag: Option<TagFlaw>) {
        if let Some(flaw) = set {
            self.meet(format!("{operation} set {flaw:?}"));
        }
        if let Some(flaw) = tag {
            self.meet(format!("{operation} tag {flaw:?}"));
        }
    }

    /// Offers the set, or one with a flaw, mostly to the sheet as it is: what the sheet then is.
    fn offer_set(&mut self, w: &World, set: &mut OpenSet, sheet: Vec<u8>) -> Vec<u8> {
        let rng = &mut self.rng;
        let o = offer(rng, w);
        let csn = if rng.once_in(15) { rng.below(16) } else { o.csn };
        let epoch = if rng.once_in(12) { rng.below(3) as u32 } else { w.epoch };
        let given_sheet = damaged(rng, sheet.clone(), 12);
        let (mut given, broken) = self.perhaps_flawed(set, 8);
        let empty = given == OpenSet::EMPTY;
        let answer = self.buffers.offer(&mut self.rng, &mut given, &given_sheet, epoch, o.sen, csn);
        self.called("offer", &answer);
        if broken.is_none() {
            *set = given;
        }
        self.meet_flaws("offer", broken, None);
        match &answer {
            Err(2) if broken.is_some() => self.meet("2 before 3"),
            Err(3) if broken.is_some() && epoch != w.epoch => self.meet("3 before 4"),
            Err(3) if empty => self.meet("an empty set offered"),
            Ok(_) if is_spoiled(&given_sheet) => self.meet("offered to a spoiled sheet"),
            Ok(written) if is_spoiled(written) => self.meet("spoiled by the offer"),
            _ => {}
        }
        answer.unwrap_or(sheet)
    }

    fn make_tag(&mut self) {
        let key = if self.rng.once_in(10) { 0 } else { station(&mut self.rng) };
        let answer = self.buffers.tag(&mut self.rng, key);
        self.called("tag", &answer);
    }

    /// An epoch's work at the desk: sets typed and offered to one sheet.
    fn epoch(&mut self) {
        let w = world(&mut self.rng);
        let mut sheet = if self.rng.once_in(30) { crowded(&mut self.rng, &w) } else { paper::open(w.epoch, w.roster, SHEET_ROOM).unwrap() };
        for _ in 0..1 + self.rng.below(5) {
            let count = if self.rng.once_in(3) { 5 + self.rng.below(4) as usize } else { 0 };
            let mut set = open_set(&mut self.rng, count);
            for _ in 0..self.rng.below(9) {
                self.type_visit(&mut set);
            }
            // A refused offer leaves the set for another.
            for _ in 0..1 + self.rng.below(2) {
                sheet = self.offer_set(&w, &mut set, sheet);
            }
            self.make_tag();
        }
    }
}

fn run(seed: u64, least: u64) -> Counts {
    let mut desk = Desk::new(seed);
    while desk.calls < least {
        desk.epoch();
    }
    desk.met
}

/// What must be met, and how often at least.
fn least() -> Counts {
    let mut least = Counts::new();
    let mut at_least = |n: u64, what: &str| least.insert(what.to_string(), n);
    for (operation, done, refused) in [("enter", 10_000, &[3, 11, 12, 13][..]), ("offer", 5_000, &[2, 3, 4, 5, 9]), ("tag", 5_000, &[9, 11])] {
        at_least(done, &format!("{operation} done"));
        for number in refused {
            at_least(300, &format!("{operation} refused {number}"));
        }
    }
    for flaw in SET_FLAWS {
        at_least(200, &format!("enter set {flaw:?}"));
        at_least(200, &format!("offer set {flaw:?}"));
    }
    for flaw in TAG_FLAWS {
        at_least(500, &format!("enter tag {flaw:?}"));
    }
    for order in ["3 before 11", "11 before 12", "11 before 13", "12 before 13", "2 before 3", "3 before 4"] {
        at_least(100, order);
    }
    for what in ["an empty set offered", "offered to a spoiled sheet", "spoiled by the offer"] {
        at_least(500, what);
    }
    least
}

#[test]
fn a_hundred_thousand_calls() {
    let mut met = Counts::new();
    std::thread::scope(|s| {
        let runs: Vec<_> = (1..=4).map(|seed| s.spawn(move || run(seed, 30_000))).collect();
        for counts in runs.into_iter().map(|run| run.join().unwrap()) {
            counts.into_iter().for_each(|(what, n)| *met.entry(what).or_default() += n);
        }
    });
    let least = least();
    assert!(met.keys().eq(least.keys()), "met {met:?}");
    for (what, n) in least {
        assert!(met[&what] >= n, "{what}: {} times, not {n}", met[&what]);
    }
}
