//! A case file as it is filled: each call adds a case and the line that is printed of it, and hands back what was written.

use crate::forms::{keys_bytes, csns_bytes};
use paper::{Finding, OpenSet, Refusal, REGISTER_ROOM, SHEET_ROOM, TAG_ROOM, VERDICT_ROOM};

pub struct Book {
    pub name: &'static str,
    pub data: Vec<u8>,
    pub lines: String,
    room: usize,
    verdict_room: usize,
}

/// A case's numbers and inputs, as they stand in its head.
#[derive(Default)]
struct Case<'a> {
    operation: u8,
    epoch: u32,
    number: u32,
    csn: u64,
    inputs: [&'a [u8]; 3],
    room: usize,
    verdict_room: usize,
}

/// What is printed of bytes.
fn shown(bytes: &[u8]) -> String {
    let sum = |bytes: &[u8]| bytes.iter().fold(0u64, |s, b| (s * 256 + u64::from(*b)) % ((1 << 55) - 55));
    match bytes.len() {
        0 => String::new(),
        1..=320 => bytes.iter().fold(" ".into(), |s, b| format!("{s}{b:02x}")),
        _ => format!(" sum {}", sum(bytes)),
    }
}

/// What is printed of an answer, where something is told of a success.
fn told<T>(answer: &Result<T, Refusal>, success: impl Fn(&T) -> String) -> String {
    answer.as_ref().map(success).unwrap_or_else(|n| format!("refused {n}"))
}

/// What is printed of an operation that writes one buffer.
fn wrote(answer: &Result<Vec<u8>, Refusal>) -> String {
    told(answer, |b| format!("wrote {}{}", b.len(), shown(b)))
}

impl Book {
    pub fn new(name: &'static str) -> Book {
        Book { name, data: Vec::new(), lines: String::new(), room: 0, verdict_room: 0 }
    }

    /// The next case has buffers that are shorter by so many bytes, or longer where the number is negative.
    pub fn short_by(&mut self, room: isize, verdict_room: isize) -> &mut Book {
        self.room = room as usize;
        self.verdict_room = verdict_room as usize;
        self
    }

    fn rooms(&mut self, room: usize, verdict_room: usize) -> (usize, usize) {
        let rooms = (room.wrapping_sub(self.room), verdict_room.wrapping_sub(self.verdict_room));
        (self.room, self.verdict_room) = (0, 0);
        rooms
    }

    fn add(&mut self, step: &str, case: Case, answer: &str) {
        let label = format!("{:<24}", format!("{} {step}", self.name));
        assert!(label.len() == 24 && label.ends_with(" "), "{label} is too long");
        assert!(!self.lines.contains(&label), "{label} stands there twice");
        self.data.extend(label.bytes());
        self.data.extend([case.operation, 0, 0, 0]);
        self.data.extend(case.epoch.to_le_bytes());
        self.data.extend(case.number.to_le_bytes());
        self.data.extend(case.csn.to_le_bytes());
        for n in [case.inputs[0].len(), case.inputs[1].len(), case.inputs[2].len(), case.room, case.verdict_room] {
            self.data.extend((n as u32).to_le_bytes());
        }
        self.data.extend(case.inputs.concat());
        self.lines += &format!("{label}{answer}\n");
    }

    /// A case that writes a sheet: the sheet, or no byte where it is refused.
    fn sheet(&mut self, step: &str, case: Case, answer: Result<Vec<u8>, Refusal>) -> Vec<u8> {
        self.add(step, case, &wrote(&answer));
        answer.unwrap_or_default()
    }

    pub fn open(&mut self, step: &str, epoch: u32, roster: u16) -> Vec<u8> {
        let (room, _) = self.rooms(SHEET_ROOM, 0);
        let case = Case { operation: 1, epoch, number: roster.into(), room, ..Case::default() };
        self.sheet(step, case, paper::open(epoch, roster, room))
    }

    pub fn put(&mut self, step: &str, sheet: &[u8], epoch: u32, sen: u32, csn: u64, records: &[u8]) -> Vec<u8> {
        let (room, _) = self.rooms(SHEET_ROOM, 0);
        let case = Case { operation: 2, epoch, number: sen, csn, inputs: [sheet, records, &[]], room, ..Case::default() };
        self.sheet(step, case, paper::put(sheet, epoch, sen, csn, records, room))
    }

    pub fn notice(&mut self, step: &str, sheet: &[u8], epoch: u32, master: u8, count: u8) -> Vec<u8> {
        let (room, _) = self.rooms(SHEET_ROOM, 0);
        let (number, csn) = (master.into(), count.into());
        let case = Case { operation: 3, epoch, number, csn, inputs: [sheet, &[], &[]], room, ..Case::default() };
        self.sheet(step, case, paper::notice(sheet, epoch, master, count, room))
    }

    pub fn join(&mut self, step: &str, a: &[u8], b: &[u8]) -> Vec<u8> {
        let (room, _) = self.rooms(SHEET_ROOM, 0);
        let case = Case { operation: 4, inputs: [a, b, &[]], room, ..Case::default() };
        self.sheet(step, case, paper::join(a, b, room))
    }

    /// The next register, or no byte where closing is refused.
    pub fn close(&mut self, step: &str, register: &[u8], sheet: &[u8]) -> Vec<u8> {
        let (room, verdict_room) = self.rooms(REGISTER_ROOM, VERDICT_ROOM);
        let case = Case { operation: 5, inputs: [register, sheet, &[]], room, verdict_room, ..Case::default() };
        let answer = paper::close(register, sheet, room, verdict_room);
        let both = |c: &paper::Closing| {
            let (register, verdicts) = (&c.register, &c.verdicts);
            format!("wrote {}{} and {}{}", register.len(), shown(register), verdicts.len(), shown(verdicts))
        };
        self.add(step, case, &told(&answer, both));
        answer.map(|c| c.register).unwrap_or_default()
    }

    pub fn check(&mut self, step: &str, register: &[u8], mode: u8, lsn: u32, keys: &[u32], csns: &[u64]) {
        self.checked(6, step, register, mode, lsn, keys, csns);
        // three entries go over the lent list too
        if keys.len() == 3 && csns.len() == 3 {
            self.checked(7, &format!("{step}, list"), register, mode, lsn, keys, csns);
        }
    }

    fn checked(&mut self, operation: u8, step: &str, register: &[u8], mode: u8, lsn: u32, keys: &[u32], csns: &[u64]) {
        let (second, third) = (keys_bytes(keys), csns_bytes(csns));
        let case = Case { operation, epoch: mode.into(), number: lsn, inputs: [register, &second, &third], ..Case::default() };
        let found = |f: &Finding| match f.reason {
            0 => "pass".into(),
            _ => format!("fails {} {} {}", f.index, f.key, f.reason),
        };
        self.add(step, case, &told(&paper::check(register, mode, lsn, keys, csns), found));
    }

    /// The open set after it.
    pub fn enter(&mut self, step: &str, set: &OpenSet, kind: u8, tag: &[u8], value: u64) -> OpenSet {
        let mut after = *set;
        let answer = paper::enter(&mut after, kind, tag, value);
        let case = Case { operation: 8, epoch: kind.into(), csn: value, inputs: [&set.bytes(), tag, &[]], ..Case::default() };
        self.add(step, case, &(told(&answer, |_| "entered".into()) + &shown(&after.bytes())));
        after
    }

    /// The sheet, or no byte where the offer is refused.
    pub fn offer(&mut self, step: &str, set: &OpenSet, sheet: &[u8], epoch: u32, sen: u32, csn: u64) -> Vec<u8> {
        let (room, _) = self.rooms(SHEET_ROOM, 0);
        let mut after = *set;
        let answer = paper::offer(&mut after, sheet, epoch, sen, csn, room);
        let case = Case { operation: 9, epoch, number: sen, csn, inputs: [sheet, &set.bytes(), &[]], room, ..Case::default() };
        self.add(step, case, &(wrote(&answer) + " set" + &shown(&after.bytes())));
        answer.unwrap_or_default()
    }

    pub fn tag(&mut self, step: &str, key: u32) {
        let (room, _) = self.rooms(TAG_ROOM, 0);
        let case = Case { operation: 10, epoch: key, room, ..Case::default() };
        self.add(step, case, &wrote(&paper::tag(key, room)));
    }
}
