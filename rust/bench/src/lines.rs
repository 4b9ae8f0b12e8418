//! The lines that are measured: the inputs of each, and the call as the library, `twin`, `rival` and `paper` make it.

use crate::inputs::{self, Input, EPOCH};
use crate::{rival, twin};
use castorpedal as lib;
use std::hint::black_box;
use worlds::Rng;

/// How many inputs a line has.
pub const INPUTS: usize = 16;

/// The lengths written, or the number of a refusal.
pub type Answer = Result<(usize, usize), u32>;

pub type Call = fn(&Input, &mut Buffers) -> Answer;

/// What a call writes into.
#[derive(PartialEq, Eq)]
pub struct Buffers {
    pub out: Vec<u8>,
    pub next: Vec<u8>,
    pub verdicts: Vec<u8>,
}

impl Buffers {
    fn new() -> Buffers {
        Buffers { out: vec![0; lib::SHEET_ROOM], next: vec![0; lib::REGISTER_ROOM], verdicts: vec![0; lib::VERDICT_ROOM] }
    }

    /// One for each input.
    pub fn all() -> Vec<Buffers> {
        (0..INPUTS).map(|_| Buffers::new()).collect()
    }

    pub fn clear(&mut self) {
        self.out.fill(0);
        self.next.fill(0);
        self.verdicts.fill(0);
    }
}

/// A measured call.
pub struct Line {
    pub name: &'static str,
    pub what: &'static str,
    draw: fn(&mut Rng) -> Input,
    pub library: Call,
    pub twin: Call,
    pub rival: Option<Call>,
    pub paper: Call,
}

impl Line {
    pub fn inputs(&self) -> Vec<Input> {
        (1..=INPUTS as u64).map(|seed| (self.draw)(&mut Rng(seed))).collect()
    }

    pub fn call(&self, who: &str) -> Option<Call> {
        match who {
            "library" => Some(self.library),
            "twin" => Some(self.twin),
            "rival" => self.rival,
            "paper" => Some(self.paper),
            _ => None,
        }
    }
}

/// One pass over the inputs, each with buffers of its own: this is what is timed, and what is counted by its name.
#[no_mangle]
#[inline(never)]
pub fn bench_pass(call: Call, inputs: &[Input], buffers: &mut [Buffers]) {
    for (input, b) in inputs.iter().zip(buffers) {
        let _ = black_box(call(black_box(input), b));
    }
}

fn one(answer: Result<usize, lib::Refusal>) -> Answer {
    answer.map(|n| (n, 0)).map_err(|r| r as u32)
}

fn plain(answer: Result<usize, u32>) -> Answer {
    answer.map(|n| (n, 0))
}

/// The paper's answer is a vector of its own, and is not copied into the buffers.
fn made(answer: Result<Vec<u8>, u32>) -> Answer {
    answer.map(|bytes| (black_box(bytes).len(), 0))
}

/// In mode 1 and with no entries a read check only examines the register.
const EXAMINE_REGISTER: [Call; 3] = [
    |i, _| lib::check(&i.register, 1, 0, &[], &[]).map(|_| (0, 0)).map_err(|r| r as u32),
    |i, _| if twin::is_register(&i.register) { Ok((0, 0)) } else { Err(1) },
    |i, _| paper::Register::read(&i.register).map(|r| { black_box(r); (0, 0) }).ok_or(1),
];
const PUT: [Call; 3] = [
    |i, b| one(lib::put(&i.sheet, EPOCH, i.set.0, i.set.1, &i.set.2, &mut b.out)),
    |i, b| plain(twin::put(&i.sheet, EPOCH, i.set.0, i.set.1, &i.set.2, &mut b.out)),
    |i, b| made(paper::put(&i.sheet, EPOCH, i.set.0, i.set.1, &i.set.2, b.out.len())),
];
const NOTICE: [Call; 3] = [
    |i, b| one(lib::notice(&i.sheet, EPOCH, i.notice.0, i.notice.1, &mut b.out)),
    |i, b| plain(twin::notice(&i.sheet, EPOCH, i.notice.0, i.notice.1, &mut b.out)),
    |i, b| made(paper::notice(&i.sheet, EPOCH, i.notice.0, i.notice.1, b.out.len())),
];
const JOIN: [Call; 3] = [
    |i, b| one(lib::join(&i.sheet, &i.second, &mut b.out)),
    |i, b| plain(twin::join(&i.sheet, &i.second, &mut b.out)),
    |i, b| made(paper::join(&i.sheet, &i.second, b.out.len())),
];
const CLOSE: [Call; 3] = [
    |i, b| lib::close(&i.register, &i.sheet, &mut b.next, &mut b.verdicts).map(|c| (c.register, c.verdicts)).map_err(|r| r as u32),
    |i, b| twin::close(&i.register, &i.sheet, &mut b.next, &mut b.verdicts),
    |i, b| paper::close(&i.register, &i.sheet, b.next.len(), b.verdicts.len()).map(|c| (c.register.len(), c.verdicts.len())),
];
const RIVAL: Call = |i, b| rival::close(&i.register, &i.sheet, &mut b.next, &mut b.verdicts);

const fn line(name: &'static str, what: &'static str, draw: fn(&mut Rng) -> Input, calls: [Call; 3], rival: Option<Call>) -> Line {
    let [library, twin, paper] = calls;
    Line { name, what, draw, library, twin, rival, paper }
}

pub const LINES: [Line; 10] = [
    line("register", "examine a full register", inputs::full_register, EXAMINE_REGISTER, None),
    // Joining examines the first sheet and then refuses the second, which is empty.
    line("sheet", "examine a full sheet (64 x 8)", inputs::full_sheet, JOIN, None),
    line("put", "put the 64th set", inputs::last_set, PUT, None),
    line("notice", "put the 16th notice", inputs::last_notice, NOTICE, None),
    line("same", "join two full sheets of the same 64 sets", inputs::same_sets, JOIN, None),
    line("halves", "join two halves (32 + 32 sets)", inputs::two_halves, JOIN, None),
    line("shared", "join 43 and 43 sets, 22 of them shared", inputs::some_shared, JOIN, None),
    line("few", "close 64 x 8 over 1,024 rows, few conflicts", inputs::few_conflicts, CLOSE, Some(RIVAL)),
    line("crowded", "the same, most keys claimed by several sets", inputs::most_crowded, CLOSE, Some(RIVAL)),
    line("mixed", "the same, with inserts and deletes", inputs::inserts_and_deletes, CLOSE, Some(RIVAL)),
];

/// Twin and rival answer as the library does, and write the same bytes.
pub fn assert_alike(line: &Line, inputs: &[Input]) {
    let run = |call: Call| {
        let mut buffers = Buffers::all();
        let answers: Vec<Answer> = inputs.iter().zip(&mut buffers).map(|(i, b)| call(i, b)).collect();
        (answers, buffers)
    };
    let library = run(line.library);
    for call in [Some(line.twin), line.rival].into_iter().flatten() {
        assert!(run(call) == library, "{}: other answers than the library's", line.what);
    }
}
