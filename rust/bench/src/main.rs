//! `cargo run --release -p bench`: times of the proved library beside Rust, in the same run, and the stack that it uses.
//! `bench count LINE WHO [PASSES]` only makes the passes of one line, to be counted from outside, as `rust/bench/count` does.

mod clock;
mod stack;

use bench::inputs::Input;
use bench::lines::{assert_alike, bench_pass, Buffers, Call, Line, INPUTS, LINES};

const RUNS: usize = 100;

/// The median of the runs' times, in nanoseconds a call. A run is one pass.
fn median(call: Call, inputs: &[Input], buffers: &mut [Buffers]) -> f64 {
    let run = |_| {
        buffers.iter_mut().for_each(Buffers::clear);
        let start = clock::now();
        bench_pass(call, inputs, buffers);
        clock::now() - start
    };
    let mut times: Vec<i64> = (0..RUNS).map(run).collect();
    times.sort_unstable();
    times[RUNS / 2] as f64 / INPUTS as f64
}

fn print_line(line: &Line) {
    let (inputs, mut buffers) = (line.inputs(), Buffers::all());
    assert_alike(line, &inputs);
    let mut time = |call| median(call, &inputs, &mut buffers) / 1e3;
    let (library, twin, rival, paper) = (time(line.library), time(line.twin), line.rival.map(&mut time), time(line.paper));
    let shown = |x: Option<f64>| x.map_or(String::new(), |x| format!("{x:.2}"));
    let (by_twin, by_rival) = (library / twin, shown(rival.map(|r| library / r)));
    println!("{:<46} {library:>9.2} {twin:>9.2} {:>9} {paper:>9.2} {by_twin:>9.2} {by_rival:>9}", line.what, shown(rival));
}

fn print_times() {
    println!("Microseconds a call, thread CPU time. Each line has {INPUTS} seeded inputs, taken in rotation, each with buffers of its own.");
    println!("A run is one pass over them, and its time is divided by {INPUTS}; the median of {RUNS} runs is shown. Buffers are cleared before");
    println!("each run, outside the timed part. What library, twin and rival write is compared once for each line, before it is timed.");
    println!();
    let [what, library, twin, rival, paper, by_twin, by_rival] = ["", "library", "twin", "rival", "paper", "lib:twin", "lib:rival"];
    println!("{what:<46} {library:>9} {twin:>9} {rival:>9} {paper:>9} {by_twin:>9} {by_rival:>9}");
    LINES.iter().for_each(print_line);
}

/// The stack that the library uses at most on the first input of a line.
fn print_stack(what: &str, name: &str) {
    let line = LINES.iter().find(|l| l.name == name).unwrap();
    let (inputs, mut buffers) = (line.inputs(), Buffers::all());
    let used = stack::used(|| {
        (line.library)(&inputs[0], &mut buffers[0]).unwrap();
    });
    println!("stack used at most by a {what:<6} {used:>6} bytes");
}

/// Makes the passes over a line that are counted from outside.
fn count(line: &str, who: &str, passes: &str) -> Option<()> {
    let line = LINES.iter().find(|l| l.name == line)?;
    let (call, passes) = (line.call(who)?, passes.parse::<u32>().ok()?);
    let (inputs, mut buffers) = (line.inputs(), Buffers::all());
    (0..passes).for_each(|_| bench_pass(call, &inputs, &mut buffers));
    Some(())
}

fn main() {
    let args: Vec<String> = std::env::args().skip(1).collect();
    match args.iter().map(String::as_str).collect::<Vec<_>>()[..] {
        [] => {
            print_times();
            println!();
            print_stack("join:", "halves");
            print_stack("put:", "put");
            print_stack("close:", "few");
        }
        ["lines"] => LINES.iter().for_each(|l| println!("{}\t{}\t{}", l.name, l.rival.is_some(), l.what)),
        ["count", line, who] if count(line, who, "1").is_some() => {}
        ["count", line, who, passes] if count(line, who, passes).is_some() => {}
        _ => {
            eprintln!("bench | bench lines | bench count LINE library|twin|rival|paper [PASSES]");
            std::process::exit(2);
        }
    }
}
