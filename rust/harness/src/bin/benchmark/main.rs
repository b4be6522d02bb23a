//! Runs the published Rust and the library on the same inputs, and prints what each costs: time,
//! instructions where valgrind is on the PATH, and stack.
//!
//! `cargo run --release -p harness --bin benchmark`

mod stack;
mod works;

use std::env;
use std::hint::black_box;
use std::process::Command;
use std::time::Instant;
use works::{Done, Goal, Inputs, MERGED_FROM_CALLS, READING_THE_EXAMPLE, Side, WORKS, Work};

/// The C functions, without the wrapper's checks.
use harness::raw::ffi;

/// How many cases of each kind are timed, and how many are counted under valgrind.
const TIMED: usize = 20_000;
const COUNTED: usize = 1_000;

/// Above each pair of costs.
const HEADS: &str = "     Rust      this  ratio";

/// The best of this many runs is the time.
const RUNS: usize = 9;

fn main() {
    let words: Vec<String> = env::args().skip(1).collect();
    match &words[..] {
        [] => compare(),
        [work, side] => {
            let inputs = Inputs::new(COUNTED);
            let work: usize = work.parse().expect("the number of a work");
            measured(side_of(&WORKS[work], side).expect("a side"), &inputs);
        }
        _ => panic!("no arguments, or a work and a side"),
    }
}

fn side_of(work: &Work, side: &str) -> Option<Side> {
    if side == "theirs" { work.theirs } else { Some(work.ours) }
}

/// What valgrind counts.
#[unsafe(no_mangle)]
#[inline(never)]
extern "Rust" fn measured(side: Side, inputs: &Inputs) -> Done {
    black_box(side(black_box(inputs)))
}

fn compare() {
    let inputs = Inputs::new(TIMED);
    let small = Inputs::new(COUNTED);
    println!("{:33} {:^26} {:^26}", "", "instructions", "nanoseconds");
    println!("{:33} {HEADS} {HEADS}  goal", "what one (unit) costs");
    let mut before = Before::default();
    for (number, work) in WORKS.iter().enumerate() {
        let ours = work_of(number, "ours", &inputs, &small);
        let theirs = work.theirs.map(|_| work_of(number, "theirs", &inputs, &small));
        if let Some(theirs) = &theirs {
            assert_eq!(ours.done, theirs.done, "{}: both sides did the same", work.name);
        }
        let name = format!("{} ({})", work.name, work.unit);
        let pair =
            |pick: fn(&Cost) -> Option<f64>| columns(theirs.as_ref().and_then(pick), pick(&ours));
        let costs = [pair(|it| it.instructions), pair(|it| Some(it.nanoseconds))].join(" ");
        let theirs = theirs.as_ref().and_then(|it| it.instructions);
        before.building = before.building.or(ours.instructions);
        match work.name {
            READING_THE_EXAMPLE => before.counts = ours.instructions,
            MERGED_FROM_CALLS => before.calls = ours.instructions,
            _ => {}
        }
        let judged = judged(work.goal, ours.instructions, theirs, &before);
        println!("{name:33} {costs}  {judged}");
    }
    println!("\n{:33} {:>9} {:>9}", "bytes of stack", "Rust", "this");
    for (name, ours, theirs) in stack::depths(&small) {
        let theirs = theirs.map_or("-".into(), |it| it.to_string());
        println!("{name:33} {theirs:>9} {ours:>9}");
    }
}

/// The instructions of rows that others are held against: building an image, the counts of the example, and merged images from calls.
#[derive(Default)]
struct Before {
    building: Option<f64>,
    counts: Option<f64>,
    calls: Option<f64>,
}

/// The goal in words, and whether it is met.
fn judged(goal: Goal, ours: Option<f64>, theirs: Option<f64>, before: &Before) -> String {
    let (words, bound) = match goal {
        Goal::OfTheRust(times) => (format!("{times} of the Rust"), theirs.map(|it| it * times)),
        Goal::OfBuilding(times) => {
            (format!("{times} of building"), before.building.map(|it| it * times))
        }
        Goal::OfCounts(times) => {
            (format!("{times} of its counts"), before.counts.map(|it| it * times))
        }
        Goal::OfCalls(times) => {
            (format!("{times} of its calls"), before.calls.map(|it| it * times))
        }
        Goal::AtMost(bound) => (format!("{bound} instructions"), Some(bound)),
        Goal::Free => return String::new(),
    };
    match ours.zip(bound) {
        Some((ours, bound)) if ours <= bound => words + ": met",
        Some(_) => words + ": MISSED",
        None => words,
    }
}

/// Both numbers and their ratio.
fn columns(theirs: Option<f64>, ours: Option<f64>) -> String {
    let shown = |it: Option<f64>| it.map_or("-".into(), |it| format!("{it:.1}"));
    let ratio =
        theirs.zip(ours).map_or("-".into(), |(theirs, ours)| format!("{:.2}", ours / theirs));
    format!("{:>9} {:>9} {ratio:>6}", shown(theirs), shown(ours))
}

/// What one unit of a work costs.
struct Cost {
    done: Done,
    nanoseconds: f64,
    instructions: Option<f64>,
}

fn work_of(number: usize, side: &str, inputs: &Inputs, small: &Inputs) -> Cost {
    let run = side_of(&WORKS[number], side).expect("a side");
    let (mut best, mut done) = (f64::INFINITY, Done::default());
    for _ in 0..RUNS {
        let start = Instant::now();
        done = measured(run, inputs);
        best = best.min(start.elapsed().as_nanos() as f64 / done.count as f64);
    }
    let units = run(small).count as f64;
    Cost { done, nanoseconds: best, instructions: instructions(number, side).map(|it| it / units) }
}

/// The instructions of one side, as callgrind counts them; none without valgrind.
fn instructions(number: usize, side: &str) -> Option<f64> {
    let program = env::current_exe().expect("the path of this program");
    let output = Command::new("valgrind")
        .args(["--tool=callgrind", "--callgrind-out-file=/dev/null", "--toggle-collect=measured"])
        .arg(program)
        .args([&number.to_string(), side])
        .output()
        .ok()?;
    assert!(output.status.success(), "{}", String::from_utf8_lossy(&output.stderr));
    let text = String::from_utf8(output.stderr).expect("text");
    let line = text.lines().find_map(|line| line.split_once("Collected : ")).expect("a count");
    Some(line.1.trim().parse().expect("a number"))
}
