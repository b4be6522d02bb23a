//! Calls every exported function on bad input, and prints how many calls there were of each and what they told:
//! `boundary CALLS SEED [--exact] [--trace CALL]`. With `--exact` every slice is a heap block of its own, for a memory checker;
//! with `--trace` the calls from that one on are printed before they are made.

use harness::boundary::{Boundary, Choices};
use std::env;

fn main() {
    let arguments: Vec<String> = env::args().skip(1).collect();
    let [calls, seed, options @ ..] = &arguments[..] else {
        panic!("boundary CALLS SEED [--exact] [--trace CALL]");
    };
    let number = |word: &String| -> u64 { word.parse().expect("a number") };
    let (mut exact, mut trace) = (false, None);
    let mut options = options.iter();
    while let Some(option) = options.next() {
        match option.as_str() {
            "--exact" => exact = true,
            "--trace" => trace = Some(options.next().map_or(0, number)),
            _ => panic!("{option}: no such option"),
        }
    }
    let mut boundary = Boundary::new(Choices::seeded(number(seed), exact));
    if let Some(first) = trace {
        boundary.run(first);
        boundary.trace();
    }
    boundary.run(number(calls));
    let tally = boundary.tally();
    tally.lines().iter().for_each(|line| println!("{line}"));
    println!("{} exchanges, {} sessions answered to their end", tally.exchanges, tally.finished);
    println!("{} records made, {} with settings stored", tally.made, tally.stored);
    println!(
        "counts of sequences: {} set to 0 by a start, {} by an answer, {} set to an image's",
        tally.begun, tally.emptied, tally.loaded
    );
    tally.assert_all_seen();
    println!("{} calls, each told and left what is listed", tally.calls());
}
