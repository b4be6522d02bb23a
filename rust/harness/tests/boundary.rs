//! Ten million calls on bad input, each held to the header (`harness::boundary`), and faults put into the calls, which have to be
//! noticed.

use harness::boundary::{Boundary, Choices, FUNCTIONS, Fault, FaultKind, Function};
use harness::{compared, text};
use std::panic::{self, AssertUnwindSafe};
use std::thread;

const CALLS: u64 = 10_000_000;

/// Every listed number is told by every function, and no other; nothing is written but what the header says.
#[test]
fn ten_million_calls() {
    let mut boundary = Boundary::new(Choices::seeded(0xDA7280, false));
    boundary.run(CALLS);
    let tally = boundary.tally();
    tally.lines().iter().for_each(|line| println!("{line}"));
    tally.assert_all_seen();
    assert!((CALLS..CALLS + 300).contains(&tally.calls()), "{} calls", tally.calls());
}

/// The functions called are those that the wrapper declares, which are the header's (tests/header.rs).
#[test]
fn every_function_is_called() {
    let declared = text("rust/wrapper/src/ffi.rs");
    let mut declared: Vec<&str> =
        declared.split("fn da728x_").skip(1).filter_map(|it| it.split('(').next()).collect();
    let mut called: Vec<&str> = FUNCTIONS.iter().map(|(_, name, _)| &name[7..]).collect();
    declared.sort();
    called.sort();
    assert_eq!(called, declared);
    compared("functions called", called.len(), 50);
}

/// Whether a fault is noticed in 400 calls; absent if it could be put into none of them.
fn noticed(fault: Fault) -> Option<bool> {
    let run = || {
        let mut boundary = Boundary::new(Choices::seeded(0xFA17, false));
        boundary.run_faulty(fault, 400)
    };
    match panic::catch_unwind(AssertUnwindSafe(run)) {
        Ok(0) => None,
        Ok(_) => Some(false),
        Err(_) => Some(true),
    }
}

fn faults(function: Function) -> Vec<Fault> {
    let within = [FaultKind::Before, FaultKind::Front, FaultKind::End, FaultKind::Behind];
    let slices = (0..3).flat_map(|slice| within.map(|kind| kind(slice)));
    let answers = [21, 255, 1 << 40].map(FaultKind::Answer);
    slices.chain(answers).map(|kind| Fault { function, kind }).collect()
}

/// A byte altered before, in or behind any slice, and another answer, in every function: all are noticed but those where only the
/// value tells, which other tests compare.
#[test]
fn faults_are_noticed() {
    let (here, told) = (thread::current().id(), panic::take_hook());
    panic::set_hook(Box::new(move |panic| {
        if thread::current().id() != here {
            told(panic);
        }
    }));
    let faults: Vec<Fault> = FUNCTIONS.iter().flat_map(|(it, ..)| faults(*it)).collect();
    let tried = faults.iter().filter_map(|fault| noticed(*fault).map(|it| (fault, it)));
    let (seen, missed): (Vec<_>, Vec<_>) = tried.partition(|(_, noticed)| *noticed);
    _ = panic::take_hook();
    let name = |(fault, _): &(&Fault, bool)| format!("{} {:?}", fault.function.name(), fault.kind);
    let mut missed: Vec<String> = missed.iter().map(name).collect();
    missed.retain(|it| !it.starts_with("da728x_re") || !it.ends_with(" Front(0)"));
    assert_eq!(missed, ["da728x_current_len Answer(21)"]);
    compared("faults noticed", seen.len(), 440);
}
