//! Bad input at the boundary: calls of every exported function on slices of any length and content, and on sessions that are begun,
//! answered well and badly, and forged. After each call the bytes around and in the slices are as `include/da728x.h` says, and what
//! was told is listed there.

mod choices;
mod functions;
mod hands;
mod patterns;
mod ranges;
mod rooms;
mod sessions;

pub use choices::Choices;
pub use functions::{FUNCTIONS, Function, Tally};
pub use hands::{Fault, FaultKind};

use hands::Hands;
use patterns::Patterns;
use sessions::Sessions;

/// How often each function is called: those that move a session on, and those that tell the most numbers, more often.
fn weight(function: Function) -> usize {
    match function {
        Function::da728x_answer => 24,
        Function::da728x_result => 3,
        Function::da728x_answers | Function::da728x_assemble_strict => 2,
        _ => 1,
    }
}

/// What the calls are made on, and what they came to.
pub struct Boundary<'a> {
    choices: Choices<'a>,
    hands: Hands,
    patterns: Patterns,
    sessions: Sessions,
    weighted: Vec<Function>,
}

impl<'a> Boundary<'a> {
    pub fn new(mut choices: Choices<'a>) -> Self {
        let weighted = FUNCTIONS.iter().flat_map(|(it, ..)| vec![*it; weight(*it)]).collect();
        let (patterns, sessions) = (Patterns::new(&mut choices), Sessions::new(&mut choices));
        Self { choices, hands: Hands::default(), patterns, sessions, weighted }
    }

    pub fn tally(&self) -> &Tally {
        &self.hands.tally
    }

    /// Prints the calls from here on.
    pub fn trace(&mut self) {
        self.hands.trace = true;
    }

    /// Makes this many calls, and those that end a session begun by the last of them.
    pub fn run(&mut self, calls: u64) {
        while self.tally().calls() < calls {
            self.step();
        }
    }

    /// Makes calls until the fuzzer's bytes are used up.
    pub fn run_tape(&mut self) {
        while !self.choices.ended() {
            self.step();
        }
    }

    /// Calls a function with this fault, up to so many times; how many faults were put in.
    pub fn run_faulty(&mut self, fault: Fault, calls: usize) -> u64 {
        self.hands.fault = Some(fault);
        for _ in 0..calls {
            self.call(fault.function);
        }
        self.hands.faults
    }

    fn step(&mut self) {
        if self.choices.chance(1) {
            return self.sessions.finish(&mut self.choices, &mut self.hands);
        }
        let function = self.choices.pick(&self.weighted);
        self.call(function);
    }

    fn call(&mut self, function: Function) {
        let Self { choices, hands, patterns, sessions, .. } = self;
        let at = function as usize;
        if at < Function::da728x_new as usize {
            patterns.call(function, choices, hands);
        } else if at < Function::da728x_voltage_settings as usize {
            sessions.call(function, choices, hands, patterns);
        } else {
            ranges::call(function, choices, hands);
        }
    }
}
