//! Comparison and benchmark harness for the engine that marks timed runs of weak time Petri nets.
//!
//! An [`Engine`] is twelve functions over lent bytes, six operations on cards and six on open runs.
//! Three of them are known: [`PLAIN`], written for speed; [`NAIVE`], written to be obviously right; and
//! [`engine::ENGINE`], the one under test.

pub mod engine;
pub mod gen;
pub mod naive;
pub mod paper;
pub mod plain;
pub mod session;

/// One operation: a net card and a run card, an order card, two run cards or a second net card and its
/// pairs in, the answer into the output.
///
/// A result from 0 up is the number of bytes written, a negative one `-(number * 65_536 + place)`.
pub type Operation = fn(&[u8], &mut [u8]) -> i64;

/// The names of the operations, in the order of [`Engine::operations`].
pub const OPERATIONS: [&str; 6] = ["replay", "round", "timetable", "process", "rank", "join"];

/// A function of open runs: opening one, a step, or a call on one that changes nothing.
///
/// An open run is its net card and, right behind it, the card of its steps so far, whose rest is the sum
/// of the waits since the last firing. `open` reads the net card and the lines `sheet`, `memory` and
/// `denominator` instead. The answer of opening, of a step and of closing is a run card. The number is
/// the parts to wait, the transition to fire or the rest to close with; the others leave it aside.
pub type Step = fn(&[u8], u32, &mut [u8]) -> i64;

/// The names of the functions of open runs, in the order of [`Engine::live`].
pub const LIVE: [&str; 6] = [
    "live_open",
    "live_wait",
    "live_fire",
    "live_close",
    "live_state",
    "live_timetable",
];

// Where each stands there.
pub const OPEN: usize = 0;
pub const WAIT: usize = 1;
pub const FIRE: usize = 2;
pub const CLOSE: usize = 3;
pub const STATE: usize = 4;
pub const TIMETABLE: usize = 5;

/// An implementation of the six operations and of open runs.
#[derive(Clone, Copy)]
pub struct Engine {
    pub name: &'static str,
    pub operations: [Operation; OPERATIONS.len()],
    pub live: [Step; LIVE.len()],
}

/// The operations and the functions of open runs, in this order.
pub const FUNCTIONS: usize = OPERATIONS.len() + LIVE.len();

/// The name of a function, by its place among all of them.
pub fn name(function: usize) -> &'static str {
    OPERATIONS
        .get(function)
        .unwrap_or_else(|| &LIVE[function - OPERATIONS.len()])
}

impl Engine {
    /// Calls a function, by its place among all of them; an operation leaves the number aside.
    pub fn call(&self, function: usize, number: u32, input: &[u8], out: &mut [u8]) -> i64 {
        match self.operations.get(function) {
            Some(operation) => operation(input, out),
            None => self.live[function - OPERATIONS.len()](input, number, out),
        }
    }
}

pub const PLAIN: Engine = Engine {
    name: "plain",
    operations: [
        plain::replay,
        plain::round,
        plain::timetable,
        plain::process,
        plain::rank,
        plain::join,
    ],
    live: [
        plain::live::open,
        plain::live::wait,
        plain::live::fire,
        plain::live::close,
        plain::live::state,
        plain::live::timetable,
    ],
};

pub const NAIVE: Engine = Engine {
    name: "naive",
    operations: [
        naive::replay,
        naive::round,
        naive::timetable,
        naive::process,
        naive::rank,
        naive::join,
    ],
    live: [
        naive::live::open,
        naive::live::wait,
        naive::live::fire,
        naive::live::close,
        naive::live::state,
        naive::live::timetable,
    ],
};

/// An output that holds every answer: the longest process stays below 22,000 bytes.
pub const LONGEST: usize = 24 * 1024;

/// An output that holds every answer about an open run.
pub const LIVE_LONGEST: usize = 2048;

/// A result, told apart.
#[derive(Clone, Copy, Debug, PartialEq, Eq)]
pub enum Outcome {
    Answer { length: usize },
    Refusal { number: u64, place: u64 },
}

impl Outcome {
    pub fn of(result: i64) -> Self {
        match usize::try_from(result) {
            Ok(length) => Outcome::Answer { length },
            Err(_) => {
                let code = result.unsigned_abs();
                Outcome::Refusal {
                    number: code / 65_536,
                    place: code % 65_536,
                }
            }
        }
    }
}

/// The answer, or the two lines of a refusal.
pub fn text(result: i64, mut output: Vec<u8>) -> Vec<u8> {
    match Outcome::of(result) {
        Outcome::Answer { length } => {
            output.truncate(length);
            output
        }
        Outcome::Refusal { number, place } => {
            format!("refused={number}\nplace={place}\n").into_bytes()
        }
    }
}

/// What the program prints.
pub fn printed(operation: Operation, input: &[u8]) -> Vec<u8> {
    let mut output = vec![0; LONGEST];
    text(operation(input, &mut output), output)
}
