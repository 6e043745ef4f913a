//! `stack [BYTES [NAME]]`: runs each function of the engine, or the one named, on large cards, with an output that
//! holds the answer and with one that does not, in a thread with so small a stack; without a number, the one that
//! docs/EMBEDDING.md names.

use harness::gen::{self, Rng};
use harness::{engine::ENGINE, name, FIRE, FUNCTIONS, LONGEST, OPEN, OPERATIONS};
use std::hint::black_box;
use std::{env, thread};

/// What docs/EMBEDDING.md asks of a caller, in bytes, a function each.
const STACK: [usize; FUNCTIONS] = [
    16 * 1024,
    16 * 1024,
    16 * 1024,
    40 * 1024,
    16 * 1024,
    32 * 1024,
    32 * 1024,
    32 * 1024,
    32 * 1024,
    32 * 1024,
    32 * 1024,
    32 * 1024,
];

const TIMETABLE: usize = 2;
const RANK: usize = 4;
const JOIN: usize = 5;

/// Inputs, each with the number that a step of an open run takes.
fn inputs(function: usize) -> Vec<(Vec<u8>, u32)> {
    let rng = &mut Rng::new(64);
    let step = function.checked_sub(OPERATIONS.len());
    let mut inputs = vec![(Vec::new(), 0), (b"sheet=1\nplaces=16\n".to_vec(), 0)];
    for _ in 0..100 {
        inputs.push(match (function, step) {
            (TIMETABLE, _) => (gen::with_order(&gen::large_order(rng)), 0),
            (RANK, _) => (gen::with_pair(&gen::large_pair(rng)), 0),
            (JOIN, _) => (gen::two_nets(&gen::large_nets(rng)), 0),
            (_, Some(OPEN)) => (gen::with_opening(&gen::large_run(rng)), 0),
            (_, Some(step)) => {
                let (net, run, next) = gen::large_open_run(rng, 63 + usize::from(step != FIRE));
                let number = if step == FIRE { next } else { 1000 };
                (gen::with_run(&(net, run)), number)
            }
            _ => (gen::with_run(&gen::large_run(rng)), 0),
        });
    }
    if function == TIMETABLE {
        inputs.push((gen::with_order(&gen::most_sweeps()), 0));
        inputs.push((gen::with_order(&gen::bends_to_the_last()), 0));
    }
    if function == JOIN {
        // The line of pairs may be as long as it likes.
        let (first, second, _) = gen::large_nets(rng);
        inputs.push((gen::two_nets(&(first, second, vec![0; 30_000])), 0));
    }
    inputs
}

fn main() {
    let asked: Option<usize> = env::args()
        .nth(1)
        .map(|n| n.parse().expect("a number of bytes"));
    let only: Option<String> = env::args().nth(2);
    for (function, stack) in STACK.into_iter().enumerate() {
        let name = name(function);
        if only.as_ref().is_some_and(|o| o != name) {
            continue;
        }
        let inputs = inputs(function);
        let bytes = asked.unwrap_or(stack);
        thread::Builder::new()
            .stack_size(bytes)
            .spawn(move || {
                let mut output = vec![0; LONGEST];
                for (input, number) in &inputs {
                    black_box(ENGINE.call(function, *number, input, &mut output));
                    black_box(ENGINE.call(function, *number, input, &mut output[..10]));
                }
            })
            .expect("a thread")
            .join()
            .expect("the thread ends");
        println!("{name}: {bytes} bytes of stack are enough");
    }
}
