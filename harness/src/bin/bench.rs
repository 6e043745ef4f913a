//! `bench [--samples N] [--naive]`: times the plain version and the engine in turn on the same
//! inputs, and prints medians as a Markdown table.

use harness::gen::{self, Rng};
use harness::naive::{Memory, Net, Order, Run, Transition};
use harness::{engine::ENGINE, name, paper, Engine, Outcome, FUNCTIONS, LIVE, LONGEST, NAIVE};
use harness::{CLOSE, FIRE, OPEN, OPERATIONS, PLAIN, WAIT};
use std::env;
use std::hint::black_box;
use std::process::ExitCode;
use std::time::{Duration, Instant};

const REPLAY: usize = 0;
const ROUND: usize = 1;
const TIMETABLE: usize = 2;
const PROCESS: usize = 3;
const RANK: usize = 4;
const JOIN: usize = 5;

/// The least time of one sample; the calls of a sample are as many as it takes.
const SAMPLE: Duration = Duration::from_micros(150);

const WARM_UP: Duration = Duration::from_millis(500);

/// Inputs of a function, each with its number if it takes one.
struct Workload {
    function: usize,
    name: &'static str,
    inputs: Vec<(Vec<u8>, u32)>,
}

// Workloads

fn typical_runs() -> Vec<Vec<u8>> {
    let atomic = paper::run(1, Memory::Atomic, 2, &[(3, 0), (3, 0), (0, 1)], 0);
    let resting = paper::run(1, Memory::Intermediate, 2, &[], 3);
    let waiting = paper::run(2, Memory::Intermediate, 1, &[(3, 0), (2, 1), (0, 2)], 0);
    let free = paper::run(3, Memory::Intermediate, 1, &[(1, 0), (0, 1), (2, 2)], 0);
    [
        (paper::net_a(), atomic),
        (paper::net_a(), resting),
        (paper::net_b(), waiting),
        (paper::net_c(), free),
    ]
    .iter()
    .map(gen::with_run)
    .collect()
}

fn typical_orders() -> Vec<Vec<u8>> {
    [
        (paper::net_a(), Memory::Atomic, [0, 0, 1].as_slice()),
        (paper::net_a(), Memory::Intermediate, &[0, 0, 1]),
        (paper::net_a(), Memory::Atomic, &[0, 0, 0, 0, 1]),
        (paper::net_a(), Memory::Intermediate, &[0, 0, 0, 0, 0, 1]),
        (paper::net_b(), Memory::Atomic, &[0, 1, 2]),
    ]
    .into_iter()
    .map(|(net, memory, fire)| {
        let order = paper::order(net.sheet, memory, fire);
        gen::with_order(&(net, order))
    })
    .collect()
}

fn typical_pairs() -> Vec<Vec<u8>> {
    let order = |waits: [u64; 3], fire: [usize; 3]| -> Vec<(u64, usize)> {
        waits.into_iter().zip(fire).collect()
    };
    let atomic = |denominator, waits| {
        let firings = order(waits, [0, 0, 1]);
        paper::run(1, Memory::Atomic, denominator, &firings, 0)
    };
    let free = |sheet, denominator, waits, rest| {
        let firings = order(waits, [0, 1, 2]);
        paper::run(sheet, Memory::Intermediate, denominator, &firings, rest)
    };
    [
        (paper::net_a(), atomic(1, [1, 1, 1]), atomic(2, [3, 3, 0])),
        (paper::net_a(), atomic(2, [2, 2, 2]), atomic(3, [3, 3, 3])),
        (
            paper::net_b(),
            free(2, 1, [3, 2, 0], 0),
            free(2, 4, [13, 7, 0], 0),
        ),
        (
            paper::net_c(),
            free(3, 1, [1, 0, 2], 0),
            free(3, 10, [10, 0, 20], 1),
        ),
    ]
    .iter()
    .map(gen::with_pair)
    .collect()
}

fn typical_nets() -> Vec<Vec<u8>> {
    [
        (paper::net_a(), paper::net_b(), vec![1, 2]),
        (paper::net_a(), paper::net_c(), vec![]),
        (paper::net_b(), paper::net_c(), vec![0, 0]),
        (paper::net_c(), paper::net_a(), vec![0, 0, 1, 1]),
    ]
    .iter()
    .map(gen::two_nets)
    .collect()
}

/// What a step of an open run is given: 0 for the firing is the transition of net A that may fire.
fn number(step: usize, next: u32) -> u32 {
    match step {
        WAIT | CLOSE => 1000,
        FIRE => next,
        _ => 0,
    }
}

/// Net A with a firing entered and the wait before the next, and without one.
fn typical_open_runs(step: usize) -> Vec<(Vec<u8>, u32)> {
    let begun = paper::run(1, Memory::Atomic, 2, &[(3, 0)], 3);
    let waiting = paper::run(1, Memory::Intermediate, 2, &[], 3);
    let of = |run| match step {
        OPEN => gen::with_opening(&(paper::net_a(), run)),
        _ => gen::with_run(&(paper::net_a(), run)),
    };
    let numbered = |run| (of(run), number(step, 0));
    [begun, waiting].map(numbered).to_vec()
}

/// The largest net with 64 firings entered; for a firing 63 and the wait before the last.
fn large_open_runs(step: usize, rng: &mut Rng) -> Vec<(Vec<u8>, u32)> {
    let make = || {
        let (net, run, next) = gen::large_open_run(rng, 63 + usize::from(step != FIRE));
        let input = match step {
            OPEN => gen::with_opening(&(net, run)),
            _ => gen::with_run(&(net, run)),
        };
        (input, number(step, next))
    };
    std::iter::repeat_with(make).take(8).collect()
}

fn several(make: impl FnMut() -> Vec<u8>) -> Vec<Vec<u8>> {
    std::iter::repeat_with(make).take(8).collect()
}

/// The sheet of the longest cards.
const SHEET: u64 = 9999;

/// The largest net with every transition alike.
fn uniform(tokens: u64, earliest: u64, latest: Option<u64>, weight: u64) -> Net {
    let transition = Transition {
        earliest,
        latest,
        take: vec![weight; 16],
        give: vec![weight; 16],
    };
    Net {
        sheet: SHEET,
        start: vec![tokens; 16],
        transitions: vec![transition; 32],
    }
}

/// 64 firings of the last transition with the longest waits, behind the longest net card.
fn longest_run(memory: Memory) -> (Net, Run) {
    let firings = vec![(10_000_000, 31); 64];
    let run = paper::run(SHEET, memory, 1, &firings, 10_000_000);
    (uniform(255, 100, None, 255), run)
}

/// Two of the longest runs, of which the end alone differs, by as much as it can.
fn longest_pair() -> (Net, Run, Run) {
    let (net, mut x) = longest_run(Memory::Intermediate);
    x.denominator = 1000;
    let mut y = x.clone();
    x.rest = 0;
    y.rest = 10_000_000;
    (net, x, y)
}

/// Two of the longest nets of 16 transitions, all places paired.
fn longest_nets() -> (Net, Net, Vec<u64>) {
    let mut net = uniform(255, 1000, Some(1000), 255);
    net.transitions.truncate(16);
    let pairs = (0..16).flat_map(|place| [place, place]).collect();
    (net.clone(), net, pairs)
}

/// Every firing takes tokens of two producers from every place.
fn longest_process() -> (Net, Run) {
    let firings: Vec<(u64, usize)> = (0..64).map(|at| (at, 31 - at as usize % 20)).collect();
    let run = paper::run(SHEET, Memory::Intermediate, 1, &firings, 0);
    (uniform(255, 0, None, 200), run)
}

/// Every wait has four digits and every transition number two.
fn longest_timetable() -> (Net, Order) {
    let fire: Vec<usize> = (0..64).map(|at| 31 - at % 20).collect();
    let order = paper::order(SHEET, Memory::Intermediate, &fire);
    (uniform(255, 1000, Some(1000), 255), order)
}

/// The hardest inputs of an operation, with their names.
fn worst(operation: usize) -> Vec<(&'static str, Vec<u8>)> {
    let longest = |input| ("worst: longest cards and answer", input);
    match operation {
        REPLAY => vec![longest(gen::with_run(&longest_run(Memory::Atomic)))],
        ROUND => vec![longest(gen::with_run(&longest_run(Memory::Intermediate)))],
        TIMETABLE => {
            let bends = gen::with_order(&gen::bends_to_the_last());
            let drift = gen::with_order(&gen::drift_to_the_last());
            vec![
                longest(gen::with_order(&longest_timetable())),
                ("worst: most sweeps", gen::with_order(&gen::most_sweeps())),
                ("worst: most bends, 8 at the last", bends),
                ("worst: slow gain, 8 at the last", drift),
            ]
        }
        RANK => vec![longest(gen::with_pair(&longest_pair()))],
        JOIN => vec![longest(gen::two_nets(&longest_nets()))],
        _ => vec![longest(gen::with_run(&longest_process()))],
    }
}

fn workloads() -> Vec<Workload> {
    let rng = &mut Rng::new(2026);
    let large_runs = several(|| gen::with_run(&gen::large_run(rng)));
    let large_orders = several(|| gen::with_order(&gen::large_order(rng)));
    let large_pairs = several(|| gen::with_pair(&gen::large_pair(rng)));
    let large_nets = several(|| gen::two_nets(&gen::large_nets(rng)));
    let numbered = |inputs: Vec<Vec<u8>>| inputs.into_iter().map(|input| (input, 0)).collect();
    let mut workloads = Vec::new();
    for operation in [REPLAY, ROUND, TIMETABLE, PROCESS, RANK, JOIN] {
        let (typical, large) = match operation {
            TIMETABLE => (typical_orders(), large_orders.clone()),
            RANK => (typical_pairs(), large_pairs.clone()),
            JOIN => (typical_nets(), large_nets.clone()),
            _ => (typical_runs(), large_runs.clone()),
        };
        let worst = worst(operation).into_iter();
        let worst = worst.map(|(name, input)| (name, vec![input]));
        let named = [("typical", typical), ("large", large)];
        for (name, inputs) in named.into_iter().chain(worst) {
            workloads.push(Workload {
                function: operation,
                name,
                inputs: numbered(inputs),
            });
        }
    }
    for step in 0..LIVE.len() {
        let function = OPERATIONS.len() + step;
        let typical = ("typical", typical_open_runs(step));
        let large = ("large", large_open_runs(step, rng));
        workloads.extend([typical, large].map(|(name, inputs)| Workload {
            function,
            name,
            inputs,
        }));
    }
    workloads
}

// Timing

/// The time of one sample, in nanoseconds a call.
fn sample(engine: &Engine, workload: &Workload, rounds: usize, output: &mut [u8]) -> f64 {
    let inputs = &workload.inputs;
    let start = Instant::now();
    match engine.operations.get(workload.function) {
        Some(operation) => {
            for _ in 0..rounds {
                for (input, _) in inputs {
                    black_box(operation(black_box(input), black_box(output)));
                }
            }
        }
        None => {
            let step = engine.live[workload.function - OPERATIONS.len()];
            for _ in 0..rounds {
                for (input, number) in inputs {
                    black_box(step(
                        black_box(input),
                        black_box(*number),
                        black_box(output),
                    ));
                }
            }
        }
    }
    start.elapsed().as_nanos() as f64 / (rounds * inputs.len()) as f64
}

/// The item at a fraction of the sorted list.
fn quantile(values: &mut [f64], fraction: f64) -> f64 {
    values.sort_by(f64::total_cmp);
    values[((values.len() - 1) as f64 * fraction).round() as usize]
}

struct Timed {
    plain: f64,
    other: f64,
    /// The median and the quarter points of the ratios of neighbouring samples, on which other load
    /// tells less than on the times.
    ratio: f64,
    ratios: (f64, f64),
}

fn time(workload: &Workload, other: &Engine, samples: usize, output: &mut [u8]) -> Timed {
    let sides = [&PLAIN, other];
    let rounds = sides.map(|side| {
        let call = sample(side, workload, 20, output);
        let round = call * workload.inputs.len() as f64;
        (SAMPLE.as_nanos() as f64 / round).ceil().max(1.0) as usize
    });
    let mut times = [const { Vec::new() }; 2];
    for index in 0..samples {
        // Each side goes first in every second sample.
        for turn in 0..2 {
            let side = (index + turn) % 2;
            times[side].push(sample(sides[side], workload, rounds[side], output));
        }
    }
    let mut ratios: Vec<f64> = times[1]
        .iter()
        .zip(&times[0])
        .map(|(other, plain)| other / plain)
        .collect();
    let [plain, other] = &mut times;
    Timed {
        plain: quantile(plain, 0.5),
        other: quantile(other, 0.5),
        ratio: quantile(&mut ratios, 0.5),
        ratios: (quantile(&mut ratios, 0.25), quantile(&mut ratios, 0.75)),
    }
}

/// Lets the processor reach its speed before the first row.
fn warm_up(workloads: &[Workload], other: &Engine, output: &mut [u8]) {
    let start = Instant::now();
    while start.elapsed() < WARM_UP {
        for workload in workloads {
            for engine in [&PLAIN, other] {
                sample(engine, workload, 1, output);
            }
        }
    }
}

/// What both sides make of a workload, if they agree: an answer's mean length, or the refusal.
fn outcome(workload: &Workload, other: &Engine) -> Option<String> {
    let mut lengths = 0;
    let mut refusal = None;
    for (input, number) in &workload.inputs {
        let (mut a, mut b) = (vec![0; LONGEST], vec![0; LONGEST]);
        let result = PLAIN.call(workload.function, *number, input, &mut a);
        if other.call(workload.function, *number, input, &mut b) != result || a != b {
            return None;
        }
        match Outcome::of(result) {
            Outcome::Answer { length } => lengths += length,
            Outcome::Refusal { number, place } => refusal = Some(format!("{number} at {place}")),
        }
    }
    Some(refusal.unwrap_or_else(|| (lengths / workload.inputs.len()).to_string()))
}

fn run(other: &Engine, samples: usize) -> bool {
    let mut output = vec![0; LONGEST];
    let workloads = workloads();
    warm_up(&workloads, other, &mut output);
    println!("| operation | input | bytes in | bytes out | plain ns | {} ns | ratio | half of the ratios |", other.name);
    println!("|---|---|---:|---:|---:|---:|---:|---|");
    let mut against = Vec::new();
    let mut large = [(0.0, 0.0); FUNCTIONS];
    for workload in &workloads {
        let Some(outcome) = outcome(workload, other) else {
            println!(
                "\nThe sides differ on {}, {}: run compare.",
                name(workload.function),
                workload.name
            );
            return false;
        };
        let bytes: usize = workload.inputs.iter().map(|(input, _)| input.len()).sum();
        let timed = time(workload, other, samples, &mut output);
        println!(
            "| {} | {} | {} | {outcome} | {:.0} | {:.0} | {:.2} | {:.2} to {:.2} |",
            name(workload.function),
            workload.name,
            bytes / workload.inputs.len(),
            timed.plain,
            timed.other,
            timed.ratio,
            timed.ratios.0,
            timed.ratios.1,
        );
        let typical = &mut large[workload.function];
        match workload.name {
            "typical" => {}
            "large" => *typical = (timed.plain, timed.other),
            _ => against.push(format!(
                "{} {}: plain {:.1}, {} {:.1}",
                name(workload.function),
                workload.name,
                timed.plain / typical.0,
                other.name,
                timed.other / typical.1,
            )),
        }
    }
    println!("\nTimes the large input's cost: {}.", against.join("; "));
    true
}

fn main() -> ExitCode {
    let mut samples = 801;
    let mut other = ENGINE;
    let mut arguments = env::args().skip(1);
    while let Some(argument) = arguments.next() {
        match argument.as_str() {
            "--naive" => other = NAIVE,
            "--samples" => match arguments.next().and_then(|text| text.parse().ok()) {
                Some(count) if count > 0 => samples = count,
                _ => return usage(),
            },
            _ => return usage(),
        }
    }
    match run(&other, samples) {
        true => ExitCode::SUCCESS,
        false => ExitCode::FAILURE,
    }
}

fn usage() -> ExitCode {
    eprintln!("usage: bench [--samples N] [--naive]");
    ExitCode::from(2)
}
