//! `compare [--seed S] [--count N] [--from I] [--naive] [--live] [--kinds]`: calls the plain version and
//! the engine (or the naive version) with the same generated inputs, and compares results and outputs.
//! Every fourth input is an open run, from its opening to its end; with `--live` all are.
//! The first differences are listed as they come, and the shortest input of each function at the end.

use harness::gen::{self, Rng, Script, Turn};
use harness::{engine::ENGINE, name, Engine, Outcome, FUNCTIONS, LIVE, LIVE_LONGEST, LONGEST};
use harness::{CLOSE, FIRE, NAIVE, OPEN, OPERATIONS, PLAIN, WAIT};
use std::collections::BTreeMap;
use std::env;
use std::process::ExitCode;

/// Bytes in front of and behind the lent output that must stay.
const GUARD: usize = 64;
/// Differences listed as they come.
const LISTED: u64 = 10;
/// Of so many inputs one is an open run.
const SHARE: u64 = 4;
/// An answer shorter than this is asked for into outputs of every length.
const SHORT: usize = 120;

/// One implementation, its own copy of the input, and the memory that its output is lent from.
struct Side {
    engine: Engine,
    input: Vec<u8>,
    area: Vec<u8>,
}

/// A function, by its place among all, with its number, and the length of its output.
#[derive(Clone, Copy)]
struct Call {
    function: usize,
    number: u32,
    length: usize,
}

impl Call {
    /// With an output that is always long enough.
    fn new(function: usize, number: u32) -> Self {
        Call {
            function,
            number,
            length: match function < OPERATIONS.len() {
                true => LONGEST,
                false => LIVE_LONGEST,
            },
        }
    }

    fn into(self, length: usize) -> Self {
        Call { length, ..self }
    }
}

impl Side {
    /// Calls a function on a copy of the input, the area filled with the pattern before.
    fn call(&mut self, call: Call, input: &[u8], pattern: &[u8]) -> i64 {
        let used = GUARD + call.length + GUARD;
        self.area[..used].copy_from_slice(&pattern[..used]);
        self.input.clear();
        self.input.extend_from_slice(input);
        let output = &mut self.area[GUARD..GUARD + call.length];
        self.engine
            .call(call.function, call.number, &self.input, output)
    }

    /// What is wrong whatever the answer should be: too long an answer, or bytes that had to stay, those
    /// of the input too.
    fn fault(
        &self,
        result: i64,
        length: usize,
        input: &[u8],
        pattern: &[u8],
    ) -> Option<&'static str> {
        if self.input != input {
            return Some("changed the cards that it was lent");
        }
        let written = match Outcome::of(result) {
            Outcome::Answer { length } => length,
            Outcome::Refusal { .. } => 0,
        };
        if written > length {
            return Some("claims more bytes than the output has");
        }
        let (front, behind, used) = (GUARD, GUARD + written, GUARD + length + GUARD);
        let kept = self.area[..front] == pattern[..front]
            && self.area[behind..used] == pattern[behind..used];
        (!kept).then_some("changed bytes that are not the answer's")
    }
}

/// A call on which the sides differ, or one of them is wrong by itself.
struct Difference {
    index: u64,
    kind: &'static str,
    call: Call,
    input: Vec<u8>,
    /// The first byte in the output that differs.
    first: Option<usize>,
    /// Each side's name, result, output and fault.
    sides: [(&'static str, i64, Vec<u8>, Option<&'static str>); 2],
}

fn described(result: i64) -> String {
    match Outcome::of(result) {
        Outcome::Answer { length } => format!("{length} bytes"),
        Outcome::Refusal { number, place } => format!("refused={number} place={place}"),
    }
}

/// Text with one line a line, other bytes escaped.
fn indented(text: &[u8]) -> String {
    text.split_inclusive(|&byte| byte == b'\n')
        .map(|line| match line.split_last() {
            Some((b'\n', line)) => format!("    {}\n", line.escape_ascii()),
            _ => format!("    {} (not ended)\n", line.escape_ascii()),
        })
        .collect()
}

impl Difference {
    fn head(&self) -> String {
        let [(plain, result, ..), (other, found, ..)] = &self.sides;
        let number = match self.call.function.checked_sub(OPERATIONS.len()) {
            Some(WAIT | FIRE | CLOSE) => format!(" {}", self.call.number),
            _ => String::new(),
        };
        format!(
            "differs: input {} ({}), {}{number} into {} bytes: {plain} {}, {other} {}",
            self.index,
            self.kind,
            name(self.call.function),
            self.call.length,
            described(*result),
            described(*found)
        )
    }

    fn show(&self) {
        println!("\n{}\n  input:", self.head());
        print!("{}", indented(&self.input));
        for (name, result, output, fault) in &self.sides {
            println!("  {name}: {}", described(*result));
            if let Outcome::Answer { length } = Outcome::of(*result) {
                print!("{}", indented(&output[..length.min(output.len())]));
            }
            if let Some(fault) = fault {
                println!("  {name} {fault}");
            }
        }
        if let Some(first) = self.first {
            println!("  first differing byte of the output: {first}");
        }
    }
}

#[derive(Default)]
struct Counts {
    inputs: u64,
    calls: u64,
    open_runs: u64,
    answers: [u64; FUNCTIONS],
    refusals: BTreeMap<u64, u64>,
    /// Inputs and answers by kind.
    kinds: BTreeMap<&'static str, (u64, [u64; FUNCTIONS])>,
    differences: u64,
}

impl Counts {
    fn summary(&self) -> String {
        let answers = self.answers.iter().enumerate();
        let answers: Vec<String> = answers
            .map(|(function, count)| format!("{} {count}", name(function)))
            .collect();
        let refusals = self.refusals.iter();
        let refusals: Vec<String> = refusals
            .map(|(number, count)| format!("{number}: {count}"))
            .collect();
        format!(
            "{} inputs, of which {} open runs, {} calls a side, {} answers ({}), refusals {}; {} differences",
            self.inputs,
            self.open_runs,
            self.calls,
            self.answers.iter().sum::<u64>(),
            answers.join(", "),
            refusals.join(", "),
            self.differences,
        )
    }
}

struct Comparison {
    pattern: Vec<u8>,
    plain: Side,
    other: Side,
    counts: Counts,
    /// The kind and the index of the input.
    kind: &'static str,
    index: u64,
    /// The shortest input found for each function.
    shortest: [Option<Difference>; FUNCTIONS],
}

impl Comparison {
    fn new(other: Engine, rng: &mut Rng) -> Self {
        let pattern: Vec<u8> = (0..GUARD + LONGEST + GUARD)
            .map(|_| rng.draw() as u8)
            .collect();
        let side = |engine| Side {
            engine,
            input: Vec::new(),
            area: pattern.clone(),
        };
        Comparison {
            plain: side(PLAIN),
            other: side(other),
            counts: Counts::default(),
            shortest: [const { None }; FUNCTIONS],
            kind: "",
            index: 0,
            pattern,
        }
    }

    /// Compares one call of both sides; the plain version's result.
    fn call(&mut self, call: Call, input: &[u8]) -> i64 {
        let pattern = &self.pattern;
        let result = self.plain.call(call, input, pattern);
        let found = self.other.call(call, input, pattern);
        self.counts.calls += 1;
        let used = GUARD + call.length + GUARD;
        let faults = [
            self.plain.fault(result, call.length, input, pattern),
            self.other.fault(found, call.length, input, pattern),
        ];
        let same = result == found && self.plain.area[..used] == self.other.area[..used];
        if !same || faults != [None, None] {
            let output = |side: &Side| side.area[GUARD..GUARD + call.length].to_vec();
            let (a, b) = (output(&self.plain), output(&self.other));
            self.differs(Difference {
                index: self.index,
                kind: self.kind,
                call,
                input: input.to_vec(),
                first: a.iter().zip(&b).position(|(a, b)| a != b),
                sides: [
                    (self.plain.engine.name, result, a, faults[0]),
                    (self.other.engine.name, found, b, faults[1]),
                ],
            });
        }
        result
    }

    fn differs(&mut self, difference: Difference) {
        self.counts.differences += 1;
        if self.counts.differences <= LISTED {
            println!("{}", difference.head());
        }
        let shortest = &mut self.shortest[difference.call.function];
        if shortest
            .as_ref()
            .is_none_or(|known| known.input.len() > difference.input.len())
        {
            *shortest = Some(difference);
        }
    }

    fn count(&mut self, function: usize, result: i64) {
        match Outcome::of(result) {
            Outcome::Answer { .. } => {
                self.counts.answers[function] += 1;
                self.counts.kinds.entry(self.kind).or_default().1[function] += 1;
            }
            Outcome::Refusal { number, .. } => {
                *self.counts.refusals.entry(number).or_default() += 1;
            }
        }
    }

    /// Begins with the next input.
    fn begin(&mut self, kind: &'static str, index: u64) {
        (self.kind, self.index) = (kind, index);
        self.counts.inputs += 1;
        self.counts.kinds.entry(kind).or_default().0 += 1;
    }

    /// Calls a function with outputs that are large, just long enough, too short and empty; the answer,
    /// if there is one.
    fn lengths(&mut self, call: Call, input: &[u8], rng: &mut Rng) -> Option<Vec<u8>> {
        let result = self.call(call, input);
        self.count(call.function, result);
        let answer = match Outcome::of(result) {
            Outcome::Answer { length } => self.plain.area[GUARD..GUARD + length].to_vec(),
            Outcome::Refusal { .. } => {
                if rng.one_in(4) {
                    self.call(call.into(0), input);
                }
                return None;
            }
        };
        self.call(call.into(answer.len()), input);
        let short = self.call(call.into(answer.len() - 1), input);
        self.count(call.function, short);
        if rng.one_in(8) {
            self.call(call.into(rng.index(answer.len())), input);
        }
        if rng.one_in(4) {
            self.call(call.into(0), input);
        }
        Some(answer)
    }

    /// Calls all functions with one input.
    fn input(&mut self, seed: u64, index: u64, rng: &mut Rng) {
        let input = gen::input(seed, index);
        self.begin(input.kind, index);
        for function in 0..FUNCTIONS {
            let few = rng.below(4) as u32;
            let number = rng.pick(&[few, few, 31, 10_000_000, u32::MAX]);
            self.lengths(Call::new(function, number), &input.bytes, rng);
        }
    }

    /// Opens a run, and enters its steps as they come: each side is lent the cards that it is known to
    /// have left, and after a refusal the same again.
    fn open_run(&mut self, seed: u64, index: u64, rng: &mut Rng) {
        let script = gen::script(seed, index);
        self.begin(script.kind, index);
        self.counts.open_runs += 1;
        let Script {
            net,
            opening,
            turns,
            ..
        } = script;
        let live = |step, number| Call::new(OPERATIONS.len() + step, number);
        let lines = [&net[..], &opening].concat();
        let card = self.lengths(live(OPEN, 0), &lines, rng);
        // The net card and the run card; a run that was not opened, or is closed, is none.
        let mut cards = match card {
            Some(card) => [&net[..], &card].concat(),
            None => rng.pick(&[&[][..], &net, &lines]).to_vec(),
        };
        for turn in turns {
            let (step, number) = match turn {
                Turn::Step(step, number) => (step, number),
                Turn::ByHand(cards, numbers) => {
                    for step in WAIT..LIVE.len() {
                        self.lengths(live(step, numbers[step]), &cards, rng);
                    }
                    continue;
                }
            };
            let call = live(step, number);
            let Some(answer) = self.lengths(call, &cards, rng) else {
                continue;
            };
            match step {
                WAIT | FIRE => {
                    cards.truncate(net.len());
                    cards.extend_from_slice(&answer);
                }
                CLOSE => {
                    // Too short an output leaves the run open, whatever its length.
                    if answer.len() < SHORT || rng.one_in(200) {
                        for length in 0..=answer.len() {
                            self.call(call.into(length), &cards);
                        }
                    }
                    cards.truncate(rng.pick(&[0, net.len()]));
                }
                _ => {}
            }
        }
    }
}

fn main() -> ExitCode {
    let (mut seed, mut count, mut from) = (1, 20_000, 0);
    let (mut other, mut live, mut kinds) = (ENGINE, false, false);
    let mut arguments = env::args().skip(1);
    while let Some(argument) = arguments.next() {
        let number = match argument.as_str() {
            "--seed" => &mut seed,
            "--count" => &mut count,
            "--from" => &mut from,
            "--naive" => {
                other = NAIVE;
                continue;
            }
            "--live" => {
                live = true;
                continue;
            }
            "--kinds" => {
                kinds = true;
                continue;
            }
            _ => return usage(),
        };
        match arguments.next().and_then(|text| text.parse::<u64>().ok()) {
            Some(value) => *number = value,
            None => return usage(),
        }
    }

    let mut rng = Rng::new(seed);
    let mut comparison = Comparison::new(other, &mut rng);
    for index in from..from + count {
        match live || index % SHARE == SHARE - 1 {
            true => comparison.open_run(seed, index, &mut rng),
            false => comparison.input(seed, index, &mut rng),
        }
    }
    for difference in comparison.shortest.iter().flatten() {
        difference.show();
    }
    let counts = &comparison.counts;
    if kinds {
        for (kind, (inputs, answers)) in &counts.kinds {
            println!("{kind}: {inputs} inputs, answers {answers:?}");
        }
    }
    println!(
        "plain against {}, seed {seed}: {}",
        other.name,
        counts.summary()
    );
    match counts.differences {
        0 => ExitCode::SUCCESS,
        _ => ExitCode::FAILURE,
    }
}

fn usage() -> ExitCode {
    eprintln!("usage: compare [--seed S] [--count N] [--from I] [--naive] [--live] [--kinds]");
    ExitCode::from(2)
}
