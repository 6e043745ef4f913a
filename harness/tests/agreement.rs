//! The plain version against the naive one, byte by byte, over generated inputs of all kinds.

use harness::{gen, name, Engine, Outcome, FUNCTIONS, LONGEST, NAIVE, PLAIN};

/// A number for the steps of open runs.
fn number(index: u64) -> u32 {
    [0, 1, 2, 31, 10_000_000, u32::MAX][index as usize % 6]
}

/// The result and the output of a call into an output of this length, filled beforehand.
fn call(engine: &Engine, at: usize, index: u64, input: &[u8], length: usize) -> (i64, Vec<u8>) {
    let mut output: Vec<u8> = (0..length).map(|at| (at * 7 + 1) as u8).collect();
    (engine.call(at, number(index), input, &mut output), output)
}

#[test]
fn plain_and_naive_agree() {
    let mut refusals = [0; 16];
    let mut answers = 0;
    for index in 0..6_000 {
        let input = gen::input(99, index).bytes;
        for at in 0..FUNCTIONS {
            let mut lengths = vec![LONGEST, 0];
            match Outcome::of(PLAIN.call(at, number(index), &input, &mut [0; LONGEST])) {
                Outcome::Answer { length } => {
                    answers += 1;
                    refusals[9] += 1;
                    lengths.extend([length, length - 1]);
                }
                Outcome::Refusal { number, .. } => refusals[number as usize] += 1,
            }
            for length in lengths {
                let expected = call(&NAIVE, at, index, &input, length);
                let found = call(&PLAIN, at, index, &input, length);
                assert!(
                    found == expected,
                    "{} of {} into {length}: {} and {}",
                    name(at),
                    input.escape_ascii(),
                    found.0,
                    expected.0
                );
            }
        }
    }
    assert!(answers > 1_000, "{answers} answers");
    assert!(
        refusals[1..].iter().all(|&count| count > 20),
        "{refusals:?}"
    );
}

#[test]
fn the_bytes_behind_an_answer_stay() {
    for index in 0..300 {
        let input = gen::input(5, index).bytes;
        for at in 0..FUNCTIONS {
            let (result, output) = call(&PLAIN, at, index, &input, LONGEST);
            let written = match Outcome::of(result) {
                Outcome::Answer { length } => length,
                Outcome::Refusal { .. } => 0,
            };
            assert!((written..LONGEST).all(|at| output[at] == (at * 7 + 1) as u8));
        }
    }
}
