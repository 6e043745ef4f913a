//! The program `live`: what it prints for all of its input.

use super::card::{decimal, Net, Opening};
use super::live::OpenRun;
use crate::{text, LIVE_LONGEST};

/// The lines in front of those that are answered one by one.
const OPENING: usize = 3;

/// The answers to a net card, the lines that open a run on it, and its steps.
pub fn session(input: &[u8]) -> Vec<u8> {
    match opened(input) {
        Ok((run, lines)) => answers(run, lines),
        Err(refusal) => printed(Err(refusal), Vec::new()),
    }
}

fn opened(input: &[u8]) -> Result<(OpenRun, &[u8]), i64> {
    let mut net = Net::empty();
    let behind = net.read(input)?;
    let (opening, lines) = Opening::read_first(behind, &net)?;
    let run = OpenRun::open(net, opening.memory, opening.denominator)?;
    Ok((run, lines))
}

fn answers(mut run: OpenRun, lines: &[u8]) -> Vec<u8> {
    let mut answers = b"ok\n".to_vec();
    for (line, number) in lines.split_inclusive(|&byte| byte == b'\n').zip(1..) {
        let malformed = || format!("refused=1\nplace={}\n", OPENING + number).into_bytes();
        answers.extend(entered(&mut run, line).unwrap_or_else(malformed));
    }
    answers
}

/// The answer to a line of good form.
fn entered(run: &mut OpenRun, line: &[u8]) -> Option<Vec<u8>> {
    let mut output = vec![0; LIVE_LONGEST];
    if let Some(parts) = number(line, b"wait=") {
        return Some(stepped(run.wait(parts)));
    }
    if let Some(transition) = number(line, b"fire=") {
        return Some(stepped(run.fire(transition)));
    }
    let result = match line {
        b"state\n" => run.state(&mut output),
        b"timetable\n" => run.timetable(&mut output),
        _ => run.close(number(line, b"rest=")?, &mut output),
    };
    Some(printed(result, output))
}

/// The number of a line with this key.
fn number(line: &[u8], key: &[u8]) -> Option<u32> {
    let (value, behind) = decimal(line.strip_prefix(key)?, b'\n')?;
    behind.is_empty().then_some(value)
}

fn stepped(result: Result<(), i64>) -> Vec<u8> {
    match result {
        Ok(()) => b"ok\n".to_vec(),
        Err(refusal) => printed(Err(refusal), Vec::new()),
    }
}

fn printed(result: Result<i64, i64>, output: Vec<u8>) -> Vec<u8> {
    text(super::result(result), output)
}
