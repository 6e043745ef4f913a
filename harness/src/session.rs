//! The program `live` over the functions of an engine: what it prints for all of its input, each answer
//! taken from the functions and the cards that they have written.

use crate::naive::read_net;
use crate::{text, Engine, CLOSE, FIRE, LIVE_LONGEST, OPEN, STATE, TIMETABLE, WAIT};

/// Lines that open a run.
const OPENING: usize = 3;

struct Session<'e> {
    engine: &'e Engine,
    net: Vec<u8>,
    /// The net card and the run card right behind it; nothing once the run is closed.
    cards: Vec<u8>,
}

impl Session<'_> {
    /// What a function makes of an input: whether there is an answer, and what is printed.
    fn call(&self, step: usize, number: u32, input: &[u8]) -> (bool, Vec<u8>) {
        let mut output = vec![0; LIVE_LONGEST];
        let result = self.engine.live[step](input, number, &mut output);
        (result >= 0, text(result, output))
    }

    /// The answer to one line, if it is one of a step or a call.
    fn answer(&mut self, line: &str) -> Option<Vec<u8>> {
        let (step, number) = match line {
            "state" => (STATE, 0),
            "timetable" => (TIMETABLE, 0),
            _ => {
                let (key, value) = line.split_once('=')?;
                let keys = [("wait", WAIT), ("fire", FIRE), ("rest", CLOSE)];
                let (_, step) = keys.into_iter().find(|known| known.0 == key)?;
                let number: u32 = value.parse().ok()?;
                // Written again it is the same, so there is no sign and no leading zero.
                if number.to_string() != value || value.len() > 9 {
                    return None;
                }
                (step, number)
            }
        };
        let (answered, printed) = self.call(step, number, &self.cards);
        match step {
            WAIT | FIRE if answered => {
                self.cards = [&self.net[..], &printed].concat();
                return Some(b"ok\n".to_vec());
            }
            CLOSE if answered => self.cards.clear(),
            _ => {}
        }
        Some(printed)
    }
}

/// What the program prints if it asks this engine.
pub fn session(engine: &Engine, input: &[u8]) -> Vec<u8> {
    let behind = read_net(input).map_or(&input[..0], |(_, behind)| behind);
    let net = &input[..input.len() - behind.len()];
    let mut lines: Vec<&[u8]> = behind.split_inclusive(|&byte| byte == 10).collect();
    let steps = lines.split_off(lines.len().min(OPENING));
    let mut session = Session {
        engine,
        net: net.to_vec(),
        cards: Vec::new(),
    };
    let (opened, card) = session.call(OPEN, 0, &[net, &lines.concat()].concat());
    if !opened {
        return card;
    }
    session.cards = [net, &card].concat();
    let mut answers = b"ok\n".to_vec();
    for (at, line) in steps.iter().enumerate() {
        let line = line.strip_suffix(b"\n").map(std::str::from_utf8);
        let answer = match line {
            Some(Ok(line)) => session.answer(line),
            _ => None,
        };
        let malformed = || format!("refused=1\nplace={}\n", OPENING + at + 1).into_bytes();
        answers.extend(answer.unwrap_or_else(malformed));
    }
    answers
}
