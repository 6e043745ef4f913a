//! Open runs, from the words of the request: a record is open if opening and entering its steps one by
//! one leave that very record, and a step is accepted exactly if the card with it added is.

use super::{earliest, Lines, Memory, Net, Order, Refusal, Run, State, Transition};
use super::{list, read_net, read_run, replayed, result};
use std::fmt::Write;

const SLOTS: usize = 64;
const MOST_PARTS: u64 = 10_000_000;
/// The greatest number that a card can say.
const LONGEST_NUMBER: u64 = 999_999_999;

/// A run that is being entered, or was; of its slots the first `count` hold firings.
#[derive(Clone, Debug, PartialEq, Eq)]
pub struct OpenRun {
    pub net: Net,
    pub sheet: u64,
    pub memory: Memory,
    pub denominator: u64,
    pub count: usize,
    /// The wait and the transition of each firing.
    pub slots: Vec<(u64, u64)>,
    /// The waits since the last firing.
    pub pending: u64,
    pub running: bool,
}

/// A number as a card says it; one too long to write is as far outside its range as the greatest.
fn written(number: u64) -> u64 {
    number.min(LONGEST_NUMBER)
}

/// What would be found against the card of a net.
fn check_net(net: &Net) -> Result<(), Refusal> {
    let interval = |old: &Transition| Transition {
        earliest: written(old.earliest),
        latest: old.latest.map(written),
        ..old.clone()
    };
    let net = Net {
        sheet: written(net.sheet),
        start: net.start.clone(),
        transitions: net.transitions.iter().map(interval).collect(),
    };
    let card = net.card();
    let (again, behind) = read_net(card.as_bytes())?;
    assert!(again == net && behind.is_empty());
    Ok(())
}

impl OpenRun {
    /// "open it on an accepted net with a memory and a denominator"
    pub fn open(net: &Net, memory: Memory, denominator: u64) -> Result<Self, Refusal> {
        check_net(net)?;
        if !(1..=1000).contains(&denominator) {
            return Err((2, 0));
        }
        Ok(OpenRun {
            net: net.clone(),
            sheet: net.sheet,
            memory,
            denominator,
            count: 0,
            slots: vec![(0, 0); SLOTS],
            pending: 0,
            running: true,
        })
    }

    /// What opening and these very steps leave, if all are accepted.
    fn entered_again(&self) -> Option<Self> {
        let mut again = Self::open(&self.net, self.memory, self.denominator).ok()?;
        let mut state = State::start(&self.net);
        for (at, &(wait, fire)) in self.slots.iter().enumerate().take(self.count) {
            let known = fire < self.net.transitions.len() as u64;
            if wait > MOST_PARTS || !known {
                return None;
            }
            state.wait(wait);
            let fired = state.fire(&self.net, self.memory, self.denominator, fire as usize);
            fired.ok()?;
            again.slots[at] = (wait, fire);
            again.count += 1;
        }
        again.pending = self.pending;
        (self.pending <= MOST_PARTS).then_some(again)
    }

    /// "A record that opening and accepted steps can't have left counts as closed"; then "a step or
    /// such a call on a closed run is refused as 15, place 0, before all else".
    fn still_open(&self) -> Result<(), Refusal> {
        match self.entered_again() {
            Some(again) if again == *self => Ok(()),
            _ => Err((15, 0)),
        }
    }

    /// The card as if it closed here.
    pub fn card(&self) -> String {
        let (sheet, word) = (written(self.sheet), self.memory.word());
        let mut card = format!(
            "sheet={sheet}\nmemory={word}\ndenominator={}\nfirings={}\n",
            written(self.denominator),
            self.count
        );
        for &(wait, fire) in self.slots.iter().take(self.count) {
            let (wait, fire) = (written(wait), written(fire));
            writeln!(card, "wait={wait}\nfire={fire}").unwrap();
        }
        writeln!(card, "rest={}", written(self.pending)).unwrap();
        card
    }

    /// The card with a step added, and that card's run if it is accepted: "a step is accepted exactly
    /// if the card with it added is", and what is found has "the place of the firing being entered".
    fn accepted_with(&self, added: &Self) -> Result<Run, Refusal> {
        let card = added.card();
        let read = read_run(card.as_bytes(), &self.net);
        let accepted = read.and_then(|run| replayed(&self.net, &run).map(|_| run));
        accepted.map_err(|(number, _)| (number, self.count as u64 + 1))
    }

    /// The run that the steps so far make.
    fn run(&self) -> Run {
        let firings = self.slots.iter().take(self.count);
        Run {
            sheet: self.sheet,
            memory: self.memory,
            denominator: self.denominator,
            firings: firings.map(|&(wait, fire)| (wait, fire as usize)).collect(),
            rest: self.pending,
        }
    }

    /// "Waits before a firing add up."
    fn with_wait(&self, parts: u64) -> Self {
        let mut added = self.clone();
        added.pending += parts;
        added
    }

    fn with_firing(&self, fire: u64) -> Self {
        let mut added = self.clone();
        added.slots.truncate(self.count);
        added.slots.push((self.pending, fire));
        added.slots.resize(SLOTS.max(self.count + 1), (0, 0));
        added.count += 1;
        added.pending = 0;
        added
    }

    /// "A refused step leaves the run as before it."
    fn enter(&mut self, added: Self) -> Result<(), Refusal> {
        self.accepted_with(&added)?;
        *self = added;
        Ok(())
    }

    pub fn wait(&mut self, parts: u64) -> Result<(), Refusal> {
        self.still_open()?;
        self.enter(self.with_wait(parts))
    }

    pub fn fire(&mut self, fire: u64) -> Result<(), Refusal> {
        self.still_open()?;
        self.enter(self.with_firing(fire))
    }

    /// "closing writes the card of the accepted steps and no other"; "Waits since the last firing count
    /// into the rest".
    fn closed_with(&self, rest: u64) -> Result<String, Refusal> {
        self.still_open()?;
        let run = self.accepted_with(&self.with_wait(rest))?;
        Ok(run.card())
    }

    /// "Closing into too short an output is 9 and leaves the run open."
    pub fn close(&mut self, rest: u64, out: &mut [u8]) -> i64 {
        let result = result(self.closed_with(rest), out);
        if result >= 0 {
            self.running = false;
        }
        result
    }

    /// "its end marking, its clocks .. read as if it closed there with rest 0"
    fn state_text(&self) -> Result<String, Refusal> {
        self.still_open()?;
        let state = replayed(&self.net, &self.run())?;
        let clock = |clock: &Option<u64>| clock.map_or("off".into(), |clock| clock.to_string());
        let clocks = state.clocks.iter().map(clock);
        let lines = clocks.map(|clock| format!("clock={clock}\n"));
        Ok(format!("end={}\n", list(&state.marking)) + &lines.collect::<String>())
    }

    pub fn state(&self, out: &mut [u8]) -> i64 {
        result(self.state_text(), out)
    }

    /// "the earliest timetable of the firings entered so far"
    fn timetable_text(&self) -> Result<String, Refusal> {
        self.still_open()?;
        let order: Order = self.run().order();
        let instants = earliest(&self.net, &order).expect("an accepted run is a timing");
        Ok(order.timed(&instants).card())
    }

    pub fn timetable(&self, out: &mut [u8]) -> i64 {
        result(self.timetable_text(), out)
    }
}

// Over cards

/// The record that two cards stand for; such as are refused stand for a closed run.
fn record(input: &[u8]) -> Result<OpenRun, Refusal> {
    let both = read_net(input).and_then(|(net, rest)| Ok((read_run(rest, &net)?, net)));
    let (run, net) = both.map_err(|_| (15, 0))?;
    let firings = run.firings.iter();
    let mut slots: Vec<(u64, u64)> = firings.map(|&(wait, fire)| (wait, fire as u64)).collect();
    slots.resize(SLOTS, (0, 0));
    Ok(OpenRun {
        sheet: run.sheet,
        memory: run.memory,
        denominator: run.denominator,
        count: run.firings.len(),
        slots,
        pending: run.rest,
        net,
        running: true,
    })
}

/// The lines `sheet`, `memory` and `denominator` behind a net card, and nothing behind these.
fn opening(input: &[u8]) -> Result<OpenRun, Refusal> {
    let (net, rest) = read_net(input)?;
    let mut lines = Lines { rest, line: 0 };
    lines.same_sheet(&net)?;
    let memory = lines.memory()?;
    let text = lines.value("denominator")?;
    let denominator = lines.form(text)?;
    let run = OpenRun::open(&net, memory, denominator)?;
    lines.nothing()?;
    Ok(run)
}

/// The card of the run behind a step.
fn behind(
    input: &[u8],
    step: impl Fn(&mut OpenRun) -> Result<(), Refusal>,
) -> Result<String, Refusal> {
    let mut run = record(input)?;
    step(&mut run)?;
    Ok(run.card())
}

pub fn open(input: &[u8], _: u32, out: &mut [u8]) -> i64 {
    result(opening(input).map(|run| run.card()), out)
}

pub fn wait(input: &[u8], parts: u32, out: &mut [u8]) -> i64 {
    result(behind(input, |run| run.wait(parts.into())), out)
}

pub fn fire(input: &[u8], transition: u32, out: &mut [u8]) -> i64 {
    result(behind(input, |run| run.fire(transition.into())), out)
}

pub fn close(input: &[u8], rest: u32, out: &mut [u8]) -> i64 {
    match record(input) {
        Ok(mut run) => run.close(rest.into(), out),
        Err(refusal) => result(Err(refusal), out),
    }
}

pub fn state(input: &[u8], _: u32, out: &mut [u8]) -> i64 {
    result(record(input).and_then(|run| run.state_text()), out)
}

pub fn timetable(input: &[u8], _: u32, out: &mut [u8]) -> i64 {
    result(record(input).and_then(|run| run.timetable_text()), out)
}
