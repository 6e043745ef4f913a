//! Open runs, entered step by step: as a record, and as the two cards that stand for one.
//!
//! Nothing is kept but the steps, as the card of the run as if it closed here; so there is no marking
//! and no clock that a record made by hand could have wrong. Every step replays those before it.

use super::card::{check_denominator, Memory, Net, Opening, Run, FIRINGS, MOST_PARTS};
use super::firing::State;
use super::text::Text;
use super::RUN_LONGEST;
use super::{firing_lines, refused, replayed, result, step, write_earliest, write_state};

const CLOSED: i64 = refused(15, 0);

/// A run that is being entered, or was.
#[derive(Clone, Debug, PartialEq, Eq)]
pub struct OpenRun {
    net: Net,
    /// The rest is the sum of the waits since the last firing.
    run: Run,
    running: bool,
}

impl OpenRun {
    pub fn open(mut net: Net, memory: Memory, denominator: u32) -> Result<Self, i64> {
        net.check()?;
        check_denominator(denominator)?;
        net.trim();
        let run = without_steps(&net, memory, denominator);
        Ok(OpenRun {
            net,
            run,
            running: true,
        })
    }

    /// A record from its parts, which may be such as no steps leave.
    pub fn by_hand(mut net: Net, run: Run, running: bool) -> Self {
        net.trim();
        OpenRun { net, run, running }
    }

    /// The steps so far.
    pub fn run(&self) -> &Run {
        &self.run
    }

    pub fn is_running(&self) -> bool {
        self.running
    }

    /// The state after the last firing, and its instant; 15 unless opening and accepted steps can have
    /// left this.
    fn standing(&self) -> Result<(State<'_>, u32), i64> {
        let left_by_steps = self.running
            && self.net.check().is_ok()
            && self.run.check(&self.net).is_ok()
            && self.run.is_blank_behind();
        match left_by_steps {
            true => standing(&self.net, &self.run),
            false => Err(CLOSED),
        }
    }

    pub fn wait(&mut self, parts: u32) -> Result<(), i64> {
        self.standing()?;
        self.run.rest = summed(&self.run, parts)?;
        Ok(())
    }

    pub fn fire(&mut self, transition: u32) -> Result<(), i64> {
        let at = self.standing()?;
        let fire = judged(&self.net, &self.run, at, transition)?;
        append(&mut self.run, fire);
        Ok(())
    }

    /// Closes the run; the length of its card.
    pub fn close(&mut self, rest: u32, out: &mut [u8]) -> Result<i64, i64> {
        self.standing()?;
        let rest = summed(&self.run, rest)?;
        let written = write_card(&self.run, rest, out)?;
        self.running = false;
        Ok(written)
    }

    /// The marking and the clocks as they are.
    pub fn state(&self, out: &mut [u8]) -> Result<i64, i64> {
        let (state, last) = self.standing()?;
        write_state(&self.net, &state, last + self.run.rest, out)
    }

    /// The earliest timetable of the firings so far.
    pub fn timetable(&self, out: &mut [u8]) -> Result<i64, i64> {
        self.standing()?;
        let fire = &self.run.fire[..self.run.firings];
        write_earliest(&self.net, self.run.memory, fire, out)
    }
}

fn without_steps(net: &Net, memory: Memory, denominator: u32) -> Run {
    Run {
        sheet: net.sheet,
        memory,
        denominator,
        ..Run::empty()
    }
}

/// The state after the last firing of a run whose card is in order, and its instant.
fn standing<'n>(net: &'n Net, run: &Run) -> Result<(State<'n>, u32), i64> {
    replayed(net, run).map_err(|_| CLOSED)
}

/// The waits since the last firing with one more, or with a rest.
fn summed(run: &Run, parts: u32) -> Result<u32, i64> {
    match run.rest.checked_add(parts) {
        Some(sum) if sum <= MOST_PARTS => Ok(sum),
        _ => Err(refused(2, run.firings as u32 + 1)),
    }
}

/// The transition as the next firing where the run stands, if it may fire.
fn judged(net: &Net, run: &Run, at: (State, u32), transition: u32) -> Result<u8, i64> {
    let (mut state, last) = at;
    let number = run.firings as u32 + 1;
    if run.firings == FIRINGS {
        return Err(refused(2, number));
    }
    let fire = transition as usize;
    if fire >= net.transitions {
        return Err(refused(4, number));
    }
    match step(net, &mut state, run.denominator, last + run.rest, fire) {
        Ok(()) => Ok(fire as u8),
        Err(why) => Err(refused(why, number)),
    }
}

/// Puts a firing behind the others, after the waits since the last one.
fn append(run: &mut Run, fire: u8) {
    run.wait[run.firings] = run.rest;
    run.fire[run.firings] = fire;
    run.firings += 1;
    run.rest = 0;
}

/// Writes the card of a run, with this rest.
fn write_card(run: &Run, rest: u32, out: &mut [u8]) -> Result<i64, i64> {
    let mut text = Text::<RUN_LONGEST>::new();
    text.push(b"sheet=");
    text.number(run.sheet, b'\n');
    match run.memory {
        Memory::Intermediate => text.push(b"memory=intermediate\ndenominator="),
        Memory::Atomic => text.push(b"memory=atomic\ndenominator="),
        Memory::Carry => text.push(b"memory=carry\ndenominator="),
    }
    text.number(run.denominator, b'\n');
    text.push(b"firings=");
    text.number(run.firings as u32, b'\n');
    for (&wait, &fire) in run.wait.iter().zip(&run.fire).take(run.firings) {
        firing_lines(&mut text, wait, fire);
    }
    text.push(b"rest=");
    text.number(rest, b'\n');
    text.copy_to(out)
}

// Over cards

/// The card of the run that the lines behind a net card open.
pub fn open(input: &[u8], _: u32, out: &mut [u8]) -> i64 {
    result(open_outcome(input, out))
}

/// The card of the run with a wait added.
pub fn wait(input: &[u8], parts: u32, out: &mut [u8]) -> i64 {
    result(wait_outcome(input, parts, out))
}

/// The card of the run with a firing added.
pub fn fire(input: &[u8], transition: u32, out: &mut [u8]) -> i64 {
    result(fire_outcome(input, transition, out))
}

/// The card of the run closed with a rest, which is the one with a wait added.
pub fn close(input: &[u8], rest: u32, out: &mut [u8]) -> i64 {
    result(wait_outcome(input, rest, out))
}

/// The marking and the clocks where the run stands.
pub fn state(input: &[u8], _: u32, out: &mut [u8]) -> i64 {
    result(state_outcome(input, out))
}

/// The earliest timetable of the firings so far.
pub fn timetable(input: &[u8], _: u32, out: &mut [u8]) -> i64 {
    result(timetable_outcome(input, out))
}

fn open_outcome(input: &[u8], out: &mut [u8]) -> Result<i64, i64> {
    let mut net = Net::empty();
    let rest = net.read(input)?;
    let opening = Opening::read(rest, &net)?;
    let run = without_steps(&net, opening.memory, opening.denominator);
    write_card(&run, 0, out)
}

/// Fills an empty net and an empty run from their cards.
fn read(net: &mut Net, run: &mut Run, input: &[u8]) -> Result<(), i64> {
    let rest = net.read(input).map_err(|_| CLOSED)?;
    run.read(rest, net).map_err(|_| CLOSED)
}

fn wait_outcome(input: &[u8], parts: u32, out: &mut [u8]) -> Result<i64, i64> {
    let (mut net, mut run) = (Net::empty(), Run::empty());
    read(&mut net, &mut run, input)?;
    standing(&net, &run)?;
    let rest = summed(&run, parts)?;
    write_card(&run, rest, out)
}

fn fire_outcome(input: &[u8], transition: u32, out: &mut [u8]) -> Result<i64, i64> {
    let (mut net, mut run) = (Net::empty(), Run::empty());
    read(&mut net, &mut run, input)?;
    let at = standing(&net, &run)?;
    let fire = judged(&net, &run, at, transition)?;
    append(&mut run, fire);
    write_card(&run, 0, out)
}

fn state_outcome(input: &[u8], out: &mut [u8]) -> Result<i64, i64> {
    let (mut net, mut run) = (Net::empty(), Run::empty());
    read(&mut net, &mut run, input)?;
    let (state, last) = standing(&net, &run)?;
    write_state(&net, &state, last + run.rest, out)
}

fn timetable_outcome(input: &[u8], out: &mut [u8]) -> Result<i64, i64> {
    let (mut net, mut run) = (Net::empty(), Run::empty());
    read(&mut net, &mut run, input)?;
    standing(&net, &run)?;
    write_earliest(&net, run.memory, &run.fire[..run.firings], out)
}
