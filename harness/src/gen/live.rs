//! Open runs from their opening to their end: steps of every kind, accepted firings often, and records
//! made by hand.

use super::damage::{damage, lines, NUMBERS};
use super::{denominator, junk, length, memory, miss, net, passes, size, stray_sheet, wait, waits};
use super::{with_order, with_run, Rng};
use crate::naive::{Memory, Net, Run, State, Transition};
use crate::{CLOSE, FIRE, LIVE, STATE, TIMETABLE, WAIT};

const MOST_PARTS: u64 = 10_000_000;
const MOST_FIRINGS: usize = 64;

/// What is done next.
#[derive(Clone, Debug)]
pub enum Turn {
    /// A step or a call, by its place in [`LIVE`], with its number.
    Step(usize, u32),
    /// Each step and each call, with these numbers, on cards made by hand instead; the run stays.
    ByHand(Vec<u8>, [u32; LIVE.len()]),
}

/// An open run: its net card, the lines that open it, and its turns.
pub struct Script {
    pub kind: &'static str,
    pub net: Vec<u8>,
    pub opening: Vec<u8>,
    pub turns: Vec<Turn>,
}

/// The open run at an index of a seed.
pub fn script(seed: u64, index: u64) -> Script {
    let rng = &mut Rng::at(seed ^ 0x6c69_7665, index);
    match rng.below(20) {
        0..=8 => entered(rng, "open run", false),
        9..=11 => entered(rng, "open run, long", true),
        12 | 13 => long_waits(rng),
        14..=16 => by_hand(rng),
        17 | 18 => other_opening(rng),
        _ => other_net(rng),
    }
}

/// A net card with the lines behind it that open this run.
pub fn with_opening((net, run): &(Net, Run)) -> Vec<u8> {
    let lines = opening(run.sheet, run.memory, run.denominator);
    [net.card().into_bytes(), lines].concat()
}

/// The lines that open a run.
fn opening(sheet: u64, memory: Memory, denominator: u64) -> Vec<u8> {
    let word = memory.word();
    format!("sheet={sheet}\nmemory={word}\ndenominator={denominator}\n").into_bytes()
}

// Steps

/// What the generator knows of the run that it has entered so far.
struct Entry<'n> {
    net: &'n Net,
    state: State,
    /// The card as if it closed here.
    run: Run,
    closed: bool,
    turns: Vec<Turn>,
}

impl<'n> Entry<'n> {
    fn new(net: &'n Net, memory: Memory, denominator: u64) -> Self {
        Entry {
            net,
            state: State::start(net),
            run: Run {
                sheet: net.sheet,
                memory,
                denominator,
                firings: Vec::new(),
                rest: 0,
            },
            closed: false,
            turns: Vec::new(),
        }
    }

    fn wait(&mut self, parts: u32) {
        self.turns.push(Turn::Step(WAIT, parts));
        let sum = self.run.rest + u64::from(parts);
        if !self.closed && sum <= MOST_PARTS {
            self.run.rest = sum;
            self.state.wait(parts.into());
        }
    }

    fn fire(&mut self, transition: u32) {
        self.turns.push(Turn::Step(FIRE, transition));
        let fire = transition as usize;
        let full = self.run.firings.len() == MOST_FIRINGS;
        if self.closed || full || fire >= self.net.transitions.len() {
            return;
        }
        let Run {
            memory,
            denominator,
            ..
        } = self.run;
        if self.state.fire(self.net, memory, denominator, fire).is_ok() {
            self.run.firings.push((self.run.rest, fire));
            self.run.rest = 0;
        }
    }

    fn close(&mut self, rest: u32) {
        self.turns.push(Turn::Step(CLOSE, rest));
        self.closed |= self.run.rest + u64::from(rest) <= MOST_PARTS;
    }

    fn call(&mut self, rng: &mut Rng) {
        let call = rng.pick(&[STATE, STATE, TIMETABLE]);
        self.turns.push(Turn::Step(call, 0));
    }

    /// The transitions that may fire after some wait, and the bounds of that wait.
    fn able(&self) -> Vec<(usize, (u64, Option<u64>))> {
        let all = 0..self.net.transitions.len();
        let denominator = self.run.denominator;
        let may = |fire| Some((fire, waits(self.net, &self.state, denominator, fire)?));
        all.filter_map(may).collect()
    }

    /// Waits, at times in parts, and fires; at times a part too early or too late.
    fn advance(&mut self, rng: &mut Rng) {
        let mut able = self.able();
        if able.is_empty() {
            let any = rng.index(self.net.transitions.len());
            return self.fire(any as u32);
        }
        // Those that will soon be too late go first at times, so that runs last longer.
        if rng.one_in(2) {
            able.sort_by_key(|&(_, (_, most))| most.unwrap_or(u64::MAX));
            able.truncate(2);
        }
        let (fire, (least, most)) = rng.pick(&able);
        let parts = wait(rng, self.run.denominator, least, most);
        let parts = match rng.below(30) {
            0 => parts.saturating_sub(1),
            1 => most.map_or(parts, |most| most + 1),
            2 => least.saturating_sub(1),
            _ => parts,
        };
        let mut left = parts;
        while left > 0 && rng.one_in(4) {
            let some = rng.within(0, left);
            self.wait(some as u32);
            left -= some;
        }
        if left > 0 || rng.one_in(8) {
            self.wait(left as u32);
        }
        self.fire(fire as u32);
        // Tried again a part later, where the first was too early.
        if self.run.rest > 0 && rng.one_in(2) {
            self.wait(1);
            self.fire(fire as u32);
        }
    }

    /// A transition that is enabled and would fill a place too much, if there is one.
    fn overfull(&self) -> Option<usize> {
        let all = 0..self.net.transitions.len();
        let full = |&fire: &usize| {
            self.state.clocks[fire].is_some() && passes(self.net, &self.state.marking, fire)
        };
        all.filter(full).last()
    }

    /// A step that is mostly refused, or a call.
    fn other(&mut self, rng: &mut Rng) {
        match rng.below(20) {
            0..=2 => {
                let any = rng.index(self.net.transitions.len());
                self.fire(any as u32);
            }
            3 | 4 => {
                let stray = stray(rng, self.net.transitions.len() as u64);
                self.fire(stray);
            }
            5 | 6 => {
                if let Some(fire) = self.overfull() {
                    let least = self.net.transitions[fire].earliest * self.run.denominator;
                    let clock = self.state.clocks[fire].unwrap_or(0);
                    let parts = least.saturating_sub(clock);
                    self.wait(rng.pick(&[parts, parts, parts.saturating_sub(1)]) as u32);
                    self.fire(fire as u32);
                }
            }
            7..=9 => {
                let parts = far(rng, self.run.rest);
                self.wait(parts);
            }
            10 => {
                let rest = far(rng, self.run.rest);
                // One that would close the run is for the end.
                if self.run.rest + u64::from(rest) > MOST_PARTS {
                    self.close(rest);
                }
            }
            11 => self.wait(0),
            12 => {
                let turn = made_by_hand(rng, self.net, &self.run, &self.state);
                self.turns.push(turn);
            }
            13 => {
                let few = rng.within(1, 3 * self.run.denominator);
                self.wait(few as u32);
            }
            _ => self.call(rng),
        }
    }

    /// Closes the run, mostly, and goes on after that at times.
    fn end(&mut self, rng: &mut Rng) {
        if rng.one_in(6) {
            return;
        }
        if rng.one_in(3) {
            let rest = far(rng, self.run.rest);
            self.close(rest);
        }
        if !self.closed {
            let left = (MOST_PARTS - self.run.rest) as u32;
            let few = rng.within(0, 2000).min(left.into()) as u32;
            self.close(rng.pick(&[0, 0, 0, few, few, left]));
        }
        for _ in 0..rng.pick(&[0, 0, 1, 3]) {
            match rng.below(6) {
                0 => self.wait(0),
                1 => self.fire(0),
                2 => self.close(0),
                3 => {
                    let parts = far(rng, 0);
                    self.wait(parts);
                }
                4 => {
                    let stray = stray(rng, self.net.transitions.len() as u64);
                    self.fire(stray);
                }
                _ => self.call(rng),
            }
        }
    }
}

/// A transition number about the end of the net's, or far outside; at times one that would be of the
/// net with fewer bits.
fn stray(rng: &mut Rng, transitions: u64) -> u32 {
    let known = rng.below(transitions);
    let number = rng.pick(&[
        transitions,
        transitions,
        transitions + 1,
        32 + known,
        64 + known,
        99,
        256 + known,
        65_536 + known,
        999_999_999,
        1_000_000_000,
        u64::from(u32::MAX),
        u64::from(u32::MAX) - known,
    ]);
    number as u32
}

/// Parts about as many as may still be waited, or far more.
fn far(rng: &mut Rng, pending: u64) -> u32 {
    let left = MOST_PARTS - pending;
    let any = rng.within(0, left);
    let parts = rng.pick(&[
        left,
        left + 1,
        left + 1,
        left.saturating_sub(1),
        any,
        MOST_PARTS,
        MOST_PARTS + 1,
        999_999_999,
        1_000_000_000,
        4_000_000_000,
        // With the pending ones about 0 again in 32 bits.
        (1 << 32) - pending.max(1),
        ((1 << 32) - pending + 1).min(u64::from(u32::MAX)),
        u64::from(u32::MAX),
    ]);
    parts as u32
}

/// The net with a transition that may always fire.
fn with_idle(mut net: Net) -> Net {
    let nothing = vec![0; net.start.len()];
    net.transitions.truncate(31);
    net.transitions.push(Transition {
        earliest: 0,
        latest: None,
        take: nothing.clone(),
        give: nothing,
    });
    net
}

fn script_of(kind: &'static str, entry: Entry) -> Script {
    let Run {
        sheet,
        memory,
        denominator,
        ..
    } = entry.run;
    Script {
        kind,
        net: entry.net.card().into_bytes(),
        opening: opening(sheet, memory, denominator),
        turns: entry.turns,
    }
}

/// A run of which most firings are accepted; a long one often up to the last firing, and past it.
fn entered(rng: &mut Rng, kind: &'static str, long: bool) -> Script {
    let size = size(rng);
    let mut net = net(rng, size);
    let few = rng.within(0, 8) as usize;
    let firings = if long { MOST_FIRINGS } else { few };
    if long && rng.one_in(2) {
        net = with_idle(net);
    }
    let (memory, denominator) = (memory(rng), denominator(rng));
    let mut entry = Entry::new(&net, memory, denominator);
    let every = rng.pick(&[2, 4, 12]);
    let mut tries = 2 * firings;
    while entry.run.firings.len() < firings && tries > 0 {
        tries -= 1;
        entry.advance(rng);
        if rng.one_in(every) {
            entry.other(rng);
        }
    }
    for _ in 0..rng.pick(&[0, 1, 4]) {
        match rng.one_in(3) {
            true => entry.advance(rng),
            false => entry.other(rng),
        }
    }
    entry.end(rng);
    script_of(kind, entry)
}

/// Waits that add up to the most there may be, and past it, on a net that allows every wait.
fn long_waits(rng: &mut Rng) -> Script {
    let size = size(rng);
    let mut net = with_idle(net(rng, size));
    for transition in &mut net.transitions {
        if rng.one_in(2) {
            (transition.earliest, transition.latest) = (0, None);
        }
    }
    let (memory, denominator) = (memory(rng), denominator(rng));
    let mut entry = Entry::new(&net, memory, denominator);
    let firings = length(rng);
    for _ in 0..=firings {
        for _ in 0..rng.pick(&[0, 1, 1, 2, 5]) {
            let half = (MOST_PARTS - entry.run.rest) / 2;
            let far = far(rng, entry.run.rest);
            entry.wait(rng.pick(&[far, far, half as u32, 6_000_000]));
        }
        if rng.one_in(6) {
            entry.other(rng);
        }
        let able = entry.able();
        let ready = able.iter().filter(|(_, (least, _))| *least == 0);
        let ready: Vec<usize> = ready.map(|&(fire, _)| fire).collect();
        if !ready.is_empty() {
            entry.fire(rng.pick(&ready) as u32);
        }
    }
    entry.end(rng);
    script_of("open run, long waits", entry)
}

// Records made by hand

fn by_hand(rng: &mut Rng) -> Script {
    let size = size(rng);
    let mut net = net(rng, size);
    if rng.one_in(3) {
        net = with_idle(net);
    }
    let (memory, denominator) = (memory(rng), denominator(rng));
    let mut entry = Entry::new(&net, memory, denominator);
    for _ in 0..length(rng) {
        entry.advance(rng);
    }
    for _ in 0..3 {
        let turn = made_by_hand(rng, &net, &entry.run, &entry.state);
        entry.turns.push(turn);
    }
    entry.end(rng);
    script_of("open run by hand", entry)
}

/// Cards near those of a run, mostly such as no steps leave.
fn made_by_hand(rng: &mut Rng, net: &Net, run: &Run, state: &State) -> Turn {
    let (mut net, mut run) = (net.clone(), run.clone());
    let mut bytes = match rng.below(24) {
        0..=5 => {
            miss(rng, &mut net, &mut run, state);
            with_run(&(net, run))
        }
        6 => {
            run.sheet = rng.pick(&[run.sheet + 1, run.sheet.saturating_sub(1), 0, 9999, 10_000]);
            with_run(&(net, run))
        }
        7 | 8 => {
            let other = denominator(rng);
            run.denominator = rng.pick(&[0, 0, 1001, 1001, other, 999_999_999, 1_000_000_000]);
            with_run(&(net, run))
        }
        9 | 10 => {
            run.rest = rng.pick(&[MOST_PARTS, MOST_PARTS + 1, MOST_PARTS + 1, 999_999_999]);
            with_run(&(net, run))
        }
        11 | 12 if !run.firings.is_empty() => {
            let at = rng.index(run.firings.len());
            let firing = &mut run.firings[at];
            match rng.one_in(2) {
                true => firing.0 = rng.pick(&[MOST_PARTS, MOST_PARTS + 1, 1_000_000_000]),
                false => firing.1 = stray(rng, net.transitions.len() as u64) as usize,
            }
            with_run(&(net, run))
        }
        // A firing too many: of one that may always fire, so that nothing else is against it.
        13 | 14 => {
            let net = with_idle(net);
            let idle = net.transitions.len() - 1;
            run.firings.clear();
            let firings = rng.pick(&[64, 65, 65, 65, 66, 300]);
            run.firings.resize(firings, (1, idle));
            with_run(&(net, run))
        }
        // A count that is not that of the firings.
        15 => {
            let count = run.firings.len();
            let card = run.card();
            let other = rng.pick(&[count + 1, count.saturating_sub(1), 0, 64, 65]);
            let card = card.replace(
                &format!("\nfirings={count}\n"),
                &format!("\nfirings={other}\n"),
            );
            (net.card() + &card).into_bytes()
        }
        16 => {
            let first = &run.memory;
            let others = [Memory::Intermediate, Memory::Atomic, Memory::Carry];
            let others: Vec<Memory> = others.into_iter().filter(|other| other != first).collect();
            run.memory = rng.pick(&others);
            with_run(&(net, run))
        }
        // Another net of the same size, of which the steps may be none.
        17 => {
            for transition in &mut net.transitions {
                if rng.one_in(3) {
                    (transition.earliest, transition.latest) = super::interval(rng, 20);
                }
            }
            with_run(&(net, run))
        }
        18 => with_order(&(net, run.order())),
        19 => (net.card() + &run.card() + &run.card()).into_bytes(),
        20 => junk(rng),
        _ => with_run(&(net, run)),
    };
    match rng.below(8) {
        0 | 1 => damage(rng, &mut bytes),
        2 => stray_sheet(rng, &mut bytes),
        _ => {}
    }
    let transition = rng.below(32) as u32;
    let parts = rng.pick(&[0, 1, 1000, 10_000_000, u32::MAX]);
    Turn::ByHand(bytes, [0, parts, transition, parts, 0, 0])
}

// Openings that are refused

/// Lines that do not open the run, mostly, and a step or two after them.
fn other_opening(rng: &mut Rng) -> Script {
    let mut script = entered(rng, "other opening", false);
    let mut lines: Vec<String> = String::from_utf8(script.opening)
        .expect("text")
        .lines()
        .map(|line| format!("{line}\n"))
        .collect();
    for _ in 0..rng.pick(&[1, 1, 2]) {
        match rng.below(12) {
            0..=2 => {
                let number =
                    rng.pick(&["0", "1001", "999999999", "1000", "1000000000", "00", "01"]);
                lines[2] = format!("denominator={number}\n");
            }
            3 => lines[2] = format!("denominator={}\n", rng.pick(&NUMBERS)),
            4 => lines[0] = format!("sheet={}\n", rng.pick(&NUMBERS)),
            5 => {
                let word = rng.pick(&["Atomic", "carr", "", "atomic ", "intermediat", "none"]);
                lines[1] = format!("memory={word}\n");
            }
            6 => lines.swap(1, 2),
            7 => {
                let at = rng.index(3);
                lines[at].clear();
            }
            8 => {
                let more = [
                    "x",
                    "\n",
                    "firings=0\nrest=0\n",
                    "wait=0\n",
                    "\0",
                    "state\n",
                ];
                let more = rng.pick(&more);
                lines[2] += more;
            }
            9 => {
                let at = rng.index(3);
                let mut bytes = lines[at].clone().into_bytes();
                damage(rng, &mut bytes);
                lines[at] = String::from_utf8_lossy(&bytes).into_owned();
            }
            10 => drop(lines[2].pop()),
            _ => {
                let at = rng.index(3);
                lines[at] = lines[at].to_uppercase();
            }
        }
    }
    script.opening = lines.concat().into_bytes();
    script.turns.truncate(12);
    script
}

/// A net card that is mostly refused, in front of good lines.
fn other_net(rng: &mut Rng) -> Script {
    let mut script = entered(rng, "other net", false);
    match rng.below(6) {
        0 => stray_sheet(rng, &mut script.net),
        1 => script.net = junk(rng),
        _ => damage(rng, &mut script.net),
    }
    script.turns.truncate(12);
    script
}

// Inputs of the program

const LINES: [&str; 36] = [
    "",
    " ",
    "ok",
    "end",
    "state=",
    "state=0",
    "state ",
    " state",
    "State",
    "states",
    "stat",
    "state\r",
    "timetable=",
    "timetable\0",
    "Timetable",
    "timetabl",
    "timetables",
    "wait",
    "wait=",
    "wait=01",
    "wait=00",
    "wait=1 ",
    "wait= 1",
    "wait=+1",
    "wait=-1",
    "wait=1000000000",
    "wait=4294967296",
    "wait=1,1",
    "Wait=1",
    "waits=1",
    "fire",
    "fire=",
    "fire=x",
    "rest",
    "rest=x",
    "rest=0\r",
];

/// The line of a step or a call.
fn line(step: usize, number: u32) -> String {
    match step {
        WAIT => format!("wait={number}"),
        FIRE => format!("fire={number}"),
        CLOSE => format!("rest={number}"),
        STATE => "state".into(),
        _ => "timetable".into(),
    }
}

/// What the program `live` may be given, at an index of a seed.
pub fn session(seed: u64, index: u64) -> Vec<u8> {
    let Script {
        net,
        opening,
        turns,
        ..
    } = script(seed, index);
    let rng = &mut Rng::at(seed ^ 0x6c69_6e65, index);
    let mut input = [net, opening].concat();
    let every = rng.pick(&[3, 10, 1000]);
    for turn in turns {
        let text = match turn {
            Turn::Step(step, number) => line(step, number),
            Turn::ByHand(..) => rng.pick(&LINES).to_owned(),
        };
        input.extend(text.into_bytes());
        input.push(b'\n');
        if rng.one_in(every) {
            input.extend(rng.pick(&LINES).bytes());
            input.push(b'\n');
        }
    }
    match rng.below(12) {
        0 => drop(input.pop()),
        1 => input.extend(b"state"),
        2 => damage(rng, &mut input),
        3 => {
            // A damaged line among the last ones.
            let known = lines(&input);
            let (start, _) = known[known.len() - 1 - rng.index(known.len().min(6))];
            let mut behind = input.split_off(start);
            damage(rng, &mut behind);
            input.extend(behind);
        }
        _ => {}
    }
    input
}

// Inputs for the benchmark

/// A net and a run of it that is accepted, of so many firings of the largest net, and a transition that
/// may fire at its end.
pub fn large_open_run(rng: &mut Rng, firings: usize) -> (Net, Run, u32) {
    loop {
        let (net, mut run) = super::large_run(rng);
        let mut state = State::start(&net);
        run.firings.truncate(firings);
        for &(wait, fire) in &run.firings {
            state.wait(wait);
            state
                .fire(&net, run.memory, run.denominator, fire)
                .expect("accepted");
        }
        // As much of the rest as serves the transition that comes first.
        let all = 0..net.transitions.len();
        let next = all.filter_map(|fire| Some((waits(&net, &state, run.denominator, fire)?, fire)));
        let next = next.min_by_key(|&((least, _), _)| least);
        if let Some(((least, _), fire)) = next {
            if least <= MOST_PARTS {
                run.rest = least;
                return (net, run, fire as u32);
            }
        }
    }
}
