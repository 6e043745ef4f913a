//! Pairs of runs to be ranked.

use super::{denominator, length, memory, net, size, Rng, Size};
use super::{is_varied, miss, run, token_order, wait, waits};
use crate::naive::{self, Net, Order, Run, State};
use crate::{plain, Outcome};

const MOST_PARTS: u64 = 10_000_000;

/// A net and two runs, X and Y.
pub type Pair = (Net, Run, Run);

/// A net card with two run cards behind it.
pub fn with_pair((net, x, y): &Pair) -> Vec<u8> {
    (net.card() + &x.card() + &y.card()).into_bytes()
}

/// Two accepted runs of one order.
pub fn pair(rng: &mut Rng) -> Pair {
    let (net, mut x, mut y) = match rng.below(8) {
        0..=4 => {
            let (net, [x, y]) = runs_of_one_order(rng);
            (net, x, y)
        }
        5 | 6 => beside_timetable(rng),
        _ => extreme_pair(rng),
    };
    if rng.one_in(2) {
        (x, y) = (y, x);
    }
    (net, x, y)
}

/// Two runs of one net, mostly accepted, and mostly of two orders or under two memory words.
pub fn other_pair(rng: &mut Rng) -> Pair {
    let (net, mut x, mut y) = pair(rng);
    match rng.below(6) {
        0 | 1 => {
            let (denominator, length) = (denominator(rng), length(rng));
            y = run(rng, &net, denominator, length).0;
        }
        2 => y.memory = memory(rng),
        // An order of one firing less or of some less.
        3 => drop(y.firings.pop()),
        4 => y.firings.truncate(rng.index(y.firings.len() + 1)),
        _ => {
            let firings = y.firings.len();
            if firings > 0 {
                y.firings[rng.index(firings)].1 = rng.index(net.transitions.len());
            }
        }
    }
    if rng.one_in(2) {
        (x, y) = (y, x);
    }
    (net, x, y)
}

/// A pair of which one run or both may just not be accepted.
pub fn near_pair(rng: &mut Rng) -> Pair {
    let (mut net, mut x, mut y) = match rng.below(3) {
        0 => other_pair(rng),
        _ => pair(rng),
    };
    let (first, second) = rng.pick(&[(true, false), (false, true), (true, true)]);
    for (run, chosen) in [(&mut x, first), (&mut y, second)] {
        let before_rest = Run {
            rest: 0,
            ..run.clone()
        };
        if let (true, Ok(end)) = (chosen, naive::replayed(&net, &before_rest)) {
            miss(rng, &mut net, run, &end);
        }
    }
    (net, x, y)
}

/// The run with every part cut into so many, up to the first wait that a card cannot hold then.
fn scaled(run: &Run, factor: u64) -> Run {
    let waits = run
        .firings
        .iter()
        .map(|&(wait, fire)| (wait * factor, fire));
    Run {
        sheet: run.sheet,
        memory: run.memory,
        denominator: run.denominator * factor,
        firings: waits.take_while(|&(wait, _)| wait <= MOST_PARTS).collect(),
        rest: (run.rest * factor).min(MOST_PARTS),
    }
}

/// Draws the waits from one firing on anew, and ends the run where no wait serves.
fn redraw(rng: &mut Rng, net: &Net, run: &mut Run, from: usize) {
    let mut state = State::start(net);
    for at in 0..run.firings.len() {
        let fire = run.firings[at].1;
        if at >= from {
            let Some((least, most)) = waits(net, &state, run.denominator, fire) else {
                return run.firings.truncate(at);
            };
            run.firings[at].0 = wait(rng, run.denominator, least, most);
        }
        state.wait(run.firings[at].0);
        state
            .fire(net, run.memory, run.denominator, fire)
            .expect("drawn to be allowed");
    }
}

/// The run at a multiple of its denominator, with the waits from some firing on, one instant, the rest
/// or nothing put differently.
fn variant(rng: &mut Rng, net: &Net, run: &Run) -> Run {
    let most = 1000 / run.denominator;
    let few = rng.within(1, most.min(4));
    let any = rng.within(1, most);
    let mut run = scaled(run, rng.pick(&[1, few, few, any, most]));
    let firings = run.firings.len();
    match rng.below(8) {
        0..=2 => {}
        3 => {
            let from = rng.index(firings + 1);
            redraw(rng, net, &mut run, from);
        }
        4 => redraw(rng, net, &mut run, 0),
        // One instant moved by a part, if the windows allow it.
        5 if firings > 1 => {
            let mut moved = run.clone();
            let at = rng.index(firings - 1);
            let (one, next) = rng.pick(&[(at, at + 1), (at + 1, at)]);
            moved.firings[one].0 = moved.firings[one].0.saturating_sub(1);
            moved.firings[next].0 = (moved.firings[next].0 + 1).min(MOST_PARTS);
            if naive::replayed(net, &moved).is_ok() {
                run = moved;
            }
        }
        _ => {
            let few = rng.within(0, 3);
            let less = run.rest.saturating_sub(1);
            let more = (run.rest + 1).min(MOST_PARTS);
            run.rest = rng.pick(&[less, more, few, 0, MOST_PARTS]);
        }
    }
    run
}

/// So many accepted runs of one order, often with the same instants up to some firing or throughout.
pub fn runs_of_one_order<const N: usize>(rng: &mut Rng) -> (Net, [Run; N]) {
    let size = size(rng);
    let net = net(rng, size);
    let any = rng.within(1, 1000);
    let denominator = rng.pick(&[1, 1, 2, 3, 10, 60, any]);
    let length = length(rng);
    let (run, _) = run(rng, &net, denominator, length);
    let mut runs = [(); N].map(|()| variant(rng, &net, &run));
    let firings = runs.iter().map(|run| run.firings.len()).min();
    for run in &mut runs {
        run.firings.truncate(firings.unwrap_or(0));
    }
    (net, runs)
}

/// The timetable of an order that has one.
fn timetable(net: &Net, order: &Order) -> Run {
    let input = (net.card() + &order.card()).into_bytes();
    let mut output = [0; 2048];
    match Outcome::of(plain::timetable(&input, &mut output)) {
        Outcome::Answer { length } => naive::read_run(&output[..length], net).expect("a card"),
        Outcome::Refusal { .. } => panic!("without a timing:\n{}{}", net.card(), order.card()),
    }
}

/// The timetable of a run's order, and the run, which is often the timetable with more parts.
pub fn beside_timetable(rng: &mut Rng) -> Pair {
    let size = size(rng);
    let net = net(rng, size);
    let (denominator, length) = (denominator(rng), length(rng));
    let (mut run, _) = run(rng, &net, denominator, length);
    if rng.one_in(2) {
        let rest = run.rest;
        run = scaled(&timetable(&net, &run.order()), denominator);
        run.rest = rng.pick(&[0, 0, 1, rest]);
        if rng.one_in(2) {
            let from = rng.index(run.firings.len() + 1);
            redraw(rng, &net, &mut run, from);
        }
    }
    let first = timetable(&net, &run.order());
    (net, first, run)
}

/// Denominators and waits at the ends of their ranges, in a net that allows every wait.
fn extreme_pair(rng: &mut Rng) -> Pair {
    let size = size(rng);
    let mut net = net(rng, size);
    for transition in &mut net.transitions {
        (transition.earliest, transition.latest) = (0, None);
    }
    let length = length(rng);
    let (order, _) = token_order(rng, &net, length);
    let (a, b) = rng.pick(&[(1, 1000), (1, 1000), (999, 1000), (1000, 1000), (1, 1)]);
    let mut x = order.timed(&vec![0; order.fire.len()]);
    let mut y = x.clone();
    (x.denominator, y.denominator) = (a, b);
    // Waits alike in front, the most that both cards can hold among them.
    let most = (MOST_PARTS / b).min(MOST_PARTS / a);
    let apart = rng.index(x.firings.len() + 1);
    for (one, other) in x.firings.iter_mut().zip(&mut y.firings).take(apart) {
        let ticks = rng.pick(&[0, 1, most]);
        (one.0, other.0) = (ticks * a, ticks * b);
    }
    let ends = [0, 0, 1, MOST_PARTS - 1, MOST_PARTS, MOST_PARTS];
    for run in [&mut x, &mut y] {
        for firing in &mut run.firings[apart..] {
            firing.0 = rng.pick(&ends);
        }
        run.rest = rng.pick(&ends);
    }
    (net, x, y)
}

/// Two accepted runs of 64 firings of the largest net, of which only the ends differ.
pub fn large_pair(rng: &mut Rng) -> Pair {
    loop {
        let net = net(rng, Size::Largest);
        let (mut x, _) = run(rng, &net, 60, 64);
        x.rest = rng.within(0, 1000);
        let mut y = scaled(&x, 2);
        y.rest += 1;
        if is_varied(&x.order()) && is_varied(&y.order()) {
            return (net, x, y);
        }
    }
}
