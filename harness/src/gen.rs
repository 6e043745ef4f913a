//! Seeded inputs for the six operations: nets with runs, orders, pairs of runs or a second net that are
//! accepted often, near misses, orders that are hard to time, cards on another sheet, damaged cards and
//! junk. And open runs: an opening and steps of every kind, and what the program `live` may be given.
//!
//! An input depends on its seed and index only, so each can be made again alone.

mod damage;
mod hard;
mod join;
mod live;
mod pair;
mod rng;
mod sheet;

use crate::naive::{Memory, Net, Order, Run, State, Transition};
use crate::{plain, Outcome};
use std::collections::BTreeSet;

pub use damage::{damage, junk};
pub use hard::{bends_to_the_last, drift_to_the_last, hard_order, most_sweeps};
pub use join::{large_nets, list_line, nets, nets_apart, other_nets, two_nets, Nets};
pub use live::{large_open_run, script, session, with_opening, Script, Turn};
pub use pair::{
    beside_timetable, large_pair, near_pair, other_pair, pair, runs_of_one_order, with_pair,
};
pub use rng::Rng;
pub use sheet::stray_sheet;

/// An input, and what kind it is of.
pub struct Input {
    pub kind: &'static str,
    pub bytes: Vec<u8>,
}

/// The input at an index of a seed.
pub fn input(seed: u64, index: u64) -> Input {
    let rng = &mut Rng::at(seed, index);
    let (kind, bytes) = match rng.below(100) {
        0..=13 => ("run", text_of_run(rng, false)),
        14..=22 => ("near run", text_of_run(rng, true)),
        23..=28 => ("order", text_of_order(rng)),
        29..=34 => ("tight order", with_order(&tight_order(rng))),
        35..=38 => ("hard order", with_order(&hard_order(rng))),
        39..=47 => ("pair", with_pair(&pair(rng))),
        48..=51 => ("other pair", with_pair(&other_pair(rng))),
        52..=55 => ("near pair", with_pair(&near_pair(rng))),
        56..=63 => ("join", two_nets(&nets(rng))),
        64..=68 => ("other join", two_nets(&other_nets(rng))),
        69..=71 => ("join line", list_line(rng)),
        72..=78 => ("stray sheet", text_of_stray(rng)),
        79..=97 => ("damaged", text_of_damaged(rng)),
        _ => ("junk", junk(rng)),
    };
    Input { kind, bytes }
}

/// Cards of a run, an order, a pair of runs or two nets, mostly accepted.
fn any_cards(rng: &mut Rng) -> Vec<u8> {
    match rng.below(5) {
        0 => text_of_order(rng),
        1 if rng.one_in(3) => with_pair(&near_pair(rng)),
        1 => with_pair(&pair(rng)),
        2 if rng.one_in(4) => two_nets(&other_nets(rng)),
        2 => two_nets(&nets(rng)),
        _ => text_of_run(rng, false),
    }
}

/// Cards with a sheet line put wrong.
fn text_of_stray(rng: &mut Rng) -> Vec<u8> {
    let mut bytes = any_cards(rng);
    if rng.one_in(6) {
        damage(rng, &mut bytes);
    }
    for _ in 0..rng.pick(&[1, 1, 1, 2]) {
        stray_sheet(rng, &mut bytes);
    }
    bytes
}

fn text_of_damaged(rng: &mut Rng) -> Vec<u8> {
    let mut bytes = any_cards(rng);
    for _ in 0..rng.pick(&[1, 1, 1, 1, 2, 3]) {
        damage(rng, &mut bytes);
    }
    bytes
}

/// A net card with an order card behind it.
pub fn with_order((net, order): &(Net, Order)) -> Vec<u8> {
    (net.card() + &order.card()).into_bytes()
}

/// A net card with a run card behind it.
pub fn with_run((net, run): &(Net, Run)) -> Vec<u8> {
    (net.card() + &run.card()).into_bytes()
}

// Nets

#[derive(Clone, Copy, PartialEq, Eq)]
pub enum Size {
    Small,
    Typical,
    Any,
    Largest,
}

fn size(rng: &mut Rng) -> Size {
    rng.pick(&[
        Size::Small,
        Size::Small,
        Size::Typical,
        Size::Any,
        Size::Largest,
    ])
}

fn memory(rng: &mut Rng) -> Memory {
    rng.pick(&[Memory::Intermediate, Memory::Atomic, Memory::Carry])
}

fn sheet(rng: &mut Rng) -> u64 {
    let any = rng.within(0, 9999);
    rng.pick(&[0, 1, 1, 7, any, any, 9999])
}

fn sizes(rng: &mut Rng, size: Size) -> (usize, usize) {
    let (places, transitions) = match size {
        Size::Small => (rng.within(1, 3), rng.within(1, 4)),
        Size::Typical => (rng.within(2, 8), rng.within(2, 12)),
        Size::Any => (rng.within(1, 16), rng.within(1, 32)),
        Size::Largest => (16, 32),
    };
    (places as usize, transitions as usize)
}

/// An interval, its numbers mostly up to `scale`.
fn interval(rng: &mut Rng, scale: u64) -> (u64, Option<u64>) {
    let earliest = rng.within(0, scale);
    match rng.below(9) {
        0 => (0, None),
        1 => (earliest, None),
        2 => (earliest, Some(earliest)),
        3 | 4 => (earliest, Some((earliest + rng.within(0, 3)).min(1000))),
        5 => (0, Some(earliest)),
        6 => (rng.pick(&[0, 1, 999, 1000]), rng.pick(&[Some(1000), None])),
        _ => (earliest, Some(rng.within(earliest, scale))),
    }
}

/// The weights of a transition: what it takes and what it gives.
fn weights(rng: &mut Rng, places: usize, full: bool) -> (Vec<u64>, Vec<u64>) {
    let (mut take, mut give) = (vec![0; places], vec![0; places]);
    match rng.below(if full { 14 } else { 12 }) {
        0..=2 => {
            take[rng.index(places)] = 1;
            give[rng.index(places)] = 1;
        }
        3 | 4 => {
            for _ in 0..2 {
                take[rng.index(places)] += 1;
                give[rng.index(places)] += 1;
            }
        }
        5 | 6 => {
            let place = rng.index(places);
            let weight = rng.within(1, 2);
            (take[place], give[place]) = (weight, weight);
        }
        7 => give[rng.index(places)] = rng.within(0, 2),
        8 => take[rng.index(places)] = rng.within(0, 2),
        9 => {
            for place in 0..places {
                let weight = rng.below(3);
                take[place] = weight;
                give[place] = if rng.one_in(3) { rng.below(3) } else { weight };
            }
        }
        10 => {
            for place in 0..places {
                take[place] = rng.pick(&[0, 0, 0, 1]);
                give[place] = rng.pick(&[0, 0, 0, 1, 2]);
            }
        }
        11 => give[rng.index(places)] = rng.pick(&[1, 10, 100, 255]),
        _ => {
            let place = rng.index(places);
            take[place] = rng.pick(&[1, 100, 254, 255]);
            give[place] = rng.pick(&[0, 1, 100, 254, 255]);
            let other = rng.index(places);
            give[other] = (give[other] + rng.below(2)).min(255);
        }
    }
    (take, give)
}

pub fn net(rng: &mut Rng, size: Size) -> Net {
    let (places, transitions) = sizes(rng, size);
    net_of(rng, places, transitions)
}

/// A net with so many places and transitions.
pub fn net_of(rng: &mut Rng, places: usize, transitions: usize) -> Net {
    let style = rng.below(8);
    let scale = rng.pick(&[2, 5, 20, 1000]);
    let start = (0..places).map(|_| match style {
        0 => 0,
        1 => rng.within(240, 255),
        2 => rng.pick(&[0, 1, 9, 10, 99, 100, 254, 255]),
        3 => rng.within(0, 20),
        _ => rng.within(0, 3),
    });
    let start = start.collect();
    let transitions = (0..transitions).map(|_| {
        let (earliest, latest) = interval(rng, scale);
        let (take, give) = weights(rng, places, style == 1 || style == 2);
        Transition {
            earliest,
            latest,
            take,
            give,
        }
    });
    let transitions = transitions.collect();
    Net {
        sheet: sheet(rng),
        start,
        transitions,
    }
}

// Runs

fn passes(net: &Net, marking: &[u64], fire: usize) -> bool {
    net.after(marking, fire).iter().any(|&tokens| tokens > 255)
}

/// The least and the most parts to wait before a transition may fire, if it may at all.
fn waits(net: &Net, state: &State, denominator: u64, fire: usize) -> Option<(u64, Option<u64>)> {
    let clock = state.clocks[fire]?;
    let transition = &net.transitions[fire];
    let least = (transition.earliest * denominator).saturating_sub(clock);
    let most = match transition.latest {
        Some(latest) => Some((latest * denominator).checked_sub(clock)?),
        None => None,
    };
    (!passes(net, &state.marking, fire)).then_some((least, most))
}

fn wait(rng: &mut Rng, denominator: u64, least: u64, most: Option<u64>) -> u64 {
    let far = rng.pick(&[denominator, 3 * denominator, 1000 * denominator, 10_000_000]);
    let most = most.unwrap_or(least + far).min(10_000_000);
    match rng.below(7) {
        0..=2 => least,
        3 => most,
        4 => rng.within(least, most.min(least + denominator)),
        5 => rng.within(least, most),
        _ => rng.within(least, most.min(least + 2)),
    }
}

fn rest(rng: &mut Rng) -> u64 {
    let any = rng.within(0, 10_000_000);
    let few = rng.within(0, 2000);
    rng.pick(&[0, 0, 1, few, few, any, 10_000_000])
}

/// A run that the net allows, of at most so many firings, and its last state before the rest.
pub fn run(rng: &mut Rng, net: &Net, denominator: u64, firings: usize) -> (Run, State) {
    let memory = memory(rng);
    let mut state = State::start(net);
    let mut run = Run {
        sheet: net.sheet,
        memory,
        denominator,
        firings: Vec::new(),
        rest: rest(rng),
    };
    let urgent = rng.below(4);
    while run.firings.len() < firings {
        let all = 0..net.transitions.len();
        let mut able: Vec<_> = all
            .filter_map(|fire| Some((fire, waits(net, &state, denominator, fire)?)))
            .collect();
        if able.is_empty() {
            break;
        }
        // Those that will soon be too late go first at times, so that runs last longer.
        if rng.below(4) < urgent {
            able.sort_by_key(|&(_, (_, most))| most.unwrap_or(u64::MAX));
            able.truncate(2);
        }
        let (fire, (least, most)) = rng.pick(&able);
        let wait = wait(rng, denominator, least, most);
        state.wait(wait);
        state
            .fire(net, memory, denominator, fire)
            .expect("chosen to be allowed");
        run.firings.push((wait, fire));
    }
    (run, state)
}

fn denominator(rng: &mut Rng) -> u64 {
    let any = rng.within(1, 1000);
    rng.pick(&[1, 2, 3, 10, any, any, 999, 1000])
}

fn length(rng: &mut Rng) -> usize {
    let any = rng.within(0, 64);
    let few = rng.within(0, 8);
    rng.pick(&[few, few, few, any, 64]) as usize
}

fn text_of_run(rng: &mut Rng, near: bool) -> Vec<u8> {
    let size = size(rng);
    let mut net = net(rng, size);
    let denominator = denominator(rng);
    let length = length(rng);
    let (mut run, state) = run(rng, &net, denominator, length);
    if near {
        for _ in 0..rng.pick(&[1, 1, 2]) {
            miss(rng, &mut net, &mut run, &state);
        }
    }
    with_run(&(net, run))
}

/// Turns an accepted run into one that may just not be.
fn miss(rng: &mut Rng, net: &mut Net, run: &mut Run, end: &State) {
    let firings = run.firings.len();
    let transitions = net.transitions.len();
    let firing = rng.index(firings.max(1)).min(firings.saturating_sub(1));
    match rng.below(11) {
        0..=2 if firings > 0 => {
            let wait = &mut run.firings[firing].0;
            *wait = if rng.one_in(2) {
                (*wait + 1).min(10_000_000)
            } else {
                wait.saturating_sub(1)
            };
        }
        3 if firings > 0 => run.firings[firing].1 = rng.index(transitions),
        4 => {
            run.memory = match run.memory {
                Memory::Intermediate => Memory::Atomic,
                Memory::Atomic => Memory::Carry,
                Memory::Carry => Memory::Intermediate,
            }
        }
        5 if firings > 0 => {
            let transition = &mut net.transitions[run.firings[firing].1];
            if rng.one_in(2) {
                transition.earliest = (transition.earliest + 1).min(1000);
                transition.latest = transition
                    .latest
                    .map(|latest| latest.max(transition.earliest));
            } else if let Some(latest) = transition.latest {
                transition.latest = Some(latest.saturating_sub(1).max(transition.earliest));
            }
        }
        6 => {
            let place = rng.index(net.start.len());
            let more = (net.start[place] + 1).min(255);
            net.start[place] = rng.pick(&[more, net.start[place].saturating_sub(1), 255]);
        }
        7 if firings > 1 => {
            let other = rng.index(firings);
            let fire = run.firings[other].1;
            run.firings[other].1 = run.firings[firing].1;
            run.firings[firing].1 = fire;
        }
        // One more firing that fills a place too much, in its window or not.
        8 if firings < 64 => {
            let full =
                |&fire: &usize| end.clocks[fire].is_some() && passes(net, &end.marking, fire);
            let full: Vec<usize> = (0..transitions).filter(full).collect();
            if !full.is_empty() {
                let fire = rng.pick(&full);
                let clock = end.clocks[fire].expect("enabled");
                let least = net.transitions[fire].earliest * run.denominator;
                let wait = least.saturating_sub(clock);
                let wait = rng.pick(&[wait, wait, wait, wait.saturating_sub(1)]);
                run.firings.push((wait, fire));
            }
        }
        // One more firing, at, before or past its window, or of any transition.
        _ if firings < 64 => {
            let fire = rng.index(transitions);
            let at = waits(net, end, run.denominator, fire);
            let (least, most) = at.unwrap_or((rng.below(3), None));
            let most = most.unwrap_or(least);
            let wait = rng.pick(&[least, most, least.saturating_sub(1), most + 1]);
            run.firings.push((wait.min(10_000_000), fire));
        }
        _ => run.denominator = (run.denominator + 1).min(1000),
    }
}

// Orders

/// An order that the tokens allow, of at most so many firings, and its last marking.
fn token_order(rng: &mut Rng, net: &Net, firings: usize) -> (Order, Vec<u64>) {
    let mut order = Order {
        sheet: net.sheet,
        memory: memory(rng),
        fire: Vec::new(),
    };
    let mut marking = net.start.clone();
    while order.fire.len() < firings {
        let able: Vec<usize> = (0..net.transitions.len())
            .filter(|&fire| net.enabled(&marking, fire) && !passes(net, &marking, fire))
            .collect();
        if able.is_empty() {
            break;
        }
        let fire = rng.pick(&able);
        marking = net.after(&marking, fire);
        order.fire.push(fire);
    }
    (order, marking)
}

fn text_of_order(rng: &mut Rng) -> Vec<u8> {
    let size = size(rng);
    let mut net = net(rng, size);
    let length = length(rng);
    let mut order = if rng.one_in(2) {
        run(rng, &net, 1, length).0.order()
    } else {
        // With few upper bounds there is more to be timed.
        let every = rng.pick(&[1, 1, 2, 4]);
        for transition in &mut net.transitions {
            if !rng.one_in(every) {
                transition.latest = None;
            }
        }
        token_order(rng, &net, length).0
    };
    let transitions = net.transitions.len();
    if rng.one_in(4) && order.fire.len() < 64 {
        order.fire.push(rng.index(transitions));
    }
    if rng.one_in(10) && !order.fire.is_empty() {
        let at = rng.index(order.fire.len());
        order.fire[at] = rng.index(transitions);
    }
    if rng.one_in(10) {
        order.memory = memory(rng);
    }
    with_order(&(net, order))
}

/// An order whose windows are drawn as tight as one of its timings allows, or a tick tighter.
pub fn tight_order(rng: &mut Rng) -> (Net, Order) {
    let size = size(rng);
    let mut net = net(rng, size);
    for transition in &mut net.transitions {
        (transition.earliest, transition.latest) = (0, None);
    }
    let length = length(rng).max(3);
    let (order, _) = token_order(rng, &net, length);
    let scale = rng.pick(&[1, 2, 30, 400]);
    let mut state = State::start(&net);
    let mut seen: Vec<Option<(u64, u64)>> = vec![None; net.transitions.len()];
    for &fire in &order.fire {
        state.wait(rng.within(0, scale));
        let clock = state.clocks[fire].expect("allowed by the tokens");
        let (least, most) = seen[fire].unwrap_or((clock, clock));
        seen[fire] = Some((least.min(clock), most.max(clock)));
        state
            .fire(&net, order.memory, 1, fire)
            .expect("without windows");
    }
    let loose = rng.pick(&[1, 2, 4]);
    for (transition, seen) in net.transitions.iter_mut().zip(seen) {
        let Some((least, most)) = seen else { continue };
        if rng.one_in(loose) {
            transition.earliest = least.min(1000);
            transition.latest = (most <= 1000).then_some(most);
        }
    }
    if !order.fire.is_empty() {
        tighten(rng, &mut net, &order);
    }
    (net, order)
}

/// What the plain version makes of an order.
fn timetable(net: &Net, order: &Order) -> Outcome {
    let input = (net.card() + &order.card()).into_bytes();
    Outcome::of(plain::timetable(&input, &mut [0; 2048]))
}

/// Moves ends of windows as far in as a timing allows, and at times the last of them one tick more.
fn tighten(rng: &mut Rng, net: &mut Net, order: &Order) {
    for _ in 0..rng.within(0, 3) {
        let fire = rng.pick(&order.fire);
        let Transition {
            earliest, latest, ..
        } = net.transitions[fire];
        let upper = rng.one_in(2);
        // The timing is there at `good`, and may be gone at `bad`.
        let (mut good, mut bad) = match (upper, latest) {
            (true, _) => (latest.unwrap_or(1000), earliest),
            (false, _) => (earliest, latest.unwrap_or(1000)),
        };
        let mut try_at = |end: u64| {
            let transition = &mut net.transitions[fire];
            if upper {
                transition.latest = Some(end);
            } else {
                transition.earliest = end;
            }
            matches!(timetable(net, order), Outcome::Answer { .. })
        };
        if !try_at(good) || try_at(bad) {
            continue;
        }
        while good.abs_diff(bad) > 1 {
            let middle = good.midpoint(bad);
            if try_at(middle) {
                good = middle;
            } else {
                bad = middle;
            }
        }
        if rng.one_in(3) {
            try_at(bad);
            return;
        }
        try_at(good);
    }
}

// Inputs for the benchmark

/// A run of the largest net with 64 firings, accepted, its clocks and markings varied.
pub fn large_run(rng: &mut Rng) -> (Net, Run) {
    loop {
        let net = net(rng, Size::Largest);
        let (run, _) = run(rng, &net, 60, 64);
        if is_varied(&run.order()) {
            return (net, run);
        }
    }
}

/// An order of the largest net with 64 firings that has a timing.
pub fn large_order(rng: &mut Rng) -> (Net, Order) {
    loop {
        let net = net(rng, Size::Largest);
        let order = run(rng, &net, 1, 64).0.order();
        if is_varied(&order) {
            return (net, order);
        }
    }
}

fn is_varied(order: &Order) -> bool {
    let kinds: BTreeSet<usize> = order.fire.iter().copied().collect();
    order.fire.len() == 64 && kinds.len() >= 8
}
