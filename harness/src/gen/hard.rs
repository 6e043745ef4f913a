//! Orders that are hard to time.

use super::{memory, sheet, timetable, Rng};
use crate::naive::{Memory, Net, Order, Transition};
use crate::Outcome;

/// The sheet of the nets and orders as they are built here.
const SHEET: u64 = 1;

/// An order that takes many steps to time, or to be found untimable, often late.
pub fn hard_order(rng: &mut Rng) -> (Net, Order) {
    let (mut net, mut order) = match rng.below(7) {
        0 | 1 => trains(rng),
        2 | 3 => random_zigzag(rng),
        4 | 5 => ring(rng),
        _ => slow(rng),
    };
    if rng.one_in(6) {
        order.memory = memory(rng);
    }
    if rng.one_in(3) {
        delay(&mut net, &mut order);
    }
    net.sheet = sheet(rng);
    order.sheet = net.sheet;
    (net, order)
}

/// Puts idle firings in front of an untimable order, so that only all 64 firings have no timing.
fn delay(net: &mut Net, order: &mut Order) {
    let outcome = timetable(net, order);
    if let (Outcome::Refusal { number: 8, place }, true) = (outcome, net.transitions.len() < 32) {
        let idle = net.transitions.len();
        let nothing = vec![0; net.start.len()];
        net.transitions
            .push(transition(0, None, nothing.clone(), nothing));
        order.fire.truncate(place as usize);
        order.fire.splice(0..0, vec![idle; 64 - place as usize]);
    }
}

fn transition(earliest: u64, latest: Option<u64>, take: Vec<u64>, give: Vec<u64>) -> Transition {
    Transition {
        earliest,
        latest,
        take,
        give,
    }
}

/// A list with `weight` at one place.
fn unit(places: usize, place: usize, weight: u64) -> Vec<u64> {
    let mut list = vec![0; places];
    list[place] = weight;
    list
}

/// Two pulse trains in turn, of which the first gains a little in every round on the second, whose
/// start has some slack: so no timing is left from some round on, often a late one.
fn trains(rng: &mut Rng) -> (Net, Order) {
    let period = rng.pick(&[1, 7, 40, 990]);
    let gain = rng.within(1, 3.min(period));
    let slack = rng.within(0, gain * 34);
    drift(period, gain, slack, memory(rng))
}

/// Train 0 has exactly `period`, train 1 up to `gain` less, and transition 2 starts it within
/// `slack`. Transition 3 idles, so that train 1 has the last of the 64 firings.
fn drift(period: u64, gain: u64, slack: u64, memory: Memory) -> (Net, Order) {
    let train = |place| (unit(3, place, 1), unit(3, place, 1));
    let (take_0, give_0) = train(0);
    let (take_1, give_1) = train(1);
    let net = Net {
        sheet: SHEET,
        start: vec![1, 0, 1],
        transitions: vec![
            transition(period, Some(period), take_0, give_0),
            transition(0, Some(period - gain), take_1, give_1),
            transition(0, Some(slack), unit(3, 2, 1), unit(3, 1, 1)),
            transition(0, None, vec![0; 3], vec![0; 3]),
        ],
    };
    let fire = [3, 2].into_iter().chain([0, 1].into_iter().cycle());
    let order = Order {
        sheet: SHEET,
        memory,
        fire: fire.take(64).collect(),
    };
    (net, order)
}

/// Trains on their own places, each with several transitions of nearly equal intervals, in turn.
fn ring(rng: &mut Rng) -> (Net, Order) {
    let trains = rng.within(2, 6) as usize;
    let period = rng.pick(&[3, 30, 900]);
    let mut transitions = Vec::new();
    for index in 0..trains * 5 {
        let earliest = period + rng.below(4) - rng.below(4);
        let latest = (!rng.one_in(4)).then_some(earliest + rng.below(4));
        let weight = unit(trains, index % trains, 1);
        transitions.push(transition(earliest, latest, weight.clone(), weight));
    }
    let net = Net {
        sheet: SHEET,
        start: vec![1; trains],
        transitions,
    };
    let fire = (0..64).map(|at| at % trains + trains * rng.index(5));
    let order = Order {
        sheet: SHEET,
        memory: Memory::Intermediate,
        fire: fire.collect(),
    };
    (net, order)
}

/// Instants up to 64,000: one train with nearly the longest periods, and others among its firings
/// that count from the beginning or from their last one.
fn slow(rng: &mut Rng) -> (Net, Order) {
    let period = rng.pick(&[1000, 1000, 999, 990]);
    let latest = rng.pick(&[None, Some(period), Some(1000)]);
    let net = Net {
        sheet: SHEET,
        start: vec![1, 1],
        transitions: vec![
            transition(period, latest, unit(2, 0, 1), unit(2, 0, 1)),
            transition(rng.below(1001), None, unit(2, 1, 1), unit(2, 1, 1)),
            transition(0, rng.pick(&[None, Some(1000)]), vec![0; 2], vec![0; 2]),
        ],
    };
    let memory = memory(rng);
    let others = rng.pick(&[1, 4, 20]);
    let mut fire = vec![0; rng.within(60, 64) as usize];
    for fire in &mut fire {
        if rng.below(64) < others {
            *fire = rng.index(3);
        }
    }
    let order = Order {
        sheet: SHEET,
        memory,
        fire,
    };
    (net, order)
}

/// What a zigzag is made of.
struct Zigzag {
    /// The most ticks between a tight firing and the third train firing before it.
    tight: u64,
    /// Train firings in front of the first alarm.
    head: usize,
    /// Alarms, each with two train firings behind it.
    alarms: usize,
    /// The first alarm's instant, and how much later each further one is.
    first: u64,
    step: u64,
    /// An upper bound on the instant of the first train firing.
    limit: Option<u64>,
    /// How long after the first train firing the last alarm is, if it counts from there.
    echo: Option<u64>,
}

/// Three trains in turn, every second of their firings tight, and alarms between them that have run
/// from the beginning. The tight firing behind an alarm draws the third train firing before it after
/// it, that one pushes the next, which is tight again and draws the third before it, and so down to
/// the first firing: one bend for every second train firing, at each alarm anew. With an echo, the
/// last alarm closes this into a cycle.
fn zigzag(shape: &Zigzag) -> (Net, Order) {
    const TRAINS: usize = 3;
    const PLACES: usize = TRAINS + 1;
    let train =
        |latest, place| transition(0, latest, unit(PLACES, place, 1), unit(PLACES, place, 1));
    let mut transitions: Vec<Transition> = (0..TRAINS).map(|place| train(None, place)).collect();
    transitions.extend((0..TRAINS).map(|place| train(Some(shape.tight), place)));
    let opening = transitions.len();
    transitions.push(train(shape.limit, 0));
    transitions[opening].give[TRAINS] = 1;
    let echo = transitions.len();
    let delay = shape.echo.unwrap_or(0);
    transitions.push(transition(
        delay,
        None,
        unit(PLACES, TRAINS, 1),
        vec![0; PLACES],
    ));
    let alarm = transitions.len();
    for index in 0..shape.alarms as u64 {
        let at = shape.first + index * shape.step;
        transitions.push(transition(at, None, vec![0; PLACES], vec![0; PLACES]));
    }
    let train_firing = |at: usize| match at {
        0 => opening,
        _ if at < TRAINS || at % 2 != shape.head % 2 => at % TRAINS,
        _ => TRAINS + at % TRAINS,
    };
    let mut fire: Vec<usize> = (0..shape.head).map(train_firing).collect();
    for index in 0..shape.alarms {
        let last = index + 1 == shape.alarms;
        fire.push(if last && shape.echo.is_some() {
            echo
        } else {
            alarm + index
        });
        fire.push(train_firing(shape.head + 2 * index));
        fire.push(train_firing(shape.head + 2 * index + 1));
    }
    fire.truncate(64);
    let net = Net {
        sheet: SHEET,
        start: vec![1, 1, 1, 0],
        transitions,
    };
    let order = Order {
        sheet: SHEET,
        memory: Memory::Intermediate,
        fire,
    };
    (net, order)
}

fn random_zigzag(rng: &mut Rng) -> (Net, Order) {
    let alarms = rng.within(1, 18) as usize;
    let head = rng.within(3, 20) as usize;
    let first = rng.within(0, 600);
    let step = rng.within(0, (1000 - first) / alarms as u64);
    let limit = rng.within(0, 1000);
    let tight = rng.pick(&[0, 1, 2, 10, 40]);
    // About the length of the cycle.
    let echo = tight * (head / 2 + alarms - 1) as u64 + rng.below(3);
    zigzag(&Zigzag {
        tight,
        head,
        alarms,
        first,
        step,
        limit: rng.pick(&[None, None, Some(limit), Some(first)]),
        echo: rng.pick(&[None, Some(echo.saturating_sub(1).min(1000))]),
    })
}

/// An order without a timing from firing 64 on, by a cycle of 47 train firings that gains one tick.
pub fn bends_to_the_last() -> (Net, Order) {
    zigzag(&Zigzag {
        tight: 10,
        head: 17,
        alarms: 16,
        first: 400,
        step: 30,
        limit: None,
        echo: Some(231),
    })
}

/// An order without a timing from firing 64 on, by one tick in 30,690.
pub fn drift_to_the_last() -> (Net, Order) {
    drift(990, 1, 30, Memory::Atomic)
}

/// An order with a timing that takes the sweeps of the plain version 579 passes in all, found by
/// annealing from a zigzag. Each transition has earliest, latest and the train it belongs to, if any.
pub fn most_sweeps() -> (Net, Order) {
    const TRAINS: usize = 3;
    const TRANSITIONS: [(u64, Option<u64>, Option<usize>); 22] = [
        (1, Some(11), Some(0)),
        (6, Some(18), Some(1)),
        (19, None, Some(2)),
        (0, Some(5), Some(0)),
        (1, Some(9), Some(1)),
        (1, Some(1), Some(2)),
        (0, None, Some(0)),
        (432, Some(915), None),
        (232, None, None),
        (689, None, None),
        (623, Some(958), None),
        (451, Some(872), None),
        (497, Some(1000), None),
        (891, Some(986), None),
        (297, Some(841), None),
        (7, Some(39), Some(2)),
        (401, Some(925), None),
        (22, None, Some(1)),
        (3, None, Some(2)),
        (705, Some(938), None),
        (483, Some(939), None),
        (181, Some(908), None),
    ];
    const FIRE: [usize; 64] = [
        6, 2, 3, 17, 5, 6, 1, 18, 3, 1, 5, 6, 1, 18, 3, 1, 5, 21, 0, 4, 8, 15, 3, 14, 1, 0, 5, 16,
        15, 0, 4, 15, 3, 7, 1, 3, 5, 11, 0, 4, 20, 15, 4, 3, 12, 0, 4, 5, 10, 15, 0, 4, 9, 15, 4,
        3, 19, 4, 3, 5, 13, 15, 1, 0,
    ];
    let transitions = TRANSITIONS.iter().map(|&(earliest, latest, train)| {
        let weight = train.map_or(vec![0; TRAINS], |place| unit(TRAINS, place, 1));
        transition(earliest, latest, weight.clone(), weight)
    });
    let net = Net {
        sheet: SHEET,
        start: vec![1; TRAINS],
        transitions: transitions.collect(),
    };
    let order = Order {
        sheet: SHEET,
        memory: Memory::Intermediate,
        fire: FIRE.to_vec(),
    };
    (net, order)
}
