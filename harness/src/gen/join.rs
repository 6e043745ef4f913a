//! Nets to be joined.

use super::damage::NUMBERS;
use super::{net_of, sizes, Rng, Size};
use crate::naive::{list, Net};

const PLACES: usize = 16;
const TRANSITIONS: usize = 32;

/// Two nets, and the numbers of the `pairs` line behind them.
pub type Nets = (Net, Net, Vec<u64>);

/// Two net cards, and the line of their pairs.
pub fn two_nets((first, second, numbers): &Nets) -> Vec<u8> {
    let line = format!("pairs={}\n", list(numbers));
    (first.card() + &second.card() + &line).into_bytes()
}

/// Two nets that can be joined, often just so.
pub fn nets(rng: &mut Rng) -> Nets {
    let (places, transitions, pairs) = shape(rng);
    let [first, second] = [0, 1].map(|side| net_of(rng, places[side], transitions[side]));
    paired(rng, first, second, pairs)
}

/// Two nets that can be joined without pairs.
pub fn nets_apart(rng: &mut Rng) -> (Net, Net) {
    loop {
        let (first, second, _) = nets(rng);
        if first.start.len() + second.start.len() <= PLACES {
            return (first, second);
        }
    }
}

/// The places and the transitions of two nets that can be joined by so many pairs.
fn shape(rng: &mut Rng) -> ([usize; 2], [usize; 2], usize) {
    let (small, any) = (Size::Small, Size::Any);
    let size = rng.pick(&[small, small, Size::Typical, any, any, Size::Largest]);
    let places = [(); 2].map(|()| sizes(rng, size).0);
    let most = places[0].min(places[1]);
    let least = (places[0] + places[1]).saturating_sub(PLACES);
    let some = least + rng.index(most - least + 1);
    let pairs = rng.pick(&[least, least, some, some, most]);

    let one = sizes(rng, size).1.min(TRANSITIONS - 1);
    let one = rng.pick(&[one, one, 1, TRANSITIONS / 2]);
    let left = TRANSITIONS - one;
    let few = 1 + rng.index(left.min(4));
    let some = 1 + rng.index(left);
    let other = rng.pick(&[few, few, some, left]);
    let transitions = rng.pick(&[[one, other], [other, one]]);
    (places, transitions, pairs)
}

/// So many of the numbers below a count, in any order or ascending.
fn some_of(rng: &mut Rng, count: usize, some: usize) -> Vec<usize> {
    let mut numbers: Vec<usize> = (0..count).collect();
    for at in 0..some {
        numbers.swap(at, at + rng.index(count - at));
    }
    numbers.truncate(some);
    if rng.one_in(3) {
        numbers.sort_unstable();
    }
    numbers
}

/// The nets with so many pairs of places, the second's starts put right.
fn paired(rng: &mut Rng, first: Net, mut second: Net, pairs: usize) -> Nets {
    let ones = some_of(rng, first.start.len(), pairs);
    let others = some_of(rng, second.start.len(), pairs);
    let mut numbers = Vec::new();
    for (one, other) in ones.into_iter().zip(others) {
        second.start[other] = first.start[one];
        numbers.extend([one as u64, other as u64]);
    }
    (first, second, numbers)
}

// Lists and nets that are refused

/// Two nets and a list that is mostly refused, at times on two grounds.
pub fn other_nets(rng: &mut Rng) -> Nets {
    let mut nets = nets(rng);
    for _ in 0..rng.pick(&[1, 1, 2]) {
        match rng.below(15) {
            0 => odd(rng, &mut nets),
            1 | 2 => no_place(rng, &mut nets),
            3 | 4 => twice(rng, &mut nets),
            5..=8 => unequal(rng, &mut nets),
            9 | 10 => more_places(rng, &mut nets),
            11..=13 => more_transitions(rng, &mut nets),
            _ => longer(rng, &mut nets),
        }
    }
    nets
}

/// A number more or less.
fn odd(rng: &mut Rng, (first, _, numbers): &mut Nets) {
    if rng.one_in(2) && !numbers.is_empty() {
        numbers.remove(rng.index(numbers.len()));
    } else {
        let place = rng.index(first.start.len()) as u64;
        numbers.insert(rng.index(numbers.len() + 1), place);
    }
}

/// A number on one side that is just no place there, or far from one; or a pair the wrong way round.
fn no_place(rng: &mut Rng, (first, second, numbers): &mut Nets) {
    if numbers.len() < 2 {
        *numbers = vec![0, 0];
    }
    let at = rng.index(numbers.len());
    let places = [first, second][at % 2].start.len() as u64;
    let old = numbers[at];
    let far = rng.pick(&[16, 32 + old, 64 + old, 256 + old, 65_536 + old, 999_999_999]);
    match rng.below(6) {
        0 if at % 2 == 1 => numbers.swap(at - 1, at),
        1 => numbers[at] = places + 1,
        2 | 3 => numbers[at] = far,
        _ => numbers[at] = places,
    }
}

/// A place of one side that is in no pair, if there is one.
fn unpaired(rng: &mut Rng, net: &Net, numbers: &[u64], side: usize) -> u64 {
    let places = net.start.len() as u64;
    let paired: Vec<u64> = numbers.iter().copied().skip(side).step_by(2).collect();
    let free: Vec<u64> = (0..places)
        .filter(|place| !paired.contains(place))
        .collect();
    match free.is_empty() {
        true => rng.below(places),
        false => rng.pick(&free),
    }
}

/// One more pair that names a place again, on one side or both.
fn twice(rng: &mut Rng, (first, second, numbers): &mut Nets) {
    if numbers.len() < 2 {
        *numbers = vec![0, 0];
    }
    let one = unpaired(rng, first, numbers, 0);
    let other = unpaired(rng, second, numbers, 1);
    let again = 2 * rng.index(numbers.len() / 2);
    let (old_one, old_other) = (numbers[again], numbers[again + 1]);
    let pair = rng.pick(&[[old_one, other], [one, old_other], [old_one, old_other]]);
    let at = 2 * rng.index(numbers.len() / 2 + 1);
    numbers.splice(at..at, pair);
}

/// Another start for a place, mostly one that is paired.
fn unequal(rng: &mut Rng, (first, second, numbers): &mut Nets) {
    if numbers.is_empty() {
        numbers.extend([0, 0]);
    }
    let side = rng.index(2);
    let start = [&mut first.start, &mut second.start][side].as_mut_slice();
    let paired = numbers.iter().skip(side).step_by(2);
    let mut places: Vec<usize> = paired.map(|&place| place as usize).collect();
    places.retain(|&place| place < start.len());
    if places.is_empty() || rng.one_in(6) {
        places.push(rng.index(start.len()));
    }
    let at = rng.pick(&places);
    let any = rng.below(256);
    let (more, less) = ((start[at] + 1) % 256, start[at].saturating_sub(1));
    start[at] = rng.pick(&[more, more, less, any, 0, 255]);
}

/// Another second net, with which the joined one has 17 places, or fewer pairs.
fn more_places(rng: &mut Rng, nets: &mut Nets) {
    let (first, second, numbers) = nets;
    if rng.one_in(3) {
        return numbers.truncate(2 * rng.index(numbers.len() / 2 + 1));
    }
    let pairs = rng.index(first.start.len());
    let places = PLACES + 1 - first.start.len() + pairs;
    let second = net_of(rng, places, second.transitions.len());
    *nets = paired(rng, first.clone(), second, pairs);
}

/// So many transitions on one side that the joined net has too many, mostly by one.
fn more_transitions(rng: &mut Rng, (first, second, _): &mut Nets) {
    let all = first.transitions.len() + second.transitions.len();
    let beyond = rng.pick(&[0, 1, 1, 1, 2, 30]);
    let more = (TRANSITIONS + beyond).saturating_sub(all);
    let net = if rng.one_in(2) { first } else { second };
    let new = net_of(rng, net.start.len(), more);
    net.transitions.extend(new.transitions);
    net.transitions.truncate(TRANSITIONS);
}

/// Many more numbers: the right ones again, zeros, or any places.
fn longer(rng: &mut Rng, (_, _, numbers): &mut Nets) {
    let more = rng.pick(&[2, 32, 33, 34, 40, 64, 99, 256, 300, 700]);
    let mut again = numbers.clone();
    again.push(0);
    let style = rng.below(3);
    for at in 0..more {
        numbers.push(match style {
            0 => 0,
            1 => again[at % again.len()],
            _ => rng.below(PLACES as u64),
        });
    }
}

// The line

/// Two nets, mostly such as can be joined, and a line of pairs that is mostly malformed.
pub fn list_line(rng: &mut Rng) -> Vec<u8> {
    let (first, second, numbers) = match rng.below(4) {
        0 => other_nets(rng),
        _ => nets(rng),
    };
    let mut bytes = (first.card() + &second.card()).into_bytes();
    bytes.extend(line(rng, &numbers));
    bytes
}

const VALUES: [&str; 18] = [
    "", "None", "non", "nonee", "none ", " none", "none,", "none,0,0", "0,none", ",", "0", "0,",
    ",0", "0,,0", "0, 0", "0 0", "-0,0", "0.0",
];

const ENDS: [&str; 18] = [
    "",
    ",",
    ",\n",
    " \n",
    "\r\n",
    "\r",
    ",none\n",
    ",00\n",
    ",01\n",
    ",1000000000\n",
    ",4294967296\n",
    ",999999999\n",
    "\n\n",
    "\nx",
    "\n\0",
    "\n0",
    "\npairs=none\n",
    "\nsheet=1\n",
];

/// What may stand in the place of the line with this list.
fn line(rng: &mut Rng, numbers: &[u64]) -> Vec<u8> {
    let own = list(numbers);
    let text = match rng.below(10) {
        0 | 1 => format!("pairs={}\n", rng.pick(&VALUES)),
        2..=4 => format!("pairs={own}{}", rng.pick(&ENDS)),
        5 => {
            let key = rng.pick(&[
                "", "pairs", "pair=", "Pairs=", "pairs:", " pairs=", "pairs==",
            ]);
            format!("{key}{own}\n")
        }
        6 | 7 => {
            // Another text for one number, or beside them.
            let mut items: Vec<String> = numbers.iter().map(u64::to_string).collect();
            let at = rng.index(items.len() + 1);
            let lost = rng.index(2).min(items.len() - at);
            items.splice(at..at + lost, [rng.pick(&NUMBERS).to_owned()]);
            format!("pairs={}\n", items.join(","))
        }
        _ => return damaged(rng, format!("pairs={own}\n").into_bytes()),
    };
    text.into_bytes()
}

/// The line with one byte changed, added or lost, or cut short.
fn damaged(rng: &mut Rng, mut line: Vec<u8>) -> Vec<u8> {
    let at = rng.index(line.len());
    let byte = rng.pick(b"0123456789,,=\n\r -+.n\0\xff");
    match rng.below(4) {
        0 => line[at] = byte,
        1 => line.insert(at, byte),
        2 => drop(line.remove(at)),
        _ => line.truncate(at),
    }
    line
}

// Inputs for the benchmark

/// Two nets of 16 places, all paired, and of 16 transitions with weights of all sizes.
pub fn large_nets(rng: &mut Rng) -> Nets {
    let [first, second] = [(); 2].map(|()| {
        let mut net = net_of(rng, PLACES, TRANSITIONS / 2);
        for transition in &mut net.transitions {
            for weight in transition.take.iter_mut().chain(&mut transition.give) {
                *weight = rng.below(256);
            }
        }
        net
    });
    paired(rng, first, second, PLACES)
}
