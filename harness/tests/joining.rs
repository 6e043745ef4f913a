//! Joined nets at random: their runs against those of the nets they are made of, and what must not
//! matter.

use harness::engine::ENGINE;
use harness::gen::{self, Nets, Rng};
use harness::naive::{self, Memory, Net, Run};
use harness::{printed, NAIVE, OPERATIONS, PLAIN};
use std::collections::VecDeque;

const MOST_PARTS: u64 = 10_000_000;

/// What both versions print, and the engine under test.
fn prints(program: &str, input: &[u8]) -> String {
    let at = OPERATIONS.iter().position(|name| *name == program).unwrap();
    let [plain, naive, tested] = [PLAIN, NAIVE, ENGINE].map(|engine| printed(engine.operations[at], input));
    assert!(plain == naive && plain == tested, "{program} of {}", input.escape_ascii());
    String::from_utf8(plain).unwrap()
}

/// The joined net, read from the card that both versions print.
fn joined(nets: &Nets) -> Net {
    let card = prints("join", &gen::two_nets(nets));
    let (net, rest) = naive::read_net(card.as_bytes()).expect(&card);
    assert!(rest.is_empty());
    net
}

/// The net joined of two without pairs.
fn beside(first: &Net, second: &Net) -> Net {
    joined(&(first.clone(), second.clone(), Vec::new()))
}

/// The marking at the end and the clocks of a run, or the number and the place of its refusal.
fn replayed(net: &Net, run: &Run) -> Result<(Vec<String>, Vec<String>), (u64, usize)> {
    let text = prints("replay", (net.card() + &run.card()).as_bytes());
    let values: Vec<&str> = text
        .lines()
        .map(|line| line.split_once('=').unwrap().1)
        .collect();
    if text.starts_with("refused=") {
        return Err((values[0].parse().unwrap(), values[1].parse().unwrap()));
    }
    let strings = |values: Vec<&str>| values.into_iter().map(str::to_owned).collect();
    let end = values[0].split(',').collect();
    Ok((strings(end), strings(values[1..].to_vec())))
}

// Runs of the joined net and their sides

/// The firings of one side with their instants, and the same end; the places of these firings in the
/// run; nothing if a wait is too long for a card.
fn side(run: &Run, net: &Net, from: usize) -> Option<(Run, Vec<usize>)> {
    let mut side = Run {
        sheet: net.sheet,
        firings: Vec::new(),
        ..*run
    };
    let mut numbers = Vec::new();
    let mut last = 0;
    let instants = run.instants();
    for (at, &(_, fire)) in run.firings.iter().enumerate() {
        if (from..from + net.transitions.len()).contains(&fire) {
            side.firings.push((instants[at] - last, fire - from));
            numbers.push(at + 1);
            last = instants[at];
        }
    }
    side.rest = instants.last().unwrap() - last;
    let waits = side.firings.iter().map(|&(wait, _)| wait);
    let short = waits.chain([side.rest]).all(|wait| wait <= MOST_PARTS);
    short.then_some((side, numbers))
}

/// Checks a run of two nets joined without pairs against its sides: it is accepted exactly if both
/// are, and its end is theirs side by side; otherwise its refusal is the earlier of theirs.
/// Whether it is accepted; nothing if a side does not fit a card.
fn against_sides(first: &Net, second: &Net, both: &Net, run: &Run) -> Option<bool> {
    let (x, x_numbers) = side(run, first, 0)?;
    let (y, y_numbers) = side(run, second, first.transitions.len())?;
    let found = replayed(both, run);
    let place = |(number, place): (u64, usize), numbers: &[usize]| (number, numbers[place - 1]);
    let x = replayed(first, &x).map_err(|refusal| place(refusal, &x_numbers));
    let y = replayed(second, &y).map_err(|refusal| place(refusal, &y_numbers));
    let expected = match (x, y) {
        (Ok((x_end, x_clocks)), Ok((y_end, y_clocks))) => {
            Ok(([x_end, y_end].concat(), [x_clocks, y_clocks].concat()))
        }
        (Err(x), Err(y)) => Err(if x.1 < y.1 { x } else { y }),
        (Err(refusal), _) | (_, Err(refusal)) => Err(refusal),
    };
    assert_eq!(found, expected, "{}{}", both.card(), run.card());
    Some(found.is_ok())
}

/// A run that the net allows, of which one wait, one firing, the rest or nothing is put differently.
fn nearly(rng: &mut Rng, net: &Net) -> Run {
    let denominator = rng.pick(&[1, 2, 3, 10, 1000]);
    let (few, any) = (rng.index(9), rng.index(65));
    let length = rng.pick(&[few, few, any, 64]);
    let (mut run, _) = gen::run(rng, net, denominator, length);
    run.rest = run.rest.min(rng.pick(&[0, 100, MOST_PARTS]));
    let firings = run.firings.len();
    if firings == 0 {
        return run;
    }
    let firing = &mut run.firings[rng.index(firings)];
    match rng.below(5) {
        0 => firing.0 = (firing.0 + 1).min(MOST_PARTS),
        1 => firing.0 = firing.0.saturating_sub(1),
        2 => firing.1 = rng.index(net.transitions.len()),
        _ => {}
    }
    run
}

#[test]
fn without_pairs_a_run_is_one_of_each_net() {
    let mut rng = Rng::new(41);
    let mut outcomes = [[0; 2]; 3];
    for _ in 0..2_000 {
        let (first, second) = gen::nets_apart(&mut rng);
        let both = beside(&first, &second);
        let mut run = nearly(&mut rng, &both);
        let words = [Memory::Intermediate, Memory::Atomic, Memory::Carry];
        for (memory, outcomes) in words.into_iter().zip(&mut outcomes) {
            run.memory = memory;
            if let Some(accepted) = against_sides(&first, &second, &both, &run) {
                outcomes[usize::from(accepted)] += 1;
            }
        }
    }
    let enough = outcomes.iter().flatten().all(|&count| count > 300);
    assert!(enough, "{outcomes:?} refused and accepted under each word");
}

// Two runs merged

/// Two runs of one memory word and denominator with the same end, if the rests fit their cards.
fn two_runs(rng: &mut Rng, first: &Net, second: &Net) -> Option<(Run, Run)> {
    let denominator = rng.pick(&[1, 2, 3, 60]);
    let (x_length, y_length) = (rng.index(33), rng.index(33));
    let (mut x, _) = gen::run(rng, first, denominator, x_length);
    let mut y = gen::run(rng, second, denominator, y_length).0;
    while y.memory != x.memory {
        y = gen::run(rng, second, denominator, y_length).0;
    }
    let last = |run: &Run| run.instants().last().unwrap() - run.rest;
    let end = last(&x).max(last(&y)) + rng.pick(&[0, 1, 100]);
    (x.rest, y.rest) = (end - last(&x), end - last(&y));
    (x.rest.max(y.rest) <= MOST_PARTS).then_some((x, y))
}

/// The firings of both runs by their instants, those of one instant in any order; how often there was
/// a choice.
fn merged(rng: &mut Rng, x: &Run, y: &Run, transitions: usize) -> (Run, usize) {
    let timed = |run: &Run, from: usize| -> VecDeque<(u64, usize)> {
        let fires = run.firings.iter().map(|&(_, fire)| from + fire);
        run.instants().into_iter().zip(fires).collect()
    };
    let mut left = [timed(x, 0), timed(y, transitions)];
    let mut firings = Vec::new();
    let (mut now, mut ties) = (0, 0);
    loop {
        let side = match [&left[0], &left[1]].map(VecDeque::front) {
            [None, None] => break,
            [Some(x), Some(y)] if x.0 == y.0 => {
                ties += 1;
                rng.index(2)
            }
            [Some(x), Some(y)] => usize::from(y.0 < x.0),
            [first, _] => usize::from(first.is_none()),
        };
        let (at, fire) = left[side].pop_front().unwrap();
        firings.push((at - now, fire));
        now = at;
    }
    let rest = x.instants().last().unwrap() - now;
    (
        Run {
            firings,
            rest,
            ..*x
        },
        ties,
    )
}

#[test]
fn runs_with_the_same_end_merge() {
    let mut rng = Rng::new(42);
    let (mut runs, mut ties) = (0, 0);
    while runs < 2_000 {
        let (first, second) = gen::nets_apart(&mut rng);
        let both = beside(&first, &second);
        let Some((x, y)) = two_runs(&mut rng, &first, &second) else {
            continue;
        };
        let (run, tied) = merged(&mut rng, &x, &y, first.transitions.len());
        assert_eq!(against_sides(&first, &second, &both, &run), Some(true));
        // The sides of the merged run are the two runs again.
        assert_eq!(side(&run, &first, 0).unwrap().0, x);
        let behind = first.transitions.len();
        assert_eq!(side(&run, &second, behind).unwrap().0, y);
        runs += 1;
        ties += tied;
    }
    assert!(ties > 500, "{ties} ties");
}

// Pairs

/// The places of a net put in another order: the old place of each new one.
fn reordered(net: &Net, old: &[usize]) -> Net {
    let moved = |tokens: &[u64]| old.iter().map(|&place| tokens[place]).collect();
    let mut net = net.clone();
    net.start = moved(&net.start);
    for transition in &mut net.transitions {
        transition.take = moved(&transition.take);
        transition.give = moved(&transition.give);
    }
    net
}

fn shuffle<T>(rng: &mut Rng, items: &mut [T]) {
    for at in (1..items.len()).rev() {
        items.swap(at, rng.index(at + 1));
    }
}

/// The same pairs in another order.
fn shuffled(rng: &mut Rng, numbers: &[u64]) -> Vec<u64> {
    let mut pairs: Vec<&[u64]> = numbers.chunks(2).collect();
    shuffle(rng, &mut pairs);
    pairs.concat()
}

#[test]
fn a_net_upon_itself_has_every_transition_twice() {
    let mut rng = Rng::new(43);
    for _ in 0..2_000 {
        let (first, second, _) = gen::nets(&mut rng);
        let mut net = rng.pick(&[&first, &second]).clone();
        net.transitions.truncate(16);
        let mut old: Vec<usize> = (0..net.start.len()).collect();
        shuffle(&mut rng, &mut old);
        let mut again = reordered(&net, &old);
        again.sheet = 9999 - net.sheet;
        let pairs = old.iter().enumerate();
        let numbers: Vec<u64> = pairs
            .flat_map(|(new, &old)| [old as u64, new as u64])
            .collect();
        let numbers = shuffled(&mut rng, &numbers);
        let both = joined(&(net.clone(), again, numbers));
        net.transitions.extend(net.transitions.clone());
        assert_eq!(both, net);
    }
}

/// Where each joined place stands once the two nets, of so many places, are exchanged.
fn exchanged(first: usize, second: usize, numbers: &[u64]) -> Vec<usize> {
    let partner = |side: usize, place: usize| {
        let mut pairs = numbers.chunks(2);
        let pair = pairs.find(|pair| pair[side] == place as u64)?;
        Some(pair[1 - side] as usize)
    };
    // The first net's unpaired places come behind all of the second's then.
    let mut behind = second..;
    let firsts =
        (0..first).map(|place| partner(0, place).unwrap_or_else(|| behind.next().unwrap()));
    let seconds = (0..second).filter(|&place| partner(1, place).is_none());
    firsts.chain(seconds).collect()
}

#[test]
fn exchanged_nets_give_the_same_but_for_the_order() {
    let mut rng = Rng::new(44);
    for _ in 0..3_000 {
        let nets = gen::nets(&mut rng);
        let both = joined(&nets);
        let (first, second, numbers) = nets;
        let turned = numbers.chunks(2).flat_map(|pair| [pair[1], pair[0]]);
        let turned = shuffled(&mut rng, &turned.collect::<Vec<u64>>());
        let other = joined(&(second.clone(), first.clone(), turned));
        assert_eq!((both.sheet, other.sheet), (first.sheet, second.sheet));

        let places = exchanged(first.start.len(), second.start.len(), &numbers);
        let mut other = reordered(&other, &places);
        other.transitions.rotate_left(second.transitions.len());
        other.sheet = first.sheet;
        assert_eq!(both, other);
    }
}

#[test]
fn three_nets_are_joined_in_either_order() {
    let mut rng = Rng::new(45);
    let mut nets = 0;
    while nets < 500 {
        let (first, second) = gen::nets_apart(&mut rng);
        let (third, _) = gen::nets_apart(&mut rng);
        let all = [&first, &second, &third];
        let places: usize = all.iter().map(|net| net.start.len()).sum();
        let transitions: usize = all.iter().map(|net| net.transitions.len()).sum();
        if places > 16 || transitions > 32 {
            continue;
        }
        let left = beside(&beside(&first, &second), &third);
        assert_eq!(left, beside(&first, &beside(&second, &third)));
        assert_eq!(
            (left.start.len(), left.transitions.len()),
            (places, transitions)
        );
        nets += 1;
    }
}
