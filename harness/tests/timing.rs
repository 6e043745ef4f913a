//! Timetables and roundings against slower ways to the same: all timings of small orders tried out,
//! longest paths by Bellman and Ford's passes, and the replay.

use harness::gen::{self, Rng, Size};
use harness::naive::{self, Memory, Net, Order, Run};
use harness::{plain, Outcome, LONGEST};

fn answer(operation: harness::Operation, input: &str) -> Result<String, (u64, u64)> {
    let mut output = vec![0; LONGEST];
    match Outcome::of(operation(input.as_bytes(), &mut output)) {
        Outcome::Answer { length } => Ok(String::from_utf8(output[..length].to_vec()).unwrap()),
        Outcome::Refusal { number, place } => Err((number, place)),
    }
}

/// A net with intervals within 0 to 3, and an order of up to so many firings that its tokens allow.
fn small_order(rng: &mut Rng, firings: usize) -> (Net, Order) {
    let mut net = gen::net(rng, Size::Small);
    for transition in &mut net.transitions {
        transition.earliest = rng.below(4);
        let latest = rng.within(transition.earliest, 3);
        transition.latest = rng.pick(&[None, Some(latest), Some(latest)]);
    }
    let mut order = Order {
        sheet: net.sheet,
        memory: rng.pick(&[Memory::Intermediate, Memory::Atomic, Memory::Carry]),
        fire: Vec::new(),
    };
    for _ in 0..firings {
        let fire = rng.index(net.transitions.len());
        order.fire.push(fire);
        if naive::bounds(&net, &order).is_err() {
            order.fire.pop();
        }
    }
    (net, order)
}

/// All instants of timings at a denominator with no wait above `most`, found by trying.
fn timings(net: &Net, order: &Order, denominator: u64, most: u64) -> Vec<Vec<u64>> {
    let mut found = Vec::new();
    let mut open = vec![(naive::State::start(net), Vec::new(), 0)];
    while let Some((state, instants, now)) = open.pop() {
        let Some(&fire) = order.fire.get(instants.len()) else {
            found.push(instants);
            continue;
        };
        for wait in 0..=most {
            let mut next = state.clone();
            next.wait(wait);
            if next.fire(net, order.memory, denominator, fire).is_ok() {
                let mut instants: Vec<u64> = instants.clone();
                instants.push(now + wait);
                open.push((next, instants, now + wait));
            }
        }
    }
    found
}

#[test]
fn timetables_are_the_least_of_all_timings() {
    let mut rng = Rng::new(11);
    let (mut timed, mut untimable) = (0, 0);
    for _ in 0..1_500 {
        let (net, order) = small_order(&mut rng, 4);
        let least = |timings: &[Vec<u64>]| -> Option<Vec<u64>> {
            let columns =
                (0..order.fire.len()).map(|at| timings.iter().map(move |timing| timing[at]).min());
            columns.collect()
        };
        // No bound is above 3, so no wait of a least timing is.
        let whole = timings(&net, &order, 1, 3);
        let halves = timings(&net, &order, 2, 6);
        let result = answer(plain::timetable, &(net.card() + &order.card()));
        if order.fire.is_empty() {
            assert!(result.is_ok());
        } else if let Some(instants) = least(&whole) {
            assert_eq!(result, Ok(order.timed(&instants).card()));
            let double: Vec<u64> = instants.iter().map(|instant| 2 * instant).collect();
            assert_eq!(least(&halves), Some(double));
            timed += 1;
        } else {
            assert!(halves.is_empty());
            let (number, place) = result.unwrap_err();
            assert_eq!(number, 8);
            let prefix = |firings: u64| Order {
                sheet: order.sheet,
                memory: order.memory,
                fire: order.fire[..firings as usize].to_vec(),
            };
            assert!(timings(&net, &prefix(place), 1, 3).is_empty());
            assert!(!timings(&net, &prefix(place - 1), 1, 3).is_empty());
            untimable += 1;
        }
    }
    assert!(
        timed > 500 && untimable > 100,
        "{timed} timed, {untimable} not"
    );
}

#[test]
fn timetables_are_longest_paths() {
    let mut rng = Rng::new(12);
    let (mut timed, mut untimable) = (0, 0);
    for index in 0..6_000 {
        let (net, order) = match index % 3 {
            0 => small_order(&mut rng, 12),
            1 => gen::tight_order(&mut rng),
            _ => gen::hard_order(&mut rng),
        };
        let expected = naive::earliest(&net, &order).map(|instants| order.timed(&instants).card());
        match &expected {
            Ok(_) => timed += 1,
            Err(_) => untimable += 1,
        }
        assert_eq!(
            answer(plain::timetable, &(net.card() + &order.card())),
            expected
        );
    }
    assert!(
        timed > 2_000 && untimable > 1_000,
        "{timed} timed, {untimable} not"
    );
}

/// The end of a replay, which must be accepted.
fn end(net: &Net, card: &str) -> String {
    let replayed = answer(plain::replay, &(net.card() + card)).unwrap();
    replayed.lines().next().unwrap().to_owned()
}

#[test]
fn timetables_are_accepted_runs() {
    let mut rng = Rng::new(13);
    for _ in 0..2_000 {
        let (net, order) = gen::tight_order(&mut rng);
        let Ok(card) = answer(plain::timetable, &(net.card() + &order.card())) else {
            continue;
        };
        end(&net, &card);
        let run = naive::read_run(card.as_bytes(), &net).unwrap();
        assert_eq!((run.denominator, run.rest, run.order()), (1, 0, order));
        assert!(run.instants().iter().all(|&instant| instant <= 64_000));
        // In whole ticks already.
        assert_eq!(answer(plain::round, &(net.card() + &card)), Ok(card));
    }
}

/// The clocks before each firing and at the end.
fn clocks(net: &Net, run: &Run) -> Vec<Vec<Option<u64>>> {
    let mut state = naive::State::start(net);
    let mut clocks = Vec::new();
    for &(wait, fire) in &run.firings {
        state.wait(wait);
        clocks.push(state.clocks.clone());
        state.fire(net, run.memory, run.denominator, fire).unwrap();
    }
    state.wait(run.rest);
    clocks.push(state.clocks);
    clocks
}

#[test]
fn rounded_runs_are_accepted() {
    let mut rng = Rng::new(14);
    for index in 0..3_000 {
        let size = [Size::Small, Size::Typical, Size::Largest][index % 3];
        let net = gen::net(&mut rng, size);
        let denominator = rng.within(1, 1000);
        let (run, _) = gen::run(&mut rng, &net, denominator, 1 + index % 64);
        let card = answer(plain::round, &(net.card() + &run.card())).unwrap();
        assert_eq!(end(&net, &card), end(&net, &run.card()));
        let rounded = naive::read_run(card.as_bytes(), &net).unwrap();
        assert_eq!(rounded.order(), run.order());
        assert_eq!(rounded.denominator, 1);
        let whole: Vec<u64> = run
            .instants()
            .iter()
            .map(|parts| parts / denominator)
            .collect();
        assert_eq!(rounded.instants(), whole);
        // Each clock moves by less than a tick, and the same transitions have one.
        let both = clocks(&net, &run).into_iter().flatten();
        for (parts, ticks) in both.zip(clocks(&net, &rounded).into_iter().flatten()) {
            assert_eq!(parts.is_some(), ticks.is_some());
            let (parts, ticks) = (parts.unwrap_or(0), ticks.unwrap_or(0));
            assert!(parts.abs_diff(ticks * denominator) < denominator);
        }
    }
}

#[test]
fn worst_orders_are_as_described() {
    for (net, order) in [gen::bends_to_the_last(), gen::drift_to_the_last()] {
        assert_eq!(naive::earliest(&net, &order), Err((8, 64)));
    }
    let (net, order) = gen::most_sweeps();
    assert_eq!(order.fire.len(), 64);
    assert!(naive::earliest(&net, &order).is_ok());
}
