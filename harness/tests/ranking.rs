//! Rankings at random: what they must be, and that they are an order.

use harness::gen::{self, Rng, Size};
use harness::naive::{self, Memory, Net, Run};
use harness::{printed, NAIVE, OPERATIONS, PLAIN};
use std::cmp::Ordering;

/// The rank and the lead that both versions print.
fn rank(net: &Net, x: &Run, y: &Run) -> (i64, i64) {
    let at = OPERATIONS.iter().position(|name| *name == "rank").unwrap();
    let input = net.card() + &x.card() + &y.card();
    let [plain, naive] = [PLAIN, NAIVE].map(|engine| {
        let text = printed(engine.operations[at], input.as_bytes());
        String::from_utf8(text).unwrap()
    });
    assert_eq!(plain, naive, "{input}");
    let numbers = plain.lines().zip(["rank=", "lead="]);
    let numbers: Vec<i64> = numbers
        .map(|(line, key)| line.strip_prefix(key).expect(&plain).parse().unwrap())
        .collect();
    (numbers[0], numbers[1])
}

/// Instants compared as fractions.
fn compared(x: &Run, y: &Run) -> impl Iterator<Item = Ordering> {
    let (at_x, at_y) = (x.instants(), y.instants());
    let (below_x, below_y) = (x.denominator, y.denominator);
    let both = at_x.into_iter().zip(at_y);
    both.map(move |(at_x, at_y)| (at_x * below_y).cmp(&(at_y * below_x)))
}

#[test]
fn the_first_instants_that_differ_decide() {
    let mut rng = Rng::new(21);
    let (mut ties, mut ends) = (0, 0);
    for _ in 0..4_000 {
        let (net, x, y) = gen::pair(&mut rng);
        let (rank, lead) = rank(&net, &x, &y);
        let Some((at, order)) = compared(&x, &y)
            .enumerate()
            .find(|(_, order)| order.is_ne())
        else {
            assert_eq!((rank, lead), (0, 0));
            ties += 1;
            continue;
        };
        ends += u32::from(at == x.firings.len());
        assert_eq!(rank, order as i64);
        assert_eq!(rank, lead.signum());
        // The lead is the way between the two instants, in ticks over both denominators.
        let instant = |run: &Run| i128::from(run.instants()[at]);
        let (below_x, below_y) = (i128::from(x.denominator), i128::from(y.denominator));
        assert_eq!(
            i128::from(lead) + instant(&y) * below_x,
            instant(&x) * below_y
        );
        assert!(lead.unsigned_abs() <= 10_000_000_000);
    }
    assert!(ties > 500 && ends > 500, "{ties} ties, {ends} ends");
}

#[test]
fn exchanged_runs_have_the_opposite_rank() {
    let mut rng = Rng::new(22);
    for _ in 0..2_000 {
        let (net, x, y) = gen::pair(&mut rng);
        let ((rank_x, lead_x), (rank_y, lead_y)) = (rank(&net, &x, &y), rank(&net, &y, &x));
        assert_eq!((rank_x, lead_x), (-rank_y, -lead_y));
        assert_eq!(rank(&net, &x, &x), (0, 0));
    }
}

/// Checks that what holds of two neighbours holds of all three.
fn assert_transitive(net: &Net, [x, y, z]: [&Run; 3]) {
    let ((xy, _), (yz, _), (xz, _)) = (rank(net, x, y), rank(net, y, z), rank(net, x, z));
    if xy <= 0 && yz <= 0 {
        assert_eq!(xz, xy.min(yz));
    }
    if xy >= 0 && yz >= 0 {
        assert_eq!(xz, xy.max(yz));
    }
}

#[test]
fn ranks_are_transitive() {
    let mut rng = Rng::new(23);
    let mut apart = 0;
    for _ in 0..3_000 {
        let (net, [x, y, z]) = gen::runs_of_one_order(&mut rng);
        assert_transitive(&net, [&x, &y, &z]);
        let mut denominators = [&x, &y, &z].map(|run| run.denominator);
        denominators.sort_unstable();
        apart += u32::from(denominators.windows(2).all(|pair| pair[0] < pair[1]));
    }
    assert!(apart > 500, "{apart} at three denominators");
}

/// All runs of an order at a denominator with no wait and no rest above `most`, found by trying.
fn runs(net: &Net, memory: Memory, fire: &[usize], denominator: u64, most: u64) -> Vec<Run> {
    let start = Run {
        sheet: net.sheet,
        memory,
        denominator,
        firings: Vec::new(),
        rest: 0,
    };
    let mut found = vec![start];
    for &fire in fire {
        let longer = |run: &Run| {
            let with = |wait| {
                let mut run = run.clone();
                run.firings.push((wait, fire));
                naive::replayed(net, &run).is_ok().then_some(run)
            };
            (0..=most).filter_map(with).collect::<Vec<Run>>()
        };
        found = found.iter().flat_map(longer).collect();
    }
    let resting = |run: Run| {
        (0..=most).map(move |rest| Run {
            rest,
            ..run.clone()
        })
    };
    found.into_iter().flat_map(resting).collect()
}

/// The timetable of an order, if it has one.
fn timetable(net: &Net, memory: Memory, fire: &[usize]) -> Option<Run> {
    let order = naive::Order {
        sheet: net.sheet,
        memory,
        fire: fire.to_vec(),
    };
    let instants = naive::earliest(net, &order).ok()?;
    Some(order.timed(&instants))
}

#[test]
fn all_runs_of_small_orders_stand_in_a_row() {
    let mut rng = Rng::new(24);
    let (mut rows, mut longest) = (0, 0);
    while rows < 60 {
        let mut net = gen::net(&mut rng, Size::Small);
        for transition in &mut net.transitions {
            transition.earliest = rng.below(2);
            transition.latest = rng.pick(&[None, Some(1), Some(2)]);
        }
        let memory = rng.pick(&[Memory::Intermediate, Memory::Atomic, Memory::Carry]);
        let fire = [(); 2].map(|()| rng.index(net.transitions.len()));
        let Some(first) = timetable(&net, memory, &fire) else {
            continue;
        };
        let mut row = vec![first.clone()];
        for (denominator, most) in [(1, 1), (2, 2), (3, 3)] {
            row.extend(runs(&net, memory, &fire, denominator, most));
        }
        // Sorted by one rank after another, every run stands right with every other.
        row.sort_by(|x, y| rank(&net, x, y).0.cmp(&0));
        for (at, x) in row.iter().enumerate() {
            assert!(rank(&net, &first, x).0 <= 0);
            for y in &row[at..] {
                assert!(rank(&net, x, y).0 <= 0);
            }
        }
        rows += 1;
        longest = longest.max(row.len());
    }
    assert!(longest > 20, "{longest} runs at most");
}

#[test]
fn no_run_stands_before_the_timetable_of_its_order() {
    let mut rng = Rng::new(25);
    let (mut ties, mut later) = (0, 0);
    for _ in 0..4_000 {
        let (net, first, run) = gen::beside_timetable(&mut rng);
        assert_eq!((first.denominator, first.rest), (1, 0));
        match rank(&net, &first, &run).0 {
            -1 => later += 1,
            0 => ties += 1,
            _ => panic!("{}{}{}", net.card(), first.card(), run.card()),
        }
        assert!(compared(&first, &run).all(Ordering::is_le));
    }
    assert!(ties > 500 && later > 500, "{ties} ties, {later} later");
}
