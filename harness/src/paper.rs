//! The nets of the paper, for the tests and the benchmark.

use crate::naive::{Memory, Net, Order, Run, Transition};

/// The earliest, latest, take and give of a transition.
type Parts<'a> = (u64, Option<u64>, &'a [u64], &'a [u64]);

/// A net from its sheet, its start and the parts of its transitions.
pub fn net(sheet: u64, start: &[u64], transitions: &[Parts]) -> Net {
    let transitions = transitions
        .iter()
        .map(|&(earliest, latest, take, give)| Transition {
            earliest,
            latest,
            take: take.to_vec(),
            give: give.to_vec(),
        });
    Net {
        sheet,
        start: start.to_vec(),
        transitions: transitions.collect(),
    }
}

/// Net A, on sheet 1: transition 0 is the motor pulse, 1 the closing of the batch.
pub fn net_a() -> Net {
    net(
        1,
        &[1, 1],
        &[
            (1, Some(2), &[1, 0], &[1, 0]),
            (3, Some(4), &[1, 1], &[0, 0]),
        ],
    )
}

/// Net B, on sheet 2, whose first firing must wait for the second.
pub fn net_b() -> Net {
    net(
        2,
        &[1, 0, 1],
        &[
            (0, None, &[1, 0, 0], &[0, 1, 0]),
            (5, Some(5), &[0, 0, 1], &[0, 0, 0]),
            (0, Some(2), &[0, 1, 0], &[0, 0, 0]),
        ],
    )
}

/// Net C, on sheet 3, with two firings of which neither needs the other.
pub fn net_c() -> Net {
    net(
        3,
        &[1, 1],
        &[
            (0, None, &[1, 0], &[0, 0]),
            (0, None, &[0, 1], &[1, 0]),
            (2, Some(2), &[1, 0], &[0, 0]),
        ],
    )
}

/// Net F, on sheet 4: one transition that takes and gives the one token, at any time.
pub fn net_f() -> Net {
    net(4, &[1], &[(0, None, &[1], &[1])])
}

/// One transition that takes nothing and gives 255 tokens to an empty place, on sheet 1.
pub fn net_255() -> Net {
    net(1, &[0], &[(0, None, &[0], &[255])])
}

pub fn order(sheet: u64, memory: Memory, fire: &[usize]) -> Order {
    Order {
        sheet,
        memory,
        fire: fire.to_vec(),
    }
}

pub fn run(
    sheet: u64,
    memory: Memory,
    denominator: u64,
    firings: &[(u64, usize)],
    rest: u64,
) -> Run {
    Run {
        sheet,
        memory,
        denominator,
        firings: firings.to_vec(),
        rest,
    }
}
