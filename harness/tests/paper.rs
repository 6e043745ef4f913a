//! The cases of the papers and of the readings of their open points, on the plain and the naive
//! version. In texts `|` stands for byte 10.

use harness::naive::Net;
use harness::paper::{net, net_255, net_a, net_b, net_c, net_f};
use harness::{printed, NAIVE, OPERATIONS, PLAIN};

fn bytes(text: &str) -> Vec<u8> {
    text.replace('|', "\n").into_bytes()
}

/// Checks what one program prints, on both versions.
#[track_caller]
fn prints(program: &str, input: &str, expected: &str) {
    let at = OPERATIONS.iter().position(|name| *name == program).unwrap();
    for engine in [PLAIN, NAIVE] {
        let found = printed(engine.operations[at], &bytes(input));
        let found = String::from_utf8(found).unwrap().replace('\n', "|");
        assert_eq!(found, expected, "{} {program} of {input}", engine.name);
    }
}

#[track_caller]
fn refuses(program: &str, input: &str, number: u64, place: u64) {
    prints(program, input, &format!("refused={number}|place={place}|"));
}

/// A run card behind its sheet line, from its waits and transitions.
fn run_lines(memory: &str, denominator: u64, firings: &[(u64, u64)], rest: u64) -> String {
    let lines: String = firings
        .iter()
        .map(|(wait, fire)| format!("wait={wait}|fire={fire}|"))
        .collect();
    let count = firings.len();
    format!("memory={memory}|denominator={denominator}|firings={count}|{lines}rest={rest}|")
}

/// A run card on sheet 1.
fn run(memory: &str, denominator: u64, firings: &[(u64, u64)], rest: u64) -> String {
    on(1, &run_lines(memory, denominator, firings, rest))
}

fn order_lines(memory: &str, fire: &[u64]) -> String {
    let lines: String = fire.iter().map(|fire| format!("fire={fire}|")).collect();
    format!("memory={memory}|firings={}|{lines}", fire.len())
}

/// An order card on sheet 1.
fn order(memory: &str, fire: &[u64]) -> String {
    on(1, &order_lines(memory, fire))
}

/// A card from its sheet and the lines behind it.
fn on(sheet: u64, lines: &str) -> String {
    format!("sheet={sheet}|{lines}")
}

/// Checks the instants of a timetable under a memory word.
#[track_caller]
fn times(net: &Net, memory: &str, fire: &[u64], instants: &[u64]) {
    let mut before = 0;
    let firings = instants.iter().zip(fire).map(|(&instant, &fire)| {
        let wait = instant - before;
        before = instant;
        (wait, fire)
    });
    let firings: Vec<(u64, u64)> = firings.collect();
    prints(
        "timetable",
        &(net.card() + &on(net.sheet, &order_lines(memory, fire))),
        &on(net.sheet, &run_lines(memory, 1, &firings, 0)),
    );
}

const WORDS: [&str; 3] = ["intermediate", "atomic", "carry"];

/// The operations that read a run or an order of the net behind its card.
const OF_ONE_NET: [&str; 5] = ["replay", "round", "timetable", "process", "rank"];

#[test]
fn session() {
    let a = net_a().card();
    times(&net_a(), "atomic", &[0, 0, 1], &[1, 2, 3]);
    times(&net_a(), "intermediate", &[0, 0, 1], &[1, 2, 5]);
    times(&net_a(), "atomic", &[0, 0, 0, 0, 1], &[1, 2, 3, 4, 4]);
    refuses(
        "timetable",
        &(a.clone() + &order("atomic", &[0, 0, 0, 0, 0, 1])),
        8,
        6,
    );
    times(
        &net_a(),
        "intermediate",
        &[0, 0, 0, 0, 0, 1],
        &[1, 2, 3, 4, 5, 8],
    );
    for memory in WORDS {
        refuses("timetable", &(a.clone() + &order(memory, &[1, 0])), 5, 2);
        times(&net_a(), memory, &[], &[]);
        times(&net_b(), memory, &[0, 1, 2], &[3, 5, 5]);
        let once = net_255().card() + &run(memory, 1, &[(0, 0)], 0);
        prints("replay", &once, "end=255|clock=0|");
        refuses(
            "replay",
            &(net_255().card() + &run(memory, 1, &[(0, 0), (0, 0)], 0)),
            6,
            2,
        );
    }
    let waits = [(3, 0), (3, 0), (0, 1)];
    let atomic = a.clone() + &run("atomic", 2, &waits, 0);
    prints(
        "round",
        &atomic,
        &run("atomic", 1, &[(1, 0), (2, 0), (0, 1)], 0),
    );
    refuses(
        "replay",
        &(a.clone() + &run("intermediate", 2, &waits, 0)),
        7,
        3,
    );
    prints("replay", &atomic, "end=0,0|clock=off|clock=off|");
    prints(
        "replay",
        &(a + &run("atomic", 2, &[], 3)),
        "end=1,1|clock=3|clock=3|",
    );
    prints(
        "process",
        &atomic,
        "fire=0|from=0.0.1|fire=0|from=0.1.1|fire=1|from=0.2.1,1.0.1|left=none|free=none|",
    );
    let free = run_lines("intermediate", 1, &[(1, 0), (0, 1), (2, 2)], 0);
    let free = net_c().card() + &on(3, &free);
    prints(
        "process",
        &free,
        "fire=0|from=0.0.1|fire=1|from=1.0.1|fire=2|from=0.2.1|left=none|free=1|",
    );
}

/// Net A's card with one line, from 1, put differently.
fn a_with(line: usize, text: &str) -> String {
    let card = net_a().card();
    let lines = card
        .lines()
        .enumerate()
        .map(|(at, old)| if at + 1 == line { text } else { old });
    lines.map(|line| format!("{line}\n")).collect::<String>() + &run("atomic", 1, &[], 0)
}

#[test]
fn numbers_and_lists() {
    for (text, number) in [
        ("places=1000000000", 1),
        ("places=999999999", 2),
        ("places=0", 2),
        ("places=17", 2),
        ("places=017", 1),
        ("places=00", 1),
        ("places=", 1),
        ("places=+1", 1),
        ("places=-1", 1),
        ("places= 1", 1),
        ("places=1 ", 1),
        ("places=0x1", 1),
        ("place=2", 1),
        ("places=2\r", 1),
        ("", 1),
    ] {
        for program in OPERATIONS {
            refuses(program, &a_with(2, text), number, 2);
        }
    }
    for text in [
        "take=256,x",
        "take=256",
        "take=256,0,0",
        "take=256,",
        "take=256,1000000000",
        "take=,1",
        "take=1,,1",
        "take=",
        "take=1,0,",
    ] {
        refuses("replay", &a_with(8, text), 1, 8);
    }
    for text in ["take=256,0", "take=0,256", "take=999999999,999999999"] {
        refuses("replay", &a_with(8, text), 2, 8);
    }
    refuses(
        "replay",
        "sheet=1|places=1|transitions=1|start=0|earliest=0|latest=0|take=1,|",
        1,
        7,
    );
    for (text, number) in [
        ("latest=1001", 2),
        ("latest=2", 3),
        ("latest=INF", 1),
        ("latest=infinity", 1),
        ("latest=inf0", 1),
        ("latest=in", 1),
        ("latest=", 1),
        ("earliest=3", 1),
    ] {
        refuses("replay", &a_with(11, text), number, 11);
    }
    for text in ["latest=3", "latest=1000", "latest=inf"] {
        prints("replay", &a_with(11, text), "end=1,1|clock=0|clock=0|");
    }
    refuses("replay", &a_with(10, "earliest=inf"), 1, 10);
    refuses("replay", &a_with(10, "earliest=1001"), 2, 10);
    refuses("replay", &a_with(10, "earliest=5"), 3, 11);
    refuses("replay", "sheet=1|places=17|", 2, 2);
    refuses("replay", "sheet=1|places=2|transitions=33|x", 2, 3);
    refuses("replay", "sheet=1|places=2|transitions=2", 1, 3);
    refuses("replay", "sheet=1|transitions=2|places=2|", 1, 2);
}

#[test]
fn lines_of_the_second_card() {
    let a = net_a().card();
    let replay =
        |lines: &str, number, place| refuses("replay", &(a.clone() + &on(1, lines)), number, place);
    let timetable = |lines: &str, number, place| {
        refuses("timetable", &(a.clone() + &on(1, lines)), number, place)
    };
    refuses("replay", &a, 1, 1);
    refuses("replay", "", 1, 1);
    replay("", 1, 2);
    for word in [
        "Carry|",
        "carr|",
        "carryx|",
        "carry |",
        "carry",
        "carryatomic|",
    ] {
        replay(&format!("memory={word}"), 1, 2);
        timetable(&format!("memory={word}"), 1, 2);
    }
    replay("memory=carry|", 1, 3);
    timetable("memory=carry|", 1, 3);
    replay("memory=atomic", 1, 2);
    replay("memory=atomic|denominator=0|", 2, 3);
    replay("memory=atomic|denominator=00|", 1, 3);
    replay("memory=atomic|denominator=1001|", 2, 3);
    replay("memory=atomic|denominator=1|firings=65|", 2, 4);
    replay(
        "memory=atomic|denominator=1|firings=1|wait=007|fire=0|rest=0|",
        1,
        5,
    );
    replay(
        "memory=atomic|denominator=1|firings=1|wait=10000001|fire=0|rest=0|",
        2,
        5,
    );
    replay(
        "memory=atomic|denominator=1|firings=1|wait=0|fire=2|rest=0|",
        4,
        6,
    );
    replay(
        "memory=atomic|denominator=1|firings=1|wait=0|fire=999999999|rest=0|",
        4,
        6,
    );
    replay(
        "memory=atomic|denominator=1|firings=1|wait=0|fire=1000000000|rest=0|",
        1,
        6,
    );
    replay(
        "memory=atomic|denominator=1|firings=1|wait=0|fire=00|rest=0|",
        1,
        6,
    );
    replay("memory=atomic|denominator=1|firings=1|wait=0|fire=99", 1, 6);
    replay("memory=atomic|denominator=1|firings=1|rest=0|", 1, 5);
    replay("memory=atomic|denominator=1|firings=0|wait=0|", 1, 5);
    replay("memory=atomic|denominator=1|firings=0|rest=0", 1, 5);
    replay("memory=atomic|denominator=1|firings=0|rest=10000001", 1, 5);
    replay("memory=atomic|denominator=1|firings=0|rest=10000001|", 2, 5);
    replay("memory=atomic|denominator=1|firings=0|rest=0||", 1, 6);
    replay("memory=atomic|denominator=1|firings=0|rest=0|x", 1, 6);
    replay(
        "memory=atomic|denominator=1|firings=2|wait=0|fire=1|wait=0|fire=9|rest=0|",
        4,
        8,
    );
    replay("memory=atomic|firings=0|", 1, 3);
    timetable("memory=atomic|denominator=1|firings=0|rest=0|", 1, 3);
    timetable("memory=atomic|firings=65|", 2, 3);
    timetable("memory=atomic|firings=1|fire=1|fire=0|", 1, 5);
    timetable("memory=atomic|firings=1|fire=0", 1, 4);
    timetable("memory=atomic|firings=2|fire=0|", 1, 5);
    timetable("memory=atomic|firings=1|fire=2|x", 4, 4);
}

#[test]
fn sixty_four_firings() {
    let net = net(
        1,
        &[1, 1],
        &[(0, None, &[1, 0], &[1, 0]), (0, None, &[0, 1], &[0, 0])],
    );
    let firings = [(10_000_000, 0); 64];
    let input = net.card() + &run("atomic", 1, &firings, 10_000_000);
    prints("replay", &input, "end=1,1|clock=10000000|clock=650000000|");
    prints("round", &input, &run("atomic", 1, &firings, 10_000_000));
}

#[test]
fn firing() {
    let full = net(1, &[255], &[(1, Some(1), &[0], &[1])]);
    refuses(
        "replay",
        &(full.card() + &run("atomic", 1, &[(0, 0)], 0)),
        7,
        1,
    );
    refuses(
        "replay",
        &(full.card() + &run("atomic", 1, &[(1, 0)], 0)),
        6,
        1,
    );
    let a = net_a();
    refuses(
        "replay",
        &(a.card() + &run("atomic", 1, &[(3, 1), (0, 0)], 0)),
        5,
        2,
    );
    let both = net(
        1,
        &[0, 0],
        &[(0, None, &[0, 0], &[255, 0]), (0, None, &[0, 1], &[0, 0])],
    );
    refuses(
        "timetable",
        &(both.card() + &order("atomic", &[0, 0, 1])),
        6,
        2,
    );
    refuses(
        "timetable",
        &(a.card() + &order("atomic", &[0, 0, 0, 0, 0, 1, 0])),
        5,
        7,
    );
    let mut b = net_b();
    b.transitions[0].latest = Some(1);
    refuses(
        "timetable",
        &(b.card() + &on(2, &order_lines("atomic", &[0, 1, 2]))),
        8,
        3,
    );
    let kept = net(1, &[255], &[(0, None, &[1], &[1])]);
    prints(
        "replay",
        &(kept.card() + &run("atomic", 1, &[(0, 0)], 0)),
        "end=255|clock=0|",
    );
    for memory in ["intermediate", "atomic"] {
        times(
            &net(1, &[2], &[(3, Some(3), &[1], &[0])]),
            memory,
            &[0, 0],
            &[3, 6],
        );
        times(
            &net(1, &[1], &[(1, Some(2), &[0], &[0])]),
            memory,
            &[0, 0, 0],
            &[1, 2, 3],
        );
    }
    let rest = a.card() + &run("atomic", 2, &[], 9);
    prints("replay", &rest, "end=1,1|clock=9|clock=9|");
    prints(
        "replay",
        &(a.card() + &run("atomic", 1, &[(4, 1)], 0)),
        "end=0,0|clock=off|clock=off|",
    );
    for program in ["replay", "round", "process"] {
        refuses(program, &(a.card() + &run("atomic", 1, &[(0, 0)], 0)), 7, 1);
    }
    prints(
        "round",
        &(a.card() + &run("atomic", 2, &[], 3)),
        &run("atomic", 1, &[], 1),
    );
    let pulse = net(1, &[1], &[(0, None, &[1], &[1])]);
    let halves = pulse.card() + &run("atomic", 2, &[(1, 0), (1, 0)], 0);
    prints("round", &halves, &run("atomic", 1, &[(0, 0), (1, 0)], 0));
}

/// A clock restarts only if its transition was not enabled before the firing, that of the fired one too.
#[test]
fn carry() {
    let a = net_a();
    times(&a, "carry", &[0, 0], &[1, 1]);
    times(&a, "carry", &[0, 0, 1], &[1, 1, 3]);
    let two = net(
        1,
        &[1],
        &[(1, Some(1), &[1], &[1]), (2, Some(2), &[1], &[1])],
    );
    refuses(
        "timetable",
        &(two.card() + &order("carry", &[0, 1, 0])),
        8,
        3,
    );
    times(&two, "atomic", &[0, 1, 0], &[1, 2, 2]);
    times(&two, "intermediate", &[0, 1, 0], &[1, 3, 4]);
    times(&two, "carry", &[0, 0, 1], &[1, 1, 2]);
    times(&two, "atomic", &[0, 0, 1], &[1, 2, 2]);
    times(&two, "intermediate", &[0, 0, 1], &[1, 2, 4]);
    let taken = net(1, &[2], &[(3, Some(3), &[1], &[0])]);
    times(&taken, "carry", &[0, 0], &[3, 3]);
    let free = net(1, &[1], &[(1, Some(2), &[0], &[0])]);
    times(&free, "carry", &[0, 0, 0], &[1, 1, 1]);
    let away = net(
        1,
        &[1, 0],
        &[
            (0, None, &[1, 0], &[0, 1]),
            (1, None, &[0, 1], &[1, 0]),
            (2, Some(3), &[1, 0], &[1, 0]),
        ],
    );
    for memory in WORDS {
        times(&away, memory, &[2, 0, 1, 2], &[2, 2, 3, 5]);
    }
    let runs = |firings: &[(u64, u64)]| {
        let card = |memory: &str| a.card() + &run(memory, 1, firings, 0);
        (card("carry"), card("atomic"), card("intermediate"))
    };
    let (carry, atomic, intermediate) = runs(&[(1, 0), (0, 0), (1, 0)]);
    prints("replay", &carry, "end=1,1|clock=2|clock=2|");
    refuses("replay", &atomic, 7, 2);
    refuses("replay", &intermediate, 7, 2);
    let (carry, atomic, intermediate) = runs(&[(1, 0), (0, 0), (2, 0)]);
    refuses("replay", &carry, 7, 3);
    refuses("replay", &atomic, 7, 2);
    refuses("replay", &intermediate, 7, 2);
    let halves = [(3, 0), (0, 0), (1, 0), (0, 0), (2, 1)];
    let whole = [(1, 0), (0, 0), (1, 0), (0, 0), (1, 1)];
    prints(
        "round",
        &(a.card() + &run("carry", 2, &halves, 0)),
        &run("carry", 1, &whole, 0),
    );
    refuses("round", &(a.card() + &run("atomic", 2, &halves, 0)), 7, 2);
}

/// Net A on another sheet.
fn a_on(sheet: u64) -> String {
    let net = Net { sheet, ..net_a() };
    net.card()
}

/// The session on paper, with the sheet line that document 02 adds.
#[test]
fn session_with_sheets() {
    let card = "sheet=1|places=2|transitions=2|start=1|start=1|\
        earliest=1|latest=2|take=1,0|give=1,0|earliest=3|latest=4|take=1,1|give=0,0|\
        sheet=1|memory=atomic|firings=3|fire=0|fire=0|fire=1|";
    let answer = "sheet=1|memory=atomic|denominator=1|firings=3|\
        wait=1|fire=0|wait=1|fire=0|wait=1|fire=1|rest=0|";
    prints("timetable", card, answer);
}

#[test]
fn sheet_of_the_second_card() {
    let a = a_on(7);
    let order = order_lines("atomic", &[0, 0, 1]);
    let run = run_lines("atomic", 2, &[(3, 0), (3, 0), (0, 1)], 0);
    let rounded = run_lines("atomic", 1, &[(1, 0), (2, 0), (0, 1)], 0);
    refuses("timetable", &(a.clone() + &on(8, &order)), 11, 1);
    for program in OF_ONE_NET {
        let refused = |card: &str, number, place| {
            refuses(program, &(a.clone() + card), number, place);
        };
        // Another sheet, whatever stands behind that line, and before every replay.
        let late = run_lines("intermediate", 1, &[(0, 1)], 0);
        let absent = order_lines("atomic", &[1, 0]);
        for lines in [&run, &order, &late, &absent, "memory=atomik|", "", "x", "|"] {
            refused(&on(8, lines), 11, 1);
            refused(&on(6, lines), 11, 1);
            refused(&on(0, lines), 11, 1);
            refused(&on(9999, lines), 11, 1);
            refused(&on(70, lines), 11, 1);
            refused(&on(7 + 256, lines), 11, 1);
            refused(&on(10_000, lines), 2, 1);
            refused(&on(65_536 + 7, lines), 2, 1);
            refused(&on(999_999_999, lines), 2, 1);
            for line in [
                "sheet=0007|",
                "sheet=07|",
                "sheet=7,|",
                "sheet=7,7|",
                "sheet=|",
                "sheet=+7|",
                "sheet= 7|",
                "sheet=7 |",
                "sheet=7\r|",
                "sheet=-7|",
                "sheet=1000000000|",
                "sheet=4294967303|",
                "Sheet=7|",
                "sheets=7|",
                "sheet:7|",
                "sheet|",
                "|",
            ] {
                refused(&(line.to_owned() + lines), 1, 1);
            }
        }
        refused(&run, 1, 1);
        refused(&order, 1, 1);
        refused("sheet=7", 1, 1);
        refused("sheet=8", 1, 1);
        refused("sheet=10000", 1, 1);
        refused("sheet=7|", 1, 2);
        refused(&on(7, &on(7, &run)), 1, 2);
        refused(&on(7, &on(8, &run)), 1, 2);
        refused(&on(8, &on(7, &run)), 11, 1);
        refused(&run.replacen('|', "|sheet=7|", 1), 1, 1);

        // The net's own line, before anything of the second card.
        refuses(program, &(a_on(10_000) + &on(8, &run)), 2, 1);
        refuses(program, &(a_on(1_000_000_000) + &on(8, &run)), 1, 1);
        refuses(program, &(a.replacen("sheet=7\n", "", 1) + &run), 1, 1);
        let doubled = a.replacen("sheet=7\n", "sheet=7\nsheet=7\n", 1);
        refuses(program, &(doubled + &on(7, &run)), 1, 2);
        let low = net(7, &[1], &[(2, Some(1), &[0], &[0])]);
        refuses(program, &(low.card() + &on(8, &run)), 3, 6);
        refuses(program, "sheet=7", 1, 1);
        refuses(program, "sheet=7|", 1, 2);
    }

    // Line places are one further down, those of firings are where they were.
    let replay = |lines: &str, number, place| {
        refuses("replay", &(a.clone() + &on(7, lines)), number, place);
    };
    replay("memory=atomic|denominator=0|", 2, 3);
    replay("memory=atomic|denominator=1|firings=65|", 2, 4);
    replay(&run_lines("atomic", 1, &[(0, 0), (0, 7)], 0), 4, 8);
    replay(&(run_lines("atomic", 1, &[(1, 0)], 0) + "x"), 1, 8);
    let pulse = on(7, &order_lines("atomic", &[0]));
    refuses("timetable", &(a.clone() + &pulse + "|"), 1, 5);
    let waits = [(3, 0), (3, 0), (0, 1)];
    replay(&run_lines("intermediate", 2, &waits, 0), 7, 3);

    // Both on one sheet: accepted, and written back as it stands.
    for sheet in [0, 7, 9999] {
        let a = a_on(sheet);
        let timetable = run_lines("atomic", 1, &[(1, 0), (1, 0), (1, 1)], 0);
        let of = |lines: &str| a.clone() + &on(sheet, lines);
        prints("timetable", &of(&order), &on(sheet, &timetable));
        prints("round", &of(&run), &on(sheet, &rounded));
        prints("replay", &of(&run), "end=0,0|clock=off|clock=off|");
    }
}

#[test]
fn sheets_of_two_runs() {
    let a = a_on(7);
    let one = run_lines("atomic", 1, &[(1, 0)], 0);
    let late = run_lines("atomic", 1, &[(0, 0)], 0);
    let refused = |x: &str, y: &str, number, place| {
        refuses("rank", &(a.clone() + x + y), number, place);
    };
    let both = a.clone() + &on(7, &one) + &on(7, &one);
    prints("rank", &both, &ranked(0, 0));

    // X's before Y is read, Y's while it is read and before any replay.
    refused(&on(8, &one), &on(7, &one), 11, 1);
    refused(&on(8, &one), &on(8, &one), 11, 1);
    refused(&on(8, &one), "sheet=0007|", 11, 1);
    refused(&on(8, &one), "", 11, 1);
    refused(&on(7, &one), &on(8, &one), 11, 1);
    refused(&on(7, &late), &on(8, &one), 11, 1);
    refused(&on(7, &late), &on(8, "memory=atomik|"), 11, 1);
    refused(&on(7, &one), &on(10_000, &one), 2, 1);
    refused(&on(7, &one), "sheet=0007|", 1, 1);
    refused(&on(7, &one), "sheet=8", 1, 1);
    refused(&on(7, &one), &one, 1, 1);
    refused(&on(7, &one), &on(7, &on(7, &one)), 1, 2);
    refused(&on(7, "memory=atomik|"), &on(8, &one), 1, 2);
    refused(&on(7, &late), &on(7, &one), 7, 1);
}

#[test]
fn output() {
    let input = bytes(&(net_a().card() + &order("atomic", &[0, 0, 1])));
    for engine in [PLAIN, NAIVE] {
        let timetable = engine.operations[2];
        assert_eq!(timetable(&input, &mut [0; 95]), 95);
        let mut short = [7; 94];
        assert_eq!(timetable(&input, &mut short), -9 * 65_536);
        assert_eq!(short, [7; 94]);
        let refused = bytes(&(net_a().card() + &order("atomic", &[1, 0])));
        assert_eq!(timetable(&refused, &mut []), -(5 * 65_536 + 2));
        let long = bytes(&(a_on(9999) + &on(9999, &order_lines("atomic", &[0, 0, 1]))));
        assert_eq!(timetable(&long, &mut [0; 98]), 98);
        assert_eq!(timetable(&long, &mut [0; 97]), -9 * 65_536);
        let other = bytes(&(a_on(9999) + &order("atomic", &[0, 0, 1])));
        assert_eq!(timetable(&other, &mut []), -(11 * 65_536 + 1));
    }
}

#[test]
fn process() {
    let firings = [(0, 0), (0, 1)];
    let one = net(1, &[1], &[(0, None, &[0], &[1]), (0, None, &[1], &[0])]);
    prints(
        "process",
        &(one.card() + &run("atomic", 1, &firings, 0)),
        "fire=0|from=none|fire=1|from=0.0.1|left=0.1.1|free=1|",
    );
    let two = net(1, &[1], &[(0, None, &[0], &[2]), (0, None, &[2], &[0])]);
    prints(
        "process",
        &(two.card() + &run("atomic", 1, &firings, 0)),
        "fire=0|from=none|fire=1|from=0.0.1,0.1.1|left=0.1.1|free=none|",
    );
    let given = net(1, &[0], &[(0, None, &[0], &[1])]);
    prints(
        "process",
        &(given.card() + &run("atomic", 1, &[(0, 0)], 0)),
        "fire=0|from=none|left=0.1.1|free=none|",
    );
    prints(
        "process",
        &(net_a().card() + &run("atomic", 1, &[], 0)),
        "left=0.0.1,1.0.1|free=none|",
    );
}

/// What is printed of a rank and a lead.
fn ranked(rank: i64, lead: i64) -> String {
    format!("rank={rank}|lead={lead}|")
}

/// The timetable of net A's order 0, 0, 1, which the cases call X.
fn run_x() -> String {
    run("atomic", 1, &[(1, 0), (1, 0), (1, 1)], 0)
}

#[test]
fn rank() {
    // Both ways round: the rank and the lead change their signs and nothing else.
    let ranks = |net: &Net, x: &str, y: &str, rank: i64, lead: i64| {
        prints("rank", &(net.card() + x + y), &ranked(rank, lead));
        prints("rank", &(net.card() + y + x), &ranked(-rank, -lead));
    };
    let a = net_a();
    let x = run_x();
    let halves = |waits: [u64; 3], rest| {
        let firings = [(waits[0], 0), (waits[1], 0), (waits[2], 1)];
        run("atomic", 2, &firings, rest)
    };
    ranks(&a, &x, &halves([3, 3, 0], 0), -1, -1);
    ranks(&a, &x, &halves([2, 2, 2], 0), 0, 0);
    ranks(&a, &x, &x, 0, 0);

    // The end decides.
    let waiting = run("atomic", 1, &[(1, 0), (1, 0), (1, 1)], 1);
    ranks(&a, &x, &waiting, -1, -1);
    ranks(&a, &halves([2, 2, 2], 1), &x, 1, 1);
    let end = |denominator, rest| run("atomic", denominator, &[], rest);
    ranks(&a, &end(1, 0), &end(3, 1), -1, -1);
    ranks(&a, &end(2, 1), &end(4, 2), 0, 0);
    ranks(&a, &end(3, 1), &end(2, 1), -1, -1);
    ranks(&a, &end(1000, 333), &end(3, 1), -1, -1);

    // The first instant that differs decides, whatever comes behind it.
    let free = net(1, &[1], &[(0, None, &[1], &[1])]);
    let pulses = |denominator, waits: &[u64], rest| {
        let firings: Vec<(u64, u64)> = waits.iter().map(|&wait| (wait, 0)).collect();
        run("atomic", denominator, &firings, rest)
    };
    ranks(
        &free,
        &pulses(1, &[0, 9], 9),
        &pulses(1, &[1, 0], 0),
        -1,
        -1,
    );
    ranks(&free, &pulses(2, &[2, 5], 0), &pulses(3, &[3, 7], 0), 1, 1);
    ranks(
        &free,
        &pulses(2, &[2, 4, 1], 0),
        &pulses(3, &[3, 6, 2], 0),
        -1,
        -1,
    );

    // Not reduced: a quarter of a tick is two eighths, a sixth is four parts of 24.
    ranks(&free, &pulses(2, &[1], 0), &pulses(4, &[1], 0), 1, 2);
    ranks(&free, &pulses(6, &[4], 0), &pulses(4, &[2], 0), 1, 4);

    // The longest answers: a wait of 10,000,000 against none, with 1,000 as the other denominator.
    ranks(
        &free,
        &pulses(1, &[10_000_000], 0),
        &pulses(1000, &[0], 0),
        1,
        10_000_000_000,
    );
    let longest = vec![10_000_000; 64];
    ranks(
        &free,
        &pulses(1000, &longest, 10_000_000),
        &pulses(1000, &longest, 0),
        1,
        10_000_000_000,
    );
}

#[test]
fn rank_refused() {
    let a = net_a().card();
    let refused = |x: &str, y: &str, number, place| {
        refuses("rank", &(a.clone() + x + y), number, place);
    };
    let x = run_x();

    // Another memory, another number of firings, another transition: after both replays.
    let two = |memory: &str| run(memory, 1, &[(1, 0), (1, 0)], 0);
    for memory in WORDS {
        for other in WORDS {
            if memory == other {
                let tie = a.clone() + &two(memory) + &two(other);
                prints("rank", &tie, &ranked(0, 0));
            } else {
                refused(&two(memory), &two(other), 10, 0);
            }
        }
    }
    refused(&x, &two("atomic"), 10, 0);
    refused(&two("atomic"), &x, 10, 0);
    refused(&run("atomic", 1, &[], 0), &two("atomic"), 10, 0);
    let pulses = run("atomic", 1, &[(1, 0), (1, 0), (1, 0)], 0);
    refused(&x, &pulses, 10, 0);
    let late = run("atomic", 1, &[(0, 0), (1, 0), (1, 1)], 0);
    refused(&late, &two("atomic"), 7, 1);
    refused(&two("atomic"), &late, 7, 1);

    // Both cards are read before the first replay, and X is replayed before Y.
    refused(&late, "sheet=1|memory=atomic|denominator=x|", 1, 3);
    refused(&late, "", 1, 1);
    refused(&late, &(x.clone() + "|"), 1, 12);
    refused(&x, &late, 7, 1);
    let absent = run("atomic", 1, &[(3, 1), (0, 0)], 0);
    refused(&late, &absent, 7, 1);
    refused(&absent, &late, 5, 2);
    let again = net_255().card() + &run("atomic", 1, &[(0, 0), (0, 0)], 0);
    refuses("rank", &(again + &run("carry", 1, &[(0, 0)], 0)), 6, 2);

    // Lines of X's card before those of Y's; nothing may follow Y.
    refused("", "", 1, 1);
    refused(&x, "", 1, 1);
    refused("sheet=1|memory=atomic|denominator=0|", &x, 2, 3);
    refused("sheet=1|memory=atomic|denominator=1|firings=0|", &x, 1, 5);
    refused(&x, "sheet=1|memory=atomic|denominator=1001|", 2, 3);
    refused(
        &x,
        "sheet=1|memory=atomic|denominator=1|firings=1|wait=0|fire=2|",
        4,
        6,
    );
    refused(&(x.clone() + "|"), &x, 1, 1);
    refused(&x, &(x.clone() + "x"), 1, 12);
    refused(&x, &(x.clone() + &x), 1, 12);
    refused(&two("atomic"), &(two("atomic") + "|"), 1, 10);
    refused(&x, &(run("atomic", 1, &[], 0) + "|"), 1, 6);
    refused(&x, x.strip_suffix('|').unwrap(), 1, 11);
    refuses("rank", &(a_with(2, "places=0") + &x), 2, 2);
}

#[test]
fn rank_output() {
    let a = net_a().card();
    let input = bytes(&(a.clone() + &run_x() + &run_x()));
    let other = bytes(&(a + &run_x() + &run("atomic", 1, &[], 0)));
    for engine in [PLAIN, NAIVE] {
        let rank = engine.operations[4];
        let mut output = [7; 15];
        assert_eq!(rank(&input, &mut output), 14);
        assert_eq!(&output, b"rank=0\nlead=0\n\x07");
        let mut short = [7; 13];
        assert_eq!(rank(&input, &mut short), -9 * 65_536);
        assert_eq!(short, [7; 13]);
        assert_eq!(rank(&other, &mut []), -10 * 65_536);
    }
}

/// The card of a net on another sheet.
fn card_on(sheet: u64, net: Net) -> String {
    Net { sheet, ..net }.card()
}

/// Nets A on sheet 7 and B on sheet 9, and a line behind them.
fn a_and_b(line: &str) -> String {
    a_on(7) + &card_on(9, net_b()) + line
}

/// Nets A on sheet 7 and F on sheet 9, and a line behind them.
fn a_and_f(line: &str) -> String {
    a_on(7) + &card_on(9, net_f()) + line
}

/// A net with so many places and transitions, on sheet 1, each place with so many tokens.
fn uniform(places: usize, transitions: usize, tokens: u64) -> Net {
    let weights = vec![0; places];
    let transition = (0, None, weights.as_slice(), weights.as_slice());
    net(1, &vec![tokens; places], &vec![transition; transitions])
}

/// A `pairs` line that pairs so many places with those of the same number.
fn same_places(places: usize) -> String {
    let pairs: Vec<String> = (0..places)
        .map(|place| format!("{place},{place}"))
        .collect();
    format!("pairs={}|", pairs.join(","))
}

const A_AND_F: &str = "sheet=7|places=3|transitions=3|start=1|start=1|start=1|\
    earliest=1|latest=2|take=1,0,0|give=1,0,0|earliest=3|latest=4|take=1,1,0|give=0,0,0|\
    earliest=0|latest=inf|take=0,0,1|give=0,0,1|";

const A_AND_B: &str = "sheet=7|places=4|transitions=5|start=1|start=1|start=1|start=0|\
    earliest=1|latest=2|take=1,0,0,0|give=1,0,0,0|earliest=3|latest=4|take=1,1,0,0|give=0,0,0,0|\
    earliest=0|latest=inf|take=0,0,1,0|give=0,0,0,1|earliest=5|latest=5|take=0,1,0,0|give=0,0,0,0|\
    earliest=0|latest=2|take=0,0,0,1|give=0,0,0,0|";

#[test]
fn join() {
    prints("join", &a_and_f("pairs=none|"), A_AND_F);
    prints("join", &a_and_b("pairs=1,2|"), A_AND_B);

    // Pairs may cross, and one number may stand once on each side.
    let first = net(1, &[1, 2, 3], &[(0, None, &[4, 5, 6], &[7, 8, 9])]);
    let second = net(2, &[3, 0, 1], &[(2, Some(3), &[10, 20, 30], &[40, 50, 60])]);
    let crossed = first.card() + &second.card() + "pairs=2,0,0,2|";
    let joined = net(
        1,
        &[1, 2, 3, 0],
        &[
            (0, None, &[4, 5, 6, 0], &[7, 8, 9, 0]),
            (2, Some(3), &[30, 0, 10, 20], &[60, 0, 40, 50]),
        ],
    );
    prints("join", &crossed, &joined.card().replace('\n', "|"));

    // A net beside itself, apart and place on place.
    let c = net_c().card();
    let apart = "sheet=3|places=4|transitions=6|start=1|start=1|start=1|start=1|\
        earliest=0|latest=inf|take=1,0,0,0|give=0,0,0,0|earliest=0|latest=inf|take=0,1,0,0|give=1,0,0,0|\
        earliest=2|latest=2|take=1,0,0,0|give=0,0,0,0|earliest=0|latest=inf|take=0,0,1,0|give=0,0,0,0|\
        earliest=0|latest=inf|take=0,0,0,1|give=0,0,1,0|earliest=2|latest=2|take=0,0,1,0|give=0,0,0,0|";
    prints("join", &(c.clone() + &c + "pairs=none|"), apart);
    let mut twice = net_c();
    twice.transitions.extend(net_c().transitions);
    let twice = twice.card().replace('\n', "|");
    prints("join", &(c.clone() + &c + &same_places(2)), &twice);
}

#[test]
fn join_refused() {
    let refused = |list: &str, number, place| {
        refuses("join", &a_and_b(&format!("pairs={list}|")), number, place);
    };
    // An odd list, no place of that side, a place twice on its side.
    let zeros = ["0"; 40].join(",");
    for list in ["1", "2,0", "0,3", "0,0,0,2", "0,0,1,0", "0,2,0,2", &zeros] {
        refused(list, 12, 0);
    }
    let far = ["999999999,0", "0,256", "256,0", "0,65536", "16,0", "0,16"];
    for list in ["0,0,1", "1,2,1"].into_iter().chain(far) {
        refused(list, 12, 0);
    }
    refused("0,1", 13, 0);

    // The whole list for 12, then for 13, then 14.
    refused("0,1,9,0", 12, 0);
    refused("9,0,0,1", 12, 0);
    refused("0,1,1", 12, 0);
    refused("0,1,1,1", 12, 0);
    refused("0,0,1,1", 13, 0);
    let two = |start: &[u64]| net(1, start, &[(0, None, &[0, 0], &[0, 0])]).card();
    let input = two(&[1, 1]) + &two(&[2, 1]) + "pairs=0,0,9,0|";
    refuses("join", &input, 12, 0);
}

#[test]
fn join_too_large() {
    let join = |first: &Net, second: &Net, line: &str| first.card() + &second.card() + line;
    let refused = |first: &Net, second: &Net, line: &str, number| {
        refuses("join", &join(first, second, line), number, 0);
    };
    let one = uniform(1, 1, 0);
    let full = uniform(16, 16, 0);
    refused(&full, &one, "pairs=none|", 14);
    refused(&one, &full, "pairs=none|", 14);
    refused(&full, &full, &same_places(15), 14);
    refused(&full, &uniform(15, 1, 0), &same_places(14), 14);
    let both = uniform(16, 32, 0).card().replace('\n', "|");
    prints("join", &join(&full, &full, &same_places(16)), &both);
    let most = uniform(16, 2, 0).card().replace('\n', "|");
    prints(
        "join",
        &join(&uniform(15, 1, 0), &one, "pairs=none|"),
        &most,
    );
    prints("join", &join(&uniform(16, 1, 0), &one, "pairs=3,0|"), &most);

    // Transitions, and 12 and 13 before them.
    let (some, more) = (uniform(1, 16, 1), uniform(1, 17, 1));
    refused(&more, &some, "pairs=none|", 14);
    refused(&some, &more, "pairs=0,0|", 14);
    refused(&more, &uniform(1, 16, 2), "pairs=0,0|", 13);
    refused(&more, &some, "pairs=0,1|", 12);
    refused(&more, &some, "pairs=0|", 12);
    let thirty_two = uniform(1, 32, 1).card().replace('\n', "|");
    prints("join", &join(&some, &some, "pairs=0,0|"), &thirty_two);
    refused(&uniform(16, 32, 7), &uniform(16, 32, 7), "pairs=none|", 14);
}

/// Values that are no list of pairs, one behind the other with a semicolon between them.
const NO_LISTS: &str = ";None;non;nonee;none ;none\r; none;none,;none,1,2;1,none;1,2,none;,;1,2,;,1,2;\
    1,,2;1,02;00,2;01,2;1, 2;1 ,2;1,2 ;+1,2;-1,2;1:2;1.2;1,2\r;0,1000000000;0,4294967296;1,x;9,x;0x1,2;\
    pairs=1,2;inf;1,2\0";

#[test]
fn join_lines() {
    let line = |line: &str, place| refuses("join", &a_and_b(line), 1, place);
    for value in NO_LISTS.split(';') {
        line(&format!("pairs={value}|"), 1);
    }
    let keys = ";pairs;pair=none;Pairs=none;pairs:none;sheet=7|pairs=none;none";
    for text in keys.split(';') {
        line(&format!("{text}|"), 1);
    }
    for unended in ";pairs=;pairs=none;pairs=1,2;pairs=1,2,;pairs=9".split(';') {
        line(unended, 1);
    }

    // Bytes behind the line, whatever the list says.
    for behind in ["|", "x", "0", "\0", "pairs=1,2|", "sheet=7|", "none|"] {
        for list in ["none", "1,2", "1", "0,1", "9,9"] {
            line(&format!("pairs={list}|{behind}"), 2);
        }
    }
    // The form of the whole list before 12.
    let long = ["0"; 300].join(",");
    refuses("join", &a_and_b(&format!("pairs={long}|")), 12, 0);
    line(&format!("pairs={long},|"), 1);
    line(&format!("pairs={long},00|"), 1);
    line(&format!("pairs={long}"), 1);
    line(&format!("pairs={long}|x"), 2);
}

#[test]
fn join_cards() {
    let b = card_on(9, net_b());
    let refused = |behind: &str, number, place| {
        refuses("join", &(a_on(7) + behind), number, place);
    };
    let cut = b.strip_suffix("give=0,0,0\n").unwrap();
    refused(&format!("{cut}give=0,0,|pairs=none|"), 1, 18);
    refused(&format!("{cut}pairs=none|"), 1, 18);
    refused(cut, 1, 18);
    refused(&format!("{cut}give=0,0,256|pairs=9|"), 2, 18);
    refused("", 1, 1);
    refused("pairs=none|", 1, 1);
    refused(&b, 1, 1);
    refused(&format!("|{b}pairs=none|"), 1, 1);
    refused(&(b.clone() + &on(7, &run_lines("atomic", 1, &[], 0))), 1, 1);

    // The first net's lines before the second's, the second's before the line.
    let bare = b.strip_prefix("sheet=9\n").unwrap();
    refused(&format!("{bare}pairs=none|"), 1, 1);
    refuses("join", &(a_on(10_000) + bare + "pairs=9|"), 2, 1);
    refused(&(b.replace("latest=5", "latest=4") + "x"), 3, 12);
    refused(&(b.replace("start=0", "start=256") + "pairs=|"), 2, 5);

    // The two may stand on any sheets, and the first's is written.
    for (first, second) in [(0, 0), (7, 7), (0, 9999), (9999, 0)] {
        let f = card_on(second, net_f());
        let joined = A_AND_F.replace("sheet=7|", &format!("sheet={first}|"));
        prints("join", &(a_on(first) + &f + "pairs=none|"), &joined);
    }
}

/// A run of the joined net is one of each net, with the same end.
#[test]
fn join_replayed() {
    let replay = |net: &str, run: &str, answer: &str| {
        prints("replay", &format!("{net}{run}"), answer);
    };
    let a = a_on(7);
    let f = card_on(9, net_f());
    let halves = |firings: &[(u64, u64)], rest| run_lines("atomic", 2, firings, rest);
    let both = |wait| [(1, 2), (wait, 0), (1, 2), (2, 0), (0, 1)];
    replay(
        A_AND_F,
        &on(7, &halves(&both(2), 1)),
        "end=0,0,1|clock=off|clock=off|clock=3|",
    );
    replay(
        &a,
        &on(7, &halves(&[(3, 0), (3, 0), (0, 1)], 1)),
        "end=0,0|clock=off|clock=off|",
    );
    replay(&f, &on(9, &halves(&[(1, 0), (3, 0)], 3)), "end=1|clock=3|");
    replay(A_AND_F, &on(7, &halves(&both(1), 1)), "refused=7|place=5|");
    replay(
        &a,
        &on(7, &halves(&[(2, 0), (3, 0), (0, 1)], 1)),
        "refused=7|place=3|",
    );
    replay(A_AND_F, &on(9, &halves(&both(2), 1)), "refused=11|place=1|");
}

#[test]
fn join_output() {
    let input = bytes(&a_and_f("pairs=none|"));
    let answer = bytes(A_AND_F);
    let odd = bytes(&a_and_f("pairs=0|"));
    let transition = (1000, Some(1000), [255; 16].as_slice(), [255; 16].as_slice());
    let longest = net(9999, &[255; 16], &[transition; 16]).card();
    let longest = bytes(&(longest.clone() + &longest + &same_places(16)));
    for engine in [PLAIN, NAIVE] {
        let join = engine.operations[5];
        let mut output = vec![7; answer.len() + 1];
        assert_eq!(join(&input, &mut output), answer.len() as i64);
        assert_eq!(output, [answer.as_slice(), &[7]].concat());
        let mut short = vec![7; answer.len() - 1];
        assert_eq!(join(&input, &mut short), -9 * 65_536);
        assert_eq!(short, vec![7; answer.len() - 1]);
        assert_eq!(join(&odd, &mut []), -12 * 65_536);
        assert_eq!(join(&longest, &mut [0; 5_444]), 5_444);
        assert_eq!(join(&longest, &mut [0; 5_443]), -9 * 65_536);
    }
}
