//! Open runs: the cases of the request, over cards, as records and as lines of the program `live`; and
//! at random, what an open run must be whatever is entered. In texts `|` stands for byte 10.

use harness::engine::ENGINE;
use harness::gen::{self, Rng, Script, Turn};
use harness::naive::{self, Memory, Net};
use harness::paper::{net, net_a, net_f};
use harness::plain::{self, card};
use harness::session::session;
use harness::{printed, Engine, Operation, Outcome, LIVE, LIVE_LONGEST, NAIVE, PLAIN};
use harness::{CLOSE, FIRE, OPEN, STATE, TIMETABLE, WAIT};

const VERSIONS: [Engine; 3] = [PLAIN, NAIVE, ENGINE];
const MOST_PARTS: u32 = 10_000_000;

fn bytes(text: &str) -> Vec<u8> {
    text.replace('|', "\n").into_bytes()
}

/// The result and the output of a call into an output of this length, filled beforehand.
fn call(engine: &Engine, step: usize, number: u32, input: &[u8], length: usize) -> (i64, Vec<u8>) {
    let mut output: Vec<u8> = (0..length).map(|at| (at * 7 + 1) as u8).collect();
    let result = engine.live[step](input, number, &mut output);
    let written = usize::try_from(result).unwrap_or(0);
    let kept = (written..length).all(|at| output[at] == (at * 7 + 1) as u8);
    assert!(kept, "{} writes behind its answer", engine.name);
    (result, output)
}

/// What all versions make of a call into an output of this length.
#[track_caller]
fn agreed(step: usize, number: u32, input: &[u8], length: usize) -> Result<String, (u64, u64)> {
    let [plain, naive, tested] = VERSIONS.map(|engine| call(&engine, step, number, input, length));
    assert!(
        plain == naive && plain == tested,
        "{} {number} of {}: {} and {} and {}",
        LIVE[step],
        input.escape_ascii(),
        plain.0,
        naive.0,
        tested.0
    );
    match Outcome::of(plain.0) {
        Outcome::Answer { length } => Ok(String::from_utf8(plain.1[..length].to_vec()).unwrap()),
        Outcome::Refusal { number, place } => Err((number, place)),
    }
}

/// An open run as the cards of it that a caller holds.
#[derive(Clone)]
struct Held {
    net: String,
    /// Empty once the run is closed.
    card: String,
}

impl Held {
    #[track_caller]
    fn open(net: &str, lines: &str) -> Result<Self, (u64, u64)> {
        let net = net.replace('|', "\n");
        let input = net.clone() + &lines.replace('|', "\n");
        let card = agreed(OPEN, 0, input.as_bytes(), LIVE_LONGEST)?;
        Ok(Held { net, card })
    }

    #[track_caller]
    fn ask(&self, step: usize, number: u32, length: usize) -> Result<String, (u64, u64)> {
        let cards = match self.card.is_empty() {
            true => String::new(),
            false => self.net.clone() + &self.card,
        };
        agreed(step, number, cards.as_bytes(), length)
    }

    #[track_caller]
    fn enter(&mut self, step: usize, number: u32) -> Result<(), (u64, u64)> {
        self.card = self.ask(step, number, LIVE_LONGEST)?;
        Ok(())
    }

    #[track_caller]
    fn wait(&mut self, parts: u32) -> Result<(), (u64, u64)> {
        self.enter(WAIT, parts)
    }

    #[track_caller]
    fn fire(&mut self, transition: u32) -> Result<(), (u64, u64)> {
        self.enter(FIRE, transition)
    }

    #[track_caller]
    fn close(&mut self, rest: u32, length: usize) -> Result<String, (u64, u64)> {
        let card = self.ask(CLOSE, rest, length)?.replace('\n', "|");
        self.card.clear();
        Ok(card)
    }

    #[track_caller]
    fn state(&self) -> String {
        let text = self.ask(STATE, 0, LIVE_LONGEST);
        text.expect("open").replace('\n', "|")
    }

    #[track_caller]
    fn timetable(&self) -> String {
        let text = self.ask(TIMETABLE, 0, LIVE_LONGEST);
        text.expect("open").replace('\n', "|")
    }

    /// Every step and call is refused as 15.
    #[track_caller]
    fn is_closed(&self) {
        for (step, number) in [
            (WAIT, 0),
            (WAIT, u32::MAX),
            (FIRE, 0),
            (FIRE, 99),
            (CLOSE, 0),
        ] {
            assert_eq!(self.ask(step, number, LIVE_LONGEST), Err((15, 0)));
            assert_eq!(self.ask(step, number, 0), Err((15, 0)));
        }
        for step in [STATE, TIMETABLE] {
            assert_eq!(self.ask(step, 0, LIVE_LONGEST), Err((15, 0)));
            assert_eq!(self.ask(step, 0, 0), Err((15, 0)));
        }
    }
}

/// Net A under atomic memory in halves of a tick.
fn on_a() -> Held {
    Held::open(&net_a().card(), "sheet=1|memory=atomic|denominator=2|").unwrap()
}

/// Net F with so many firings without waits.
fn on_f(firings: usize) -> Held {
    let lines = "sheet=4|memory=carry|denominator=1|";
    let mut held = Held::open(&net_f().card(), lines).unwrap();
    for _ in 0..firings {
        held.fire(0).unwrap();
    }
    held
}

// The cases, over cards

#[test]
fn a_run_is_entered() {
    let mut a = on_a();
    assert_eq!(a.state(), "end=1,1|clock=0|clock=0|");
    a.wait(3).unwrap();
    assert_eq!(a.state(), "end=1,1|clock=3|clock=3|");
    a.fire(0).unwrap();
    a.wait(3).unwrap();
    assert_eq!(a.state(), "end=1,1|clock=3|clock=6|");
    a.fire(0).unwrap();
    assert_eq!(a.fire(9), Err((4, 3)));
    a.fire(1).unwrap();
    assert_eq!(a.state(), "end=0,0|clock=off|clock=off|");
    assert_eq!(
        a.timetable(),
        "sheet=1|memory=atomic|denominator=1|firings=3|wait=1|fire=0|wait=1|fire=0|wait=1|fire=1|rest=0|"
    );
    assert_eq!(a.fire(0), Err((5, 4)));
    assert_eq!(
        a.close(0, LIVE_LONGEST).unwrap(),
        "sheet=1|memory=atomic|denominator=2|firings=3|wait=3|fire=0|wait=3|fire=0|wait=0|fire=1|rest=0|"
    );
    a.is_closed();
}

#[test]
fn the_firing_that_is_entered_has_the_place() {
    let mut a = on_a();
    assert_eq!(a.fire(0), Err((7, 1)));
    a.wait(2).unwrap();
    a.fire(0).unwrap();
    assert_eq!(a.fire(2), Err((4, 2)));
    assert_eq!(a.fire(u32::MAX), Err((4, 2)));
    assert_eq!(a.fire(1), Err((7, 2)));
    a.wait(6).unwrap();
    // Past its latest: only the other may fire now.
    assert_eq!(a.fire(0), Err((7, 2)));
    a.fire(1).unwrap();
    assert_eq!(a.fire(0), Err((5, 3)));
    assert_eq!(a.wait(MOST_PARTS + 1), Err((2, 3)));
    assert_eq!(a.close(MOST_PARTS + 1, LIVE_LONGEST), Err((2, 3)));

    // 7 before 6, and 6 once the clock is right.
    let full = net(1, &[255], &[(1, Some(1), &[0], &[1])]);
    let lines = "sheet=1|memory=intermediate|denominator=3|";
    let mut full = Held::open(&full.card(), lines).unwrap();
    assert_eq!(full.fire(0), Err((7, 1)));
    full.wait(3).unwrap();
    assert_eq!(full.fire(0), Err((6, 1)));
    full.wait(1).unwrap();
    assert_eq!(full.fire(0), Err((7, 1)));
}

#[test]
fn waits_add_up() {
    let mut a = on_a();
    a.wait(6_000_000).unwrap();
    for parts in [
        6_000_000,
        4_000_001,
        4_000_000_000,
        u32::MAX,
        u32::MAX - 5_999_999,
    ] {
        assert_eq!(a.wait(parts), Err((2, 1)));
        assert_eq!(a.close(parts, LIVE_LONGEST), Err((2, 1)));
    }
    a.wait(4_000_000).unwrap();
    assert_eq!(a.wait(1), Err((2, 1)));
    a.wait(0).unwrap();
    assert_eq!(a.state(), "end=1,1|clock=10000000|clock=10000000|");
    assert_eq!(
        a.timetable(),
        "sheet=1|memory=atomic|denominator=1|firings=0|rest=0|"
    );
    assert_eq!(
        a.close(0, LIVE_LONGEST).unwrap(),
        "sheet=1|memory=atomic|denominator=2|firings=0|rest=10000000|"
    );

    // Behind a firing they begin anew, and those behind the last count into the rest.
    let mut f = on_f(0);
    f.wait(MOST_PARTS).unwrap();
    f.fire(0).unwrap();
    f.wait(7_000_000).unwrap();
    f.wait(2_999_999).unwrap();
    assert_eq!(f.wait(2), Err((2, 2)));
    assert_eq!(
        f.close(1, LIVE_LONGEST).unwrap(),
        "sheet=4|memory=carry|denominator=1|firings=1|wait=10000000|fire=0|rest=10000000|"
    );
}

#[test]
fn there_is_no_sixty_fifth_firing() {
    let mut f = on_f(64);
    for transition in [0, 1, 99, u32::MAX] {
        assert_eq!(f.fire(transition), Err((2, 65)));
    }
    f.wait(1).unwrap();
    assert_eq!(f.wait(MOST_PARTS), Err((2, 65)));
    assert_eq!(f.close(MOST_PARTS, 0), Err((2, 65)));
    assert_eq!(f.state(), "end=1|clock=1|");
    assert!(f.timetable().ends_with("|wait=0|fire=0|rest=0|"));
    let card = f.close(MOST_PARTS - 1, LIVE_LONGEST).unwrap();
    assert!(card.contains("|firings=64|") && card.ends_with("|rest=10000000|"));
    f.is_closed();
}

#[test]
fn too_short_an_output_leaves_the_run_open() {
    let mut a = on_a();
    a.wait(3).unwrap();
    let card = "sheet=1|memory=atomic|denominator=2|firings=0|rest=8|";
    for length in 0..card.len() {
        assert_eq!(a.close(5, length), Err((9, 0)));
        assert_eq!(a.ask(WAIT, 5, length), Err((9, 0)));
    }
    assert_eq!(a.close(MOST_PARTS, 0), Err((2, 1)));
    assert_eq!(a.state(), "end=1,1|clock=3|clock=3|");
    assert_eq!(a.ask(STATE, 0, 23), Err((9, 0)));
    assert_eq!(a.ask(TIMETABLE, 0, 3), Err((9, 0)));
    assert_eq!(a.ask(FIRE, 0, 3), Err((9, 0)));
    assert_eq!(a.ask(FIRE, 2, 3), Err((4, 1)));
    assert_eq!(a.close(5, card.len()).unwrap(), card);
    a.is_closed();
}

#[test]
fn the_longest_answers() {
    let weights = [255; 16];
    let table = (0, None, &weights[..], &weights[..]);
    let net = net(9999, &weights, &[table; 32]);
    let lines = "sheet=9999|memory=intermediate|denominator=1000|";
    let mut held = Held::open(&net.card(), lines).unwrap();
    for _ in 0..64 {
        held.wait(MOST_PARTS).unwrap();
        held.fire(31).unwrap();
    }
    assert_eq!(held.state().len(), 4 + 16 * 4 + 32 * 8);
    held.wait(MOST_PARTS).unwrap();
    assert_eq!(held.card.len(), 1481);
    assert_eq!(held.close(0, 1480), Err((9, 0)));
    assert_eq!(held.close(0, 1481).unwrap().len(), 1481);
}

#[test]
fn openings() {
    let a = net_a().card();
    let refused = |lines: &str, number, place| {
        let found = Held::open(&a, lines).map(|held| held.card);
        assert_eq!(found, Err((number, place)), "{lines}");
    };
    for (denominator, number, place) in [
        ("0", 2, 0),
        ("1001", 2, 0),
        ("999999999", 2, 0),
        ("1000000000", 1, 3),
        ("4294967297", 1, 3),
        ("", 1, 3),
        ("01", 1, 3),
        ("-1", 1, 3),
        ("1 ", 1, 3),
    ] {
        let lines = format!("sheet=1|memory=atomic|denominator={denominator}|");
        refused(&lines, number, place);
        // Nothing behind the line is looked at.
        refused(&(lines + "x"), number, place);
    }
    refused("sheet=1|memory=atomic|denominator=1", 1, 3);
    refused("sheet=1|memory=atomic|denominator=0", 1, 3);
    refused("sheet=1|memory=atomic|denominator=1|x", 1, 4);
    refused("sheet=1|memory=atomic|denominator=1||", 1, 4);
    refused(
        "sheet=1|memory=atomic|denominator=1|firings=0|rest=0|",
        1,
        4,
    );
    refused("sheet=1|memory=atomic|", 1, 3);
    refused("sheet=1|memory=atomic|firings=0|", 1, 3);
    refused("sheet=1|denominator=1|memory=atomic|", 1, 2);
    refused("sheet=1|memory=Atomic|denominator=0|", 1, 2);
    refused("sheet=1|", 1, 2);
    refused("sheet=2|memory=|denominator=0|", 11, 1);
    refused("sheet=10000|memory=atomic|denominator=1|", 2, 1);
    refused("sheet=01|memory=atomic|denominator=1|", 1, 1);
    refused("memory=atomic|denominator=1|", 1, 1);
    refused("", 1, 1);
    for (memory, denominator) in [("intermediate", 1), ("atomic", 1000), ("carry", 64)] {
        let lines = format!("sheet=1|memory={memory}|denominator={denominator}|");
        let held = Held::open(&a, &lines).unwrap();
        let card = held.card.replace('\n', "|");
        assert_eq!(card, lines + "firings=0|rest=0|");
    }
    // The net first, as its card.
    let seventeen = a.replace("places=2", "places=17");
    let found = Held::open(&seventeen, "sheet=1|memory=atomic|denominator=0|").map(|_| ());
    assert_eq!(found, Err((2, 2)));
    assert_eq!(Held::open("", "").map(|_| ()), Err((1, 1)));
    let held = Held {
        net: seventeen,
        card: "sheet=1\nmemory=atomic\ndenominator=1\nfirings=0\nrest=0\n".into(),
    };
    held.is_closed();
}

/// Cards that no steps leave are a closed run.
#[test]
fn cards_made_by_hand() {
    let cards = |card: &str| Held {
        net: net_a().card(),
        card: card.replace('|', "\n"),
    };
    let run = |denominator: u32, firings: &[(u32, u32)], rest: u32| {
        let count = firings.len();
        let lines = firings
            .iter()
            .map(|(wait, fire)| format!("wait={wait}|fire={fire}|"));
        let lines: String = lines.collect();
        format!(
            "sheet=1|memory=atomic|denominator={denominator}|firings={count}|{lines}rest={rest}|"
        )
    };
    let good = run(2, &[(3, 0), (3, 0)], 10_000_000);
    let held = cards(&good);
    assert_eq!(held.state(), "end=1,1|clock=10000000|clock=10000006|");
    for card in [
        run(2, &[(3, 0), (3, 0)], 10_000_001),
        run(2, &[(3, 0), (3, 0)], 999_999_999),
        run(2, &[(3, 0), (10_000_001, 0)], 0),
        run(2, &[(3, 0), (3, 2)], 0),
        run(2, &[(3, 0), (1, 0)], 0),
        run(2, &[(3, 0), (5, 0)], 0),
        run(2, &[(3, 0), (2, 1)], 0),
        run(2, &[(3, 0), (3, 1), (0, 0)], 0),
        run(0, &[(3, 0)], 0),
        run(0, &[], 0),
        run(1001, &[], 0),
        run(1, &[(3, 0)], 0),
        good.replace("sheet=1", "sheet=2"),
        good.replace("sheet=1", "sheet=10000"),
        good.replace("sheet=1|", ""),
        good.replace("firings=2", "firings=1"),
        good.replace("firings=2", "firings=3"),
        good.replace("firings=2", "firings=02"),
        good.replace("atomic", "Atomic"),
        good.replace("rest=10000000|", "rest=10000000"),
        good.replace("rest=10000000|", ""),
        good.clone() + "|",
        good.clone() + "x",
        good.clone() + &good,
        "sheet=1|memory=atomic|denominator=2|".into(),
        "sheet=1|memory=atomic|firings=1|fire=0|".into(),
        "x".into(),
    ] {
        cards(&card).is_closed();
    }
    // 65 firings, each of which may be; and a net that is not one.
    let mut many = on_f(64);
    let one_more = many.card.replace("firings=64", "firings=65");
    many.card = one_more.replace("rest=0", "wait=0\nfire=0\nrest=0");
    many.is_closed();
    let mut other = held.clone();
    for (old, new) in [
        ("places=2", "places=3"),
        ("start=1", "start=256"),
        ("latest=4", "latest=2"),
        ("sheet=1", "sheet=3"),
        ("transitions=2", "transitions=33"),
    ] {
        other.net = held.net.replacen(old, new, 1);
        other.is_closed();
    }
    // The same steps on another net: of a transition that comes later there.
    other.net = held
        .net
        .replace("earliest=1\nlatest=2", "earliest=2\nlatest=2");
    other.is_closed();
    for input in ["", "sheet=1|", "x"] {
        for step in WAIT..LIVE.len() {
            assert_eq!(agreed(step, 0, &bytes(input), LIVE_LONGEST), Err((15, 0)));
        }
    }
}

// Records

/// The net of a card as the plain version has it.
fn plain_net(net: &Net) -> card::Net {
    let mut plain = card::Net::empty();
    let card = net.card();
    let behind = plain.read(card.as_bytes()).expect("a net");
    assert!(behind.is_empty());
    plain
}

fn plain_memory(memory: Memory) -> card::Memory {
    match memory {
        Memory::Intermediate => card::Memory::Intermediate,
        Memory::Atomic => card::Memory::Atomic,
        Memory::Carry => card::Memory::Carry,
    }
}

/// The same record twice.
#[derive(Clone, Debug, PartialEq)]
struct Records {
    plain: plain::live::OpenRun,
    naive: naive::live::OpenRun,
}

impl Records {
    #[track_caller]
    fn open(net: &Net, memory: Memory, denominator: u32) -> Result<Self, (u64, u64)> {
        let opened = plain::live::OpenRun::open(plain_net(net), plain_memory(memory), denominator);
        let plain = opened.map_err(|result| refusal(Err(result)).unwrap_err());
        let naive = naive::live::OpenRun::open(net, memory, denominator.into());
        match (plain, naive) {
            (Ok(plain), Ok(naive)) => Ok(Records { plain, naive }),
            (plain, naive) => {
                assert_eq!(plain.err(), naive.err());
                Err(naive::live::OpenRun::open(net, memory, denominator.into()).unwrap_err())
            }
        }
    }

    /// A step or a call on both, which must come to the same and leave the same; a refused one, and a
    /// call, leave what was there.
    #[track_caller]
    fn enter(&mut self, step: usize, number: u32, length: usize) -> Result<Vec<u8>, (u64, u64)> {
        let before = self.clone();
        let (mut a, mut b) = (vec![7; length], vec![7; length]);
        let plain = match step {
            WAIT => self.plain.wait(number).map(|()| 0),
            FIRE => self.plain.fire(number).map(|()| 0),
            CLOSE => self.plain.close(number, &mut a),
            STATE => self.plain.state(&mut a),
            _ => self.plain.timetable(&mut a),
        };
        let coded = |result: Result<(), naive::Refusal>| match result {
            Ok(()) => 0,
            Err((number, place)) => -((number * 65_536 + place) as i64),
        };
        let naive = match step {
            WAIT => coded(self.naive.wait(number.into())),
            FIRE => coded(self.naive.fire(number.into())),
            CLOSE => self.naive.close(number.into(), &mut b),
            STATE => self.naive.state(&mut b),
            _ => self.naive.timetable(&mut b),
        };
        let plain = refusal(plain);
        assert_eq!(
            plain,
            refusal(Ok(naive)),
            "{} {number}\n{before:?}",
            LIVE[step]
        );
        assert_eq!(a, b);
        if plain.is_err() || step >= STATE {
            assert_eq!(*self, before);
        }
        self.are_the_same();
        let written = plain? as usize;
        assert!(a[written..].iter().all(|&byte| byte == 7));
        a.truncate(written);
        Ok(a)
    }

    /// Both have the same steps.
    fn are_the_same(&self) {
        let (run, naive) = (self.plain.run(), &self.naive);
        let slots = run.wait.iter().zip(&run.fire);
        let slots: Vec<(u64, u64)> = slots
            .map(|(&wait, &fire)| (wait.into(), fire.into()))
            .collect();
        assert_eq!(slots, naive.slots);
        let numbers = (run.sheet.into(), run.denominator.into(), run.firings);
        assert_eq!(numbers, (naive.sheet, naive.denominator, naive.count));
        assert_eq!(u64::from(run.rest), naive.pending);
        assert!(run.memory == plain_memory(naive.memory));
        assert_eq!(self.plain.is_running(), naive.running);
    }

    #[track_caller]
    fn is_closed(&mut self) {
        for (step, number) in [(WAIT, 0), (FIRE, 0), (CLOSE, 0), (STATE, 0), (TIMETABLE, 0)] {
            assert_eq!(self.enter(step, number, LIVE_LONGEST), Err((15, 0)));
            assert_eq!(self.enter(step, u32::MAX, 0), Err((15, 0)));
        }
    }

    /// With something put differently on both.
    fn with(
        &self,
        plain: impl Fn(&mut card::Net, &mut card::Run, &mut bool),
        naive: impl Fn(&mut naive::live::OpenRun),
    ) -> Self {
        let mut net = plain_net(&self.naive.net);
        let (mut run, mut running) = (self.plain.run().clone(), self.plain.is_running());
        plain(&mut net, &mut run, &mut running);
        let mut other = self.naive.clone();
        naive(&mut other);
        let records = Records {
            plain: plain::live::OpenRun::by_hand(net, run, running),
            naive: other,
        };
        records.are_the_same();
        records
    }
}

fn refusal(result: Result<i64, i64>) -> Result<i64, (u64, u64)> {
    let (Ok(result) | Err(result)) = result;
    match Outcome::of(result) {
        Outcome::Answer { length } => Ok(length as i64),
        Outcome::Refusal { number, place } => Err((number, place)),
    }
}

#[test]
fn records_made_by_hand() {
    let mut a = Records::open(&net_a(), Memory::Atomic, 2).unwrap();
    for (step, number) in [(WAIT, 3), (FIRE, 0), (WAIT, 2)] {
        a.enter(step, number, 0).unwrap();
    }
    let mut same = a.with(|_, _, _| {}, |_| {});
    assert_eq!(
        same.enter(STATE, 0, 64).unwrap(),
        b"end=1,1\nclock=2\nclock=5\n"
    );

    let mut forged = vec![
        a.with(|_, _, running| *running = false, |r| r.running = false),
        a.with(
            |_, run, _| run.rest = 10_000_001,
            |r| r.pending = 10_000_001,
        ),
        a.with(
            |_, run, _| run.rest = u32::MAX,
            |r| r.pending = u32::MAX.into(),
        ),
        a.with(|_, run, _| run.denominator = 0, |r| r.denominator = 0),
        a.with(|_, run, _| run.denominator = 1001, |r| r.denominator = 1001),
        a.with(|_, run, _| run.denominator = 1, |r| r.denominator = 1),
        a.with(|_, run, _| run.sheet = 2, |r| r.sheet = 2),
        a.with(|net, _, _| net.sheet = 2, |r| r.net.sheet = 2),
        a.with(|_, run, _| run.firings = 65, |r| r.count = 65),
        a.with(|_, run, _| run.firings = 64, |r| r.count = 64),
        a.with(|_, run, _| run.firings = 0, |r| r.count = 0),
        a.with(|_, run, _| run.firings = 2, |r| r.count = 2),
        a.with(|_, run, _| run.wait[1] = 1, |r| r.slots[1].0 = 1),
        a.with(|_, run, _| run.fire[1] = 1, |r| r.slots[1].1 = 1),
        a.with(|_, run, _| run.wait[63] = 1, |r| r.slots[63].0 = 1),
        a.with(|_, run, _| run.fire[63] = 1, |r| r.slots[63].1 = 1),
        a.with(|_, run, _| run.wait[0] = 1, |r| r.slots[0].0 = 1),
        a.with(
            |_, run, _| run.wait[0] = 10_000_001,
            |r| r.slots[0].0 = 10_000_001,
        ),
        a.with(|_, run, _| run.fire[0] = 1, |r| r.slots[0].1 = 1),
        a.with(|_, run, _| run.fire[0] = 2, |r| r.slots[0].1 = 2),
        a.with(|_, run, _| run.fire[0] = 255, |r| r.slots[0].1 = 255),
        a.with(
            |net, _, _| net.transition[1].earliest = 5,
            |r| r.net.transitions[1].earliest = 5,
        ),
        a.with(
            |net, _, _| net.transition[1].latest = 1001,
            |r| r.net.transitions[1].latest = Some(1001),
        ),
        a.with(
            |net, _, _| net.transitions = 0,
            |r| r.net.transitions.clear(),
        ),
        a.with(
            |net, run, _| (net.sheet, run.sheet) = (10_000, 10_000),
            |r| (r.net.sheet, r.sheet) = (10_000, 10_000),
        ),
    ];
    let mut wide = a.naive.clone();
    wide.net.start = vec![1; 17];
    for transition in &mut wide.net.transitions {
        transition.take.resize(17, 0);
        transition.give.resize(17, 0);
    }
    let mut net = plain_net(&net_a());
    net.places = 17;
    forged.push(Records {
        plain: plain::live::OpenRun::by_hand(net, a.plain.run().clone(), true),
        naive: wide,
    });
    for records in &mut forged {
        records.is_closed();
    }
    // Another sheet is one that the opening can have had.
    let mut moved = a.with(
        |net, run, _| (net.sheet, run.sheet) = (9, 9),
        |r| (r.net.sheet, r.sheet) = (9, 9),
    );
    moved.enter(FIRE, 0, 0).unwrap();

    let mut closed = a;
    assert_eq!(closed.enter(CLOSE, 1, 60), Err((9, 0)));
    let card = closed.enter(CLOSE, 1, LIVE_LONGEST).unwrap();
    assert!(card.ends_with(b"rest=3\n"));
    closed.is_closed();
}

#[test]
fn openings_of_records() {
    let a = net_a();
    for denominator in [0, 1001, u32::MAX] {
        let refused = Records::open(&a, Memory::Carry, denominator);
        assert_eq!(refused.map(|_| ()), Err((2, 0)));
    }
    // The net first, as its card; a number too long to write is 2.
    type Change = (fn(&mut card::Net), fn(&mut Net), u64, u64);
    let changes: [Change; 9] = [
        (|net| net.sheet = 10_000, |net| net.sheet = 10_000, 2, 1),
        (
            |net| net.sheet = u32::MAX,
            |net| net.sheet = 4_294_967_295,
            2,
            1,
        ),
        (|net| net.places = 0, |net| net.start.clear(), 2, 2),
        (
            |net| net.places = usize::MAX,
            |net| net.start = vec![0; 17],
            2,
            2,
        ),
        (
            |net| net.transitions = 0,
            |net| net.transitions.clear(),
            2,
            3,
        ),
        (
            |net| net.transitions = 33,
            |net| net.transitions = vec![net.transitions[0].clone(); 33],
            2,
            3,
        ),
        (
            |net| net.transition[0].earliest = 1001,
            |net| net.transitions[0].earliest = 1001,
            2,
            6,
        ),
        (
            |net| net.transition[1].latest = 4_000_000_000,
            |net| net.transitions[1].latest = Some(4_000_000_000),
            2,
            11,
        ),
        (
            |net| net.transition[1].earliest = 5,
            |net| net.transitions[1].earliest = 5,
            3,
            11,
        ),
    ];
    for (change_plain, change_naive, number, place) in changes {
        let (mut net, mut other) = (plain_net(&a), a.clone());
        change_plain(&mut net);
        change_naive(&mut other);
        for denominator in [0, 1] {
            let opened = plain::live::OpenRun::open(net.clone(), card::Memory::Carry, denominator);
            let refused = refusal(opened.map(|_| 0));
            assert_eq!(refused, Err((number, place)));
            let opened = naive::live::OpenRun::open(&other, Memory::Carry, denominator.into());
            assert_eq!(opened.map(|_| ()), Err((number, place)));
        }
    }
}

/// What stands past the counts of a net is no part of it.
#[test]
fn junk_past_the_counts_of_a_net() {
    let mut junk = plain_net(&net_a());
    junk.start[2..].fill(9);
    for transition in &mut junk.transition {
        transition.take[2..].fill(200);
        transition.give[2..].fill(201);
    }
    junk.transition[2..].fill(card::Transition {
        earliest: 7,
        latest: 3,
        take: [0; 16],
        give: [255; 16],
    });
    let mut with = plain::live::OpenRun::open(junk, card::Memory::Atomic, 2).unwrap();
    let net = plain_net(&net_a());
    let mut without = plain::live::OpenRun::open(net, card::Memory::Atomic, 2).unwrap();
    for run in [&mut with, &mut without] {
        run.wait(3).unwrap();
        run.fire(0).unwrap();
        assert_eq!(refusal(run.fire(2).map(|()| 0)), Err((4, 2)));
    }
    assert_eq!(with, without);
}

// At random

/// Enters a script as records and as cards; the cards at its end, and the numbers refused.
fn entered(script: &Script, refused: &mut [u64; 16]) {
    let Script {
        net,
        opening,
        turns,
        ..
    } = script;
    let opened = agreed(OPEN, 0, &[&net[..], opening].concat(), LIVE_LONGEST);
    let (mut records, mut cards) = match &opened {
        Ok(card) => {
            let (model, _) = naive::read_net(net).expect("accepted");
            let run = naive::read_run(card.as_bytes(), &model).expect("a run card");
            let records = Records::open(&model, run.memory, run.denominator as u32).unwrap();
            (Some(records), [&net[..], card.as_bytes()].concat())
        }
        Err((number, _)) => {
            refused[*number as usize] += 1;
            (None, net.clone())
        }
    };
    for turn in turns {
        let (step, number) = match turn {
            Turn::Step(step, number) => (*step, *number),
            Turn::ByHand(cards, numbers) => {
                for step in WAIT..LIVE.len() {
                    if agreed(step, numbers[step], cards, LIVE_LONGEST) == Err((15, 0)) {
                        refused[0] += 1;
                    }
                }
                continue;
            }
        };
        let found = agreed(step, number, &cards, LIVE_LONGEST);
        if let Err((number, _)) = found {
            refused[number as usize] += 1;
        }
        if let Some(records) = &mut records {
            if step >= CLOSE {
                // Into too short an output, which leaves what was there.
                let short = records.enter(step, number, 3).unwrap_err();
                assert_eq!(short, found.as_ref().err().copied().unwrap_or((9, 0)));
            }
            let by_record = records.enter(step, number, LIVE_LONGEST);
            match (&found, by_record) {
                (Ok(card), Ok(_)) if step < CLOSE => {
                    assert_eq!(*card, records.naive.card());
                }
                (Ok(text), Ok(bytes)) => assert_eq!(text.as_bytes(), bytes),
                (found, by_record) => assert_eq!(found.as_ref().err(), by_record.as_ref().err()),
            }
        }
        match (step, found) {
            (WAIT | FIRE, Ok(card)) => {
                cards.truncate(net.len());
                cards.extend(card.into_bytes());
            }
            (CLOSE, Ok(_)) => cards.clear(),
            _ => {}
        }
    }
}

#[test]
fn records_and_cards_agree() {
    let mut refused = [0; 16];
    for index in 0..1_500 {
        entered(&gen::script(31, index), &mut refused);
    }
    let seen = [0, 1, 2, 4, 5, 6, 7, 11, 15];
    assert!(seen.iter().all(|&at| refused[at] > 10), "{refused:?}");
    assert_eq!([refused[8], refused[10], refused[12]], [0, 0, 0]);
}

/// Puts one thing on both records differently, often such that no steps leave it.
fn forged(rng: &mut Rng, records: &Records) -> Records {
    let count = records.naive.count;
    let at = rng.index(64);
    let stored = rng.index(count.max(1));
    let transition = rng.index(records.naive.net.transitions.len());
    let any = rng.below(3);
    match rng.below(13) {
        0 => records.with(|_, _, running| *running = false, |r| r.running = false),
        1 => {
            let other = rng.pick(&[count + 1, count.saturating_sub(1), 64, 65, 1 << 20]);
            records.with(|_, run, _| run.firings = other, |r| r.count = other)
        }
        2 => {
            let other = rng.pick(&[0, 1, 1000, 1001, u32::MAX]);
            records.with(
                |_, run, _| run.denominator = other,
                |r| r.denominator = other.into(),
            )
        }
        3 => {
            let other = rng.pick(&[0, MOST_PARTS, MOST_PARTS + 1, u32::MAX]);
            records.with(|_, run, _| run.rest = other, |r| r.pending = other.into())
        }
        4 => {
            let other = rng.within(0, 1) as u32 + records.plain.run().sheet;
            records.with(|_, run, _| run.sheet = other, |r| r.sheet = other.into())
        }
        5 => records.with(
            |_, run, _| run.wait[at] = any as u32,
            |r| r.slots[at].0 = any,
        ),
        6 => records.with(
            |_, run, _| run.fire[at] = any as u8,
            |r| r.slots[at].1 = any,
        ),
        7 => {
            let wait = records.plain.run().wait[stored];
            let other = rng.pick(&[wait + 1, wait.saturating_sub(1), MOST_PARTS + 1, u32::MAX]);
            records.with(
                |_, run, _| run.wait[stored] = other,
                |r| r.slots[stored].0 = other.into(),
            )
        }
        8 => {
            let other = rng.below(256) as u8;
            records.with(
                |_, run, _| run.fire[stored] = other,
                |r| r.slots[stored].1 = other.into(),
            )
        }
        9 => {
            let other = rng.pick(&[Memory::Intermediate, Memory::Atomic, Memory::Carry]);
            records.with(
                |_, run, _| run.memory = plain_memory(other),
                |r| r.memory = other,
            )
        }
        10 => {
            let other = rng.pick(&[0, 1, 1000, 1001]);
            records.with(
                |net, _, _| net.transition[transition].earliest = other,
                |r| r.net.transitions[transition].earliest = other.into(),
            )
        }
        11 => {
            let other = rng.pick(&[0, 2, 1000, 1001]);
            records.with(
                |net, _, _| net.transition[transition].latest = other,
                |r| r.net.transitions[transition].latest = Some(other.into()),
            )
        }
        _ => {
            let other = rng.below(256) as u8;
            records.with(
                |net, _, _| net.start[0] = other,
                |r| r.net.start[0] = other.into(),
            )
        }
    }
}

#[test]
fn records_made_by_hand_at_random() {
    let mut rng = Rng::new(32);
    let (mut open, mut closed) = (0, 0);
    for index in 0..4_000 {
        let size = [gen::Size::Small, gen::Size::Typical, gen::Size::Any][index % 3];
        let net = gen::net(&mut rng, size);
        let denominator = rng.within(1, 10);
        let length = rng.index(12);
        let (run, _) = gen::run(&mut rng, &net, denominator, length);
        let mut records = Records::open(&net, run.memory, denominator as u32).unwrap();
        for &(wait, fire) in &run.firings {
            records.enter(WAIT, wait as u32, 0).unwrap();
            records.enter(FIRE, fire as u32, 0).unwrap();
        }
        records.enter(WAIT, run.rest as u32, 0).unwrap();
        let mut records = forged(&mut rng, &records);
        let known = rng.index(net.transitions.len()) as u32;
        for (step, number) in [
            (STATE, 0),
            (TIMETABLE, 0),
            (WAIT, 0),
            (FIRE, known),
            (CLOSE, 0),
        ] {
            match records.enter(step, number, LIVE_LONGEST) {
                Err((15, 0)) => closed += 1,
                _ => open += 1,
            }
        }
    }
    assert!(
        open > 3_000 && closed > 3_000,
        "{open} open, {closed} closed"
    );
}

/// What one operation answers, or its refusal.
fn answer(operation: Operation, input: &str) -> Result<String, (u64, u64)> {
    let text = String::from_utf8(printed(operation, input.as_bytes())).unwrap();
    if !text.starts_with("refused=") {
        return Ok(text);
    }
    let numbers = text.lines().map(|line| line.split_once('=').unwrap().1);
    let numbers: Vec<u64> = numbers.map(|number| number.parse().unwrap()).collect();
    Err((numbers[0], numbers[1]))
}

/// A step is accepted exactly if the card with it added is; the calls are those of a run closed here
/// with rest 0 and of the order of its firings; and closing writes the card of the accepted steps.
#[test]
fn what_an_open_run_must_be() {
    let [replay, _, timetable, ..] = ENGINE.operations;
    let (mut accepted, mut refused, mut closed) = (0, 0, 0);
    for index in 0..600 {
        let Script {
            net,
            opening,
            turns,
            ..
        } = gen::script(33, index);
        let (Ok(net), Ok(opening)) = (String::from_utf8(net), String::from_utf8(opening)) else {
            continue;
        };
        let Ok(mut held) = Held::open(&net, &opening) else {
            continue;
        };
        let (model, _) = naive::read_net(net.as_bytes()).unwrap();
        // The accepted steps alone.
        let mut run = naive::read_run(held.card.as_bytes(), &model).unwrap();
        for turn in turns {
            let Turn::Step(step, number) = turn else {
                continue;
            };
            if held.card.is_empty() {
                break;
            }
            assert_eq!(held.card, run.card());
            let mut added = run.clone();
            match step {
                WAIT | CLOSE => added.rest += u64::from(number),
                FIRE => {
                    added.firings.push((run.rest, number as usize));
                    added.rest = 0;
                }
                _ => {}
            }
            let found = held.ask(step, number, LIVE_LONGEST);
            let replayed = answer(replay, &(net.clone() + &added.card()));
            match step {
                STATE => assert_eq!(found, replayed),
                TIMETABLE => {
                    let order = run.order().card();
                    assert_eq!(found, answer(timetable, &(net.clone() + &order)));
                    assert!(found.is_ok());
                }
                // The card cannot say a number of ten digits.
                _ => match replayed {
                    Ok(_) => {
                        assert_eq!(found, Ok(added.card()));
                        run = added;
                        accepted += 1;
                    }
                    Err((why, _)) => {
                        let why = match (why, step) {
                            (1, FIRE) => 4,
                            (1, _) => 2,
                            _ => why,
                        };
                        assert_eq!(found, Err((why, run.firings.len() as u64 + 1)));
                        refused += 1;
                    }
                },
            }
            match (step, found) {
                (WAIT | FIRE, Ok(card)) => held.card = card,
                (CLOSE, Ok(_)) => {
                    held.card.clear();
                    closed += 1;
                }
                _ => {}
            }
        }
    }
    assert!(accepted > 5_000 && refused > 2_000 && closed > 300);
}

// The program

/// Checks what the program `live` prints, as the plain version has it and over each version's functions.
#[track_caller]
fn prints(input: &str, expected: &str) {
    let (input, expected) = (bytes(input), bytes(expected));
    let found = plain::session(&input);
    assert_eq!(
        found.escape_ascii().to_string(),
        expected.escape_ascii().to_string()
    );
    for engine in VERSIONS {
        let found = session(&engine, &input);
        assert!(found == expected, "{}", engine.name);
    }
}

/// Net A on sheet 7, with the lines that open a run in halves of a tick behind it.
fn a_live() -> String {
    let net = Net {
        sheet: 7,
        ..net_a()
    };
    net.card() + "sheet=7|memory=atomic|denominator=2|"
}

#[test]
fn lines_are_answered() {
    let card = "sheet=7|memory=atomic|denominator=2|firings=1|wait=3|fire=0|rest=0|";
    prints(
        &(a_live() + "wait=3|wait|fire=0|rest=0|state|"),
        &format!("ok|ok|refused=1|place=5|ok|{card}refused=15|place=0|"),
    );
    prints(&a_live(), "ok|");
    prints(&(a_live() + "|"), "ok|refused=1|place=4|");
    prints(&(a_live() + "state"), "ok|refused=1|place=4|");
    // Numbers that are too long are no numbers; those that are not are judged, closed or not.
    prints(
        &(a_live() + "wait=1000000000|wait=999999999|fire=4294967296|fire=999999999|rest=0x|"),
        "ok|refused=1|place=4|refused=2|place=1|refused=1|place=6|refused=4|place=1|refused=1|place=8|",
    );
    prints(
        &(a_live() + "rest=1|rest=999999999|rest=1000000000|timetable|timetables|fire=99|fire=0"),
        "ok|sheet=7|memory=atomic|denominator=2|firings=0|rest=1|refused=15|place=0|refused=1|place=6|\
         refused=15|place=0|refused=1|place=8|refused=15|place=0|refused=1|place=10|",
    );
    // A refused net card or opening ends the program.
    let a = a_live();
    prints(
        &a.replace("denominator=2|", "denominator=0|state|"),
        "refused=2|place=0|",
    );
    prints(
        &a.replace("denominator=2|", "denominator=x|state|"),
        "refused=1|place=3|",
    );
    prints(&a.replace("denominator=2|", ""), "refused=1|place=3|");
    prints(
        &a.replace("denominator=2|", "denominator=2"),
        "refused=1|place=3|",
    );
    prints(
        &a.replace("sheet=7|memory", "sheet=8|memory"),
        "refused=11|place=1|",
    );
    prints(&a.replace("places=2", "places=17"), "refused=2|place=2|");
    prints("", "refused=1|place=1|");
}

/// Inputs of the program, and what it must print.
const CASES: [(&str, &str); 12] = [
    (
        "sheet=9999|places=1|transitions=2|start=1|earliest=1|latest=inf|take=1|give=1|earliest=0|latest=0|take=0|give=1|\
         sheet=9999|memory=carry|denominator=1|wait=1|fire=1|timetable|rest=1|timetable|nothing|",
        "ok|ok|refused=7|place=1|sheet=9999|memory=carry|denominator=1|firings=0|rest=0|\
         sheet=9999|memory=carry|denominator=1|firings=0|rest=2|refused=15|place=0|refused=1|place=9|",
    ),
    (
        "sheet=9999|places=1|transitions=3|start=1|earliest=5|latest=5|take=1|give=1|earliest=2|latest=inf|take=0|give=0|\
         earliest=2|latest=4|take=1|give=1|sheet=9999|memory=carry|denominator=999999999|timetable|rest=0|",
        "refused=2|place=0|",
    ),
    (
        "sheet=42|places=3|transitions=2|start=2|start=1|start=1|earliest=0|latest=3|take=0,0,0|give=0,0,0|\
         earliest=0|latest=inf|take=0,0,1|give=0,1,0|sheet=42|memory=1234567890|denominator=4|",
        "refused=1|place=2|",
    ),
    (
        "sheet=0|places=1|transitions=5|start=254|earliest=4|latest=5|take=1|give=1|earliest=1|latest=1|take=96|give=1|\
         earliest=2|latest=3|take=0|give=0|earliest=1|latest=2|take=1|give=1|earliest=2|latest=inf|take=0|give=0|\
         sheet=0|memory=carry|denominator=1|denominator=1|",
        "ok|refused=1|place=4|",
    ),
    (
        "sheet=0|places=1|transitions=1|start=255|earliest=3|latest=14|take=0|give=0|sheet=0|memory=carry|denominator=10|\
         state|wait=30|fire=0|wait=33|wait=75|fire=0|fire=0|wait=0|fire=0|fire=0|wait=1|fire=0|timetable|wait=0|state|",
        "ok|end=255|clock=0|ok|ok|ok|ok|ok|ok|ok|ok|ok|ok|ok|sheet=0|memory=carry|denominator=1|firings=6|wait=3|fire=0|\
         wait=0|fire=0|wait=0|fire=0|wait=0|fire=0|wait=0|fire=0|wait=0|fire=0|rest=0|ok|end=255|clock=139|",
    ),
    (
        "sheet=9999|places=1|transitions=4|start=1|earliest=3|latest=5|take=1|give=1|earliest=0|latest=1|take=1|give=1|\
         earliest=144|latest=inf|take=0|give=1|earliest=2|latest=8|take=1|give=3|sheet=9999|memory=atomic|denominator=2|\
         wait=3|fire=0|wait=3|fire=0|state|state|timetable|rest=0|wait=0|",
        "ok|ok|refused=7|place=1|ok|ok|end=1|clock=0|clock=6|clock=6|clock=6|end=1|clock=0|clock=6|clock=6|clock=6|\
         sheet=9999|memory=atomic|denominator=1|firings=1|wait=3|fire=0|rest=0|\
         sheet=9999|memory=atomic|denominator=2|firings=1|wait=6|fire=0|rest=0|refused=15|place=0|",
    ),
    (
        "sheet=4588|places=3|transitions=2|start=0|start=0|start=2|earliest=1|latest=inf|take=0,0,1|give=1,0,1|\
         earliest=3|latest=5|take=1,0,0|give=0,0,2|sheet=4588|memory=intermediate|denominator=64|wait=64|fire=0|Wait=1|\
         wait=65|fire=0|wait=10000001|wait=12|wait=52|fire=0|timetable|state|rest=10000000|state|",
        "ok|ok|ok|refused=1|place=6|ok|ok|refused=2|place=3|ok|ok|ok|\
         sheet=4588|memory=intermediate|denominator=1|firings=3|wait=1|fire=0|wait=1|fire=0|wait=1|fire=0|rest=0|\
         end=3,0,2|clock=0|clock=129|sheet=4588|memory=intermediate|denominator=64|firings=3|wait=64|fire=0|wait=65|\
         fire=0|wait=64|fire=0|rest=10000000|refused=15|place=0|",
    ),
    (
        "sheet=9409|places=3|transitions=3|start=1|start=0|start=1|earliest=1|latest=inf|take=1,0,0|give=1,1,0|\
         earliest=6|latest=7|take=0,0,1|give=0,1,0|earliest=5|latest=inf|take=0,1,0|give=0,0,1|\
         sheet=9409|memory=intermediate|denominator=1|wait=7|fire=1|wait=4|wait=0|fire=2|wait=6|fire=1|wait=6|fire=2|\
         timetable |state|timetable|rest=2225084|",
        "ok|ok|ok|ok|ok|refused=7|place=2|ok|refused=5|place=2|ok|ok|refused=1|place=13|end=1,0,1|clock=23|clock=0|\
         clock=off|sheet=9409|memory=intermediate|denominator=1|firings=2|wait=6|fire=1|wait=5|fire=2|rest=0|\
         sheet=9409|memory=intermediate|denominator=1|firings=2|wait=7|fire=1|wait=16|fire=2|rest=2225084|",
    ),
    (
        "sheet=0|places=2|transitions=5|start=3|start=5|earliest=1000|latest=1000|take=1,0|give=1,1|\
         earliest=434|latest=480|take=0,1|give=0,1|earliest=1|latest=2|take=0,2|give=0,2|\
         earliest=885|latest=inf|take=1,0|give=0,0|earliest=0|latest=1|take=0,1|give=0,1|sheet=0|memory=atomic|\
         denominator=8|wait=7|fire=2|fire=4|wait=7|fire=2|fire=4|state|wait=0|fire=4|state|rest=7|timetable|nothing|",
        "ok|ok|refused=7|place=1|ok|ok|ok|ok|end=3,5|clock=14|clock=14|clock=0|clock=14|clock=0|ok|ok|end=3,5|\
         clock=14|clock=14|clock=0|clock=14|clock=0|sheet=0|memory=atomic|denominator=8|firings=4|wait=7|fire=4|\
         wait=7|fire=2|wait=0|fire=4|wait=0|fire=4|rest=7|refused=15|place=0|refused=1|place=16|",
    ),
    (
        "sheet=7|places=1|transitions=7|start=1|earliest=2|latest=inf|take=61|give=0|earliest=3|latest=4|take=2|give=2|\
         earliest=4|latest=6|take=1|give=0|earliest=1|latest=3|take=1|give=0|earliest=1|latest=1|take=0|give=1|\
         earliest=2|latest=inf|take=1|give=0|earliest=1|latest=1|take=1|give=1|sheet=7|memory=atomic|denominator=1|\
         state|wait=1|fire=3|wait=0|fire=4|state|rest=2032243|rest=0|fire=0",
        "ok|end=1|clock=off|clock=off|clock=0|clock=0|clock=0|clock=0|clock=0|ok|ok|ok|ok|end=1|clock=off|clock=off|\
         clock=0|clock=0|clock=0|clock=0|clock=0|sheet=7|memory=atomic|denominator=1|firings=2|wait=1|fire=3|wait=0|\
         fire=4|rest=2032243|refused=15|place=0|refused=1|place=12|",
    ),
    (
        "sheet=9999|places=1|transitions=3|start=1|earliest=1|latest=inf|take=1|give=1|earliest=5|latest=7|take=80|\
         give=80|earliest=5|latest=inf|take=1|give=1|sheet=9999|memory=intermediate|denominator=1|wait=2|fire=0|state|\
         wait=5|fire=2|wait=0|wait=1|fire=0|fire=999999999|state|timetable|rest=0|",
        "ok|ok|ok|end=1|clock=0|clock=off|clock=0|ok|ok|ok|ok|ok|refused=4|place=4|end=1|clock=0|clock=off|clock=0|\
         sheet=9999|memory=intermediate|denominator=1|firings=3|wait=1|fire=0|wait=5|fire=2|wait=1|fire=0|rest=0|\
         sheet=9999|memory=intermediate|denominator=1|firings=3|wait=2|fire=0|wait=5|fire=2|wait=1|fire=0|rest=0|",
    ),
    (
        "sheet=42|places=1|transitions=3|start=7|earliest=6|latest=8|take=0|give=0|earliest=1|latest=inf|take=0|give=0|\
         earliest=2|latest=4|take=1|give=1|sheet=42|memory=carry|denominator=64|wait=128|fire=2|timetable|fire=1|wait=0|\
         fire=1|fire=2|state=|wait=256|fire=0|rest=x|rest=0|wait=0|",
        "ok|ok|ok|sheet=42|memory=carry|denominator=1|firings=1|wait=2|fire=2|rest=0|ok|ok|ok|ok|refused=1|place=11|ok|\
         ok|refused=1|place=14|sheet=42|memory=carry|denominator=64|firings=5|wait=128|fire=2|wait=0|fire=1|wait=0|\
         fire=1|wait=0|fire=2|wait=256|fire=0|rest=0|refused=15|place=0|",
    ),
];

#[test]
fn cases_of_the_program() {
    for (input, expected) in CASES {
        prints(input, expected);
    }
}

#[test]
fn sessions_at_random() {
    let mut long = 0;
    for index in 0..2_000 {
        let input = gen::session(34, index);
        let expected = plain::session(&input);
        for engine in [NAIVE, ENGINE] {
            let found = session(&engine, &input);
            assert!(
                found == expected,
                "{} of {}\n{}\n{}",
                engine.name,
                input.escape_ascii(),
                found.escape_ascii(),
                expected.escape_ascii()
            );
        }
        long += u64::from(expected.len() > 1_000);
    }
    assert!(long > 200, "{long} long ones");
}
