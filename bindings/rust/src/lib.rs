//! Timed runs of weak time Petri nets.
//!
//! Each operation reads a net card and, right behind it, a run card ([`timetable`]: an order card; [`rank`]: two run cards; [`join`]: a second net
//! card and a line `pairs`) from its input, and writes its answer to the front of the output. A run or order card has the sheet of its net, which the
//! run card of an answer copies. Nothing is asked of the input; a refusal alters no byte of the output.
//!
//! An [`OpenRun`] is entered step by step. It is its two cards, the net's and right behind it that of the steps so far, over the `live_` functions.

use std::fmt;

mod ffi {
    extern "C" {
        pub fn tpn_replay(input: *const u8, input_length: usize, output: *mut u8, output_length: usize) -> i64;
        pub fn tpn_round(input: *const u8, input_length: usize, output: *mut u8, output_length: usize) -> i64;
        pub fn tpn_timetable(input: *const u8, input_length: usize, output: *mut u8, output_length: usize) -> i64;
        pub fn tpn_process(input: *const u8, input_length: usize, output: *mut u8, output_length: usize) -> i64;
        pub fn tpn_rank(input: *const u8, input_length: usize, output: *mut u8, output_length: usize) -> i64;
        pub fn tpn_join(input: *const u8, input_length: usize, output: *mut u8, output_length: usize) -> i64;
        pub fn tpn_live_open(input: *const u8, input_length: usize, output: *mut u8, output_length: usize) -> i64;
        pub fn tpn_live_wait(input: *const u8, input_length: usize, parts: u32, output: *mut u8, output_length: usize) -> i64;
        pub fn tpn_live_fire(input: *const u8, input_length: usize, transition: u32, output: *mut u8, output_length: usize) -> i64;
        pub fn tpn_live_close(input: *const u8, input_length: usize, rest: u32, output: *mut u8, output_length: usize) -> i64;
        pub fn tpn_live_state(input: *const u8, input_length: usize, output: *mut u8, output_length: usize) -> i64;
        pub fn tpn_live_timetable(input: *const u8, input_length: usize, output: *mut u8, output_length: usize) -> i64;
    }
}

/// Outputs of these sizes are never too short.
pub const REPLAY_MAX: usize = 1280;
pub const ROUND_MAX: usize = 2048;
pub const TIMETABLE_MAX: usize = 2048;
pub const PROCESS_MAX: usize = 22001;
pub const RANK_MAX: usize = 32;
pub const JOIN_MAX: usize = 5632;
/// Of the functions of open runs that answer a run card, all but [`live_state`].
pub const LIVE_CARD_MAX: usize = 2048;
pub const LIVE_STATE_MAX: usize = 1280;

/// What a refusal means; the discriminant is its number.
#[derive(Clone, Copy, Debug, PartialEq, Eq, Hash)]
pub enum Meaning {
    Malformed = 1,
    OutOfRange = 2,
    LatestBelowEarliest = 3,
    NoSuchTransition = 4,
    NotEnabled = 5,
    TooManyTokens = 6,
    OutsideInterval = 7,
    Untimable = 8,
    OutputTooShort = 9,
    OtherOrder = 10,
    AnotherSheet = 11,
    BadPairs = 12,
    UnequalStarts = 13,
    TooLarge = 14,
    ClosedRun = 15,
}

/// Why there is no answer.
#[derive(Clone, Copy, Debug, PartialEq, Eq, Hash)]
pub struct Refusal {
    pub meaning: Meaning,
    /// The line within its card, from 1, for the first four meanings and another sheet; the firing, from 1, for the next four; otherwise 0.
    /// For a step of an open run always the firing being entered, from 1, or 0; for a denominator that a run is opened with outside its range 0.
    pub place: u16,
}

impl Refusal {
    /// The refusal's number, 1 to 15.
    pub fn number(self) -> u8 {
        self.meaning as u8
    }
}

impl fmt::Display for Refusal {
    fn fmt(&self, f: &mut fmt::Formatter<'_>) -> fmt::Result {
        let place = self.place;
        match self.meaning {
            Meaning::Malformed => write!(f, "line {place} of a card is missing, out of order or malformed, or bytes follow the card"),
            Meaning::OutOfRange if place == 0 => write!(f, "the denominator is outside its range"),
            Meaning::OutOfRange => write!(f, "line {place} of a card, or firing {place} of an open run, has a number outside its range"),
            Meaning::LatestBelowEarliest => write!(f, "line {place} of the net card has a latest below the earliest"),
            Meaning::NoSuchTransition => write!(
                f,
                "line {place} of a card, or firing {place} of an open run, is of a transition that is not in the net"
            ),
            Meaning::NotEnabled => write!(f, "firing {place}: the transition is not enabled"),
            Meaning::TooManyTokens => write!(f, "firing {place}: a place would pass 255 tokens"),
            Meaning::OutsideInterval => write!(f, "firing {place}: the clock is outside the interval"),
            Meaning::Untimable => write!(f, "the first {place} firings have no timing"),
            Meaning::OutputTooShort => write!(f, "the output is shorter than the answer"),
            Meaning::OtherOrder => write!(f, "the two runs differ in their memory word or in their order of firings"),
            Meaning::AnotherSheet => write!(f, "line {place} of a card has another sheet than the net"),
            Meaning::BadPairs => write!(f, "the list of pairs is odd, names a place that is not in its net, or names a place twice"),
            Meaning::UnequalStarts => write!(f, "two paired places have unequal starts"),
            Meaning::TooLarge => write!(f, "the joined net would have more than 16 places or more than 32 transitions"),
            Meaning::ClosedRun => write!(f, "the run is closed"),
        }
    }
}

impl std::error::Error for Refusal {}

type Operation = unsafe extern "C" fn(*const u8, usize, *mut u8, usize) -> i64;
type Step = unsafe extern "C" fn(*const u8, usize, u32, *mut u8, usize) -> i64;

fn meaning(number: i64) -> Meaning {
    match number {
        1 => Meaning::Malformed,
        2 => Meaning::OutOfRange,
        3 => Meaning::LatestBelowEarliest,
        4 => Meaning::NoSuchTransition,
        5 => Meaning::NotEnabled,
        6 => Meaning::TooManyTokens,
        7 => Meaning::OutsideInterval,
        8 => Meaning::Untimable,
        9 => Meaning::OutputTooShort,
        10 => Meaning::OtherOrder,
        11 => Meaning::AnotherSheet,
        12 => Meaning::BadPairs,
        13 => Meaning::UnequalStarts,
        14 => Meaning::TooLarge,
        _ => Meaning::ClosedRun,
    }
}

fn call(operation: Operation, input: &[u8], output: &mut [u8]) -> Result<usize, Refusal> {
    // SAFETY: both slices are valid for their lengths and do not overlap; the operation asks for nothing else.
    outcome(unsafe { operation(input.as_ptr(), input.len(), output.as_mut_ptr(), output.len()) })
}

fn call_step(step: Step, input: &[u8], number: u32, output: &mut [u8]) -> Result<usize, Refusal> {
    // SAFETY: as above.
    outcome(unsafe { step(input.as_ptr(), input.len(), number, output.as_mut_ptr(), output.len()) })
}

fn outcome(result: i64) -> Result<usize, Refusal> {
    if result >= 0 {
        return Ok(result as usize);
    }
    Err(Refusal {
        meaning: meaning(-result / 65536),
        place: (-result % 65536) as u16,
    })
}

/// Replays a run: its end marking and its clocks. The number of bytes written to `output`.
pub fn replay(input: &[u8], output: &mut [u8]) -> Result<usize, Refusal> {
    call(ffi::tpn_replay, input, output)
}

/// Rounds a run to whole ticks: the card of the rounded run.
pub fn round(input: &[u8], output: &mut [u8]) -> Result<usize, Refusal> {
    call(ffi::tpn_round, input, output)
}

/// Finds the earliest timetable of a firing order: the card of a run.
pub fn timetable(input: &[u8], output: &mut [u8]) -> Result<usize, Refusal> {
    call(ffi::tpn_timetable, input, output)
}

/// Derives the causal process of a run.
pub fn process(input: &[u8], output: &mut [u8]) -> Result<usize, Refusal> {
    call(ffi::tpn_process, input, output)
}

/// Ranks two runs of one order, X and then Y. The line `rank=` has -1 if X stands before Y, 0 or 1; the line `lead=` has the lead of X over Y at the
/// instant that decides, negative if X is earlier, in ticks over the product of the two denominators.
pub fn rank(input: &[u8], output: &mut [u8]) -> Result<usize, Refusal> {
    call(ffi::tpn_rank, input, output)
}

/// Joins two nets: the card of a net with the first's places, then the second's unpaired ones, with the first's transitions, then the second's, and
/// on the first's sheet. The line `pairs=` has the word none, or place numbers two by two, the first net's place and then the second's.
pub fn join(input: &[u8], output: &mut [u8]) -> Result<usize, Refusal> {
    call(ffi::tpn_join, input, output)
}

/// Opens a run: reads a net card and the lines `sheet`, `memory` and `denominator` behind it, and writes the card of a run without firings.
pub fn live_open(input: &[u8], output: &mut [u8]) -> Result<usize, Refusal> {
    call(ffi::tpn_live_open, input, output)
}

/// Waits: reads a net card and the card of the steps so far, and writes that card with the parts added to its rest.
pub fn live_wait(input: &[u8], parts: u32, output: &mut [u8]) -> Result<usize, Refusal> {
    call_step(ffi::tpn_live_wait, input, parts, output)
}

/// Fires: reads the two cards and writes that of the steps with the firing added, its wait the rest so far, and rest 0.
pub fn live_fire(input: &[u8], transition: u32, output: &mut [u8]) -> Result<usize, Refusal> {
    call_step(ffi::tpn_live_fire, input, transition, output)
}

/// Closes a run with a rest: reads the two cards and writes that of the run. Closed is a run whose cards the caller no longer holds.
pub fn live_close(input: &[u8], rest: u32, output: &mut [u8]) -> Result<usize, Refusal> {
    call_step(ffi::tpn_live_close, input, rest, output)
}

/// The marking and the clocks where the run stands, in the form of [`replay`].
pub fn live_state(input: &[u8], output: &mut [u8]) -> Result<usize, Refusal> {
    call(ffi::tpn_live_state, input, output)
}

/// The earliest timetable of the firings so far.
pub fn live_timetable(input: &[u8], output: &mut [u8]) -> Result<usize, Refusal> {
    call(ffi::tpn_live_timetable, input, output)
}

/// Which clocks restart when a transition fires: the word of the line `memory`.
#[derive(Clone, Copy, Debug, PartialEq, Eq, Hash)]
pub enum Memory {
    Intermediate,
    Atomic,
    Carry,
}

impl Memory {
    pub fn word(self) -> &'static str {
        match self {
            Memory::Intermediate => "intermediate",
            Memory::Atomic => "atomic",
            Memory::Carry => "carry",
        }
    }
}

/// A run that is entered step by step. A refused step leaves it as it was; once it is closed, every step and every call is refused.
#[derive(Clone, Debug, PartialEq, Eq)]
pub struct OpenRun {
    /// The net card and right behind it the card of the steps so far; nothing once the run is closed.
    cards: Vec<u8>,
    net_length: usize,
}

impl OpenRun {
    /// Opens a run on the net of a card, on its sheet, in parts of one tick over the denominator.
    pub fn open(net: &[u8], memory: Memory, denominator: u32) -> Result<Self, Refusal> {
        // The opening has the line `sheet` of the net. A number too long for a card is as far outside its range as the longest.
        let sheet = net.split_inclusive(|byte| *byte == b'\n').next().unwrap_or_default();
        let lines = format!("memory={}\ndenominator={}\n", memory.word(), denominator.min(999_999_999));
        let mut card = [0; LIVE_CARD_MAX];
        let n = live_open(&[net, sheet, lines.as_bytes()].concat(), &mut card)?;
        Ok(OpenRun {
            cards: [net, &card[..n]].concat(),
            net_length: net.len(),
        })
    }

    /// The card of the steps so far, with the waits since the last firing as its rest; empty once the run is closed.
    pub fn card(&self) -> &[u8] {
        &self.cards[self.net_length..]
    }

    /// Waits so many parts. Waits before a firing add up, to 10,000,000 at the most.
    pub fn wait(&mut self, parts: u32) -> Result<(), Refusal> {
        self.enter(|cards, card| live_wait(cards, parts, card))
    }

    /// Fires a transition.
    pub fn fire(&mut self, transition: u32) -> Result<(), Refusal> {
        self.enter(|cards, card| live_fire(cards, transition, card))
    }

    /// Closes the run with a rest, which comes on top of the waits since the last firing. The card of the run.
    pub fn close(&mut self, rest: u32) -> Result<String, Refusal> {
        let mut card = [0; LIVE_CARD_MAX];
        let n = live_close(&self.cards, rest, &mut card)?;
        self.cards.clear();
        self.net_length = 0;
        Ok(text(&card[..n]))
    }

    /// The marking and the clocks as they are, the waits since the last firing included.
    pub fn state(&self) -> Result<String, Refusal> {
        let mut state = [0; LIVE_STATE_MAX];
        let n = live_state(&self.cards, &mut state)?;
        Ok(text(&state[..n]))
    }

    /// The earliest timetable of the firings so far: the card of a run.
    pub fn timetable(&self) -> Result<String, Refusal> {
        let mut card = [0; LIVE_CARD_MAX];
        let n = live_timetable(&self.cards, &mut card)?;
        Ok(text(&card[..n]))
    }

    fn enter(&mut self, step: impl Fn(&[u8], &mut [u8]) -> Result<usize, Refusal>) -> Result<(), Refusal> {
        let mut card = [0; LIVE_CARD_MAX];
        let n = step(&self.cards, &mut card)?;
        self.cards.truncate(self.net_length);
        self.cards.extend_from_slice(&card[..n]);
        Ok(())
    }
}

/// An answer has no bytes but those of lines.
fn text(answer: &[u8]) -> String {
    String::from_utf8_lossy(answer).into_owned()
}

#[cfg(test)]
mod tests {
    use super::*;

    const NET_A: &[u8] = b"sheet=1\nplaces=2\ntransitions=2\nstart=1\nstart=1\nearliest=1\nlatest=2\ntake=1,0\ngive=1,0\nearliest=3\nlatest=4\ntake=1,1\ngive=0,0\n";

    fn input(card: &[u8]) -> Vec<u8> {
        [NET_A, card].concat()
    }

    #[test]
    fn answers() {
        let mut out = [7u8; TIMETABLE_MAX];
        let n = timetable(&input(b"sheet=1\nmemory=atomic\nfirings=1\nfire=0\n"), &mut out).unwrap();
        assert_eq!(&out[..n], b"sheet=1\nmemory=atomic\ndenominator=1\nfirings=1\nwait=1\nfire=0\nrest=0\n");
        assert!(out[n..].iter().all(|b| *b == 7));
    }

    #[test]
    fn memory_words() {
        let mut out = [0u8; TIMETABLE_MAX];
        for (word, wait) in [("intermediate", 1), ("atomic", 1), ("carry", 0)] {
            let card = format!("sheet=1\nmemory={word}\nfirings=2\nfire=0\nfire=0\n");
            let n = timetable(&input(card.as_bytes()), &mut out).unwrap();
            let answer = format!("sheet=1\nmemory={word}\ndenominator=1\nfirings=2\nwait=1\nfire=0\nwait={wait}\nfire=0\nrest=0\n");
            assert_eq!(out[..n], *answer.as_bytes());
        }
    }

    #[test]
    fn refusals() {
        let mut out = [7u8; 16];
        let late = timetable(&input(b"sheet=1\nmemory=atomic\nfirings=2\nfire=1\nfire=0\n"), &mut out).unwrap_err();
        assert_eq!((late.meaning, late.place, late.number()), (Meaning::NotEnabled, 2, 5));
        assert_eq!(late.to_string(), "firing 2: the transition is not enabled");
        let short = timetable(&input(b"sheet=1\nmemory=atomic\nfirings=0\n"), &mut out).unwrap_err();
        assert_eq!((short.meaning, short.place), (Meaning::OutputTooShort, 0));
        assert_eq!(
            replay(b"", &mut []).unwrap_err(),
            Refusal {
                meaning: Meaning::Malformed,
                place: 1
            }
        );
        assert_eq!(out, [7u8; 16]);
    }

    #[test]
    fn sheets() {
        let mut out = [7u8; TIMETABLE_MAX];
        let order = b"memory=atomic\nfirings=0\n";
        let of = |sheet: &[u8]| input(&[b"sheet=", sheet, b"\n", order].concat());
        let other = timetable(&of(b"2"), &mut out).unwrap_err();
        assert_eq!((other.meaning, other.place, other.number()), (Meaning::AnotherSheet, 1, 11));
        assert_eq!(other.to_string(), "line 1 of a card has another sheet than the net");
        assert_eq!(timetable(&of(b"10000"), &mut out).unwrap_err().meaning, Meaning::OutOfRange);
        assert_eq!(timetable(&of(b"01"), &mut out).unwrap_err().meaning, Meaning::Malformed);
        assert_eq!(out, [7u8; TIMETABLE_MAX]);
        let long = [b"sheet=9999\n", &NET_A[8..], b"sheet=9999\n", order].concat();
        let n = timetable(&long, &mut out).unwrap();
        assert_eq!(&out[..n], b"sheet=9999\nmemory=atomic\ndenominator=1\nfirings=0\nrest=0\n");
    }

    #[test]
    fn ranks() {
        let card = |denominator, waits: [u32; 2], rest| {
            let [one, two] = waits;
            format!("sheet=1\nmemory=atomic\ndenominator={denominator}\nfirings=2\nwait={one}\nfire=0\nwait={two}\nfire=0\nrest={rest}\n")
        };
        let mut out = [7u8; RANK_MAX];
        let mut answer = |x: &str, y: &str| {
            let n = rank(&input([x, y].concat().as_bytes()), &mut out).unwrap();
            assert!(out[n..].iter().all(|b| *b == 7));
            let text = String::from_utf8(out[..n].to_vec()).unwrap();
            out.fill(7);
            text
        };
        // instants 3/2 and 11/4, 3/2 and 3
        let (x, y) = (card(4, [6, 5], 0), card(2, [3, 3], 0));
        assert_eq!(answer(&x, &y), "rank=-1\nlead=-2\n");
        assert_eq!(answer(&y, &x), "rank=1\nlead=2\n");
        assert_eq!(answer(&y, &card(4, [6, 6], 0)), "rank=0\nlead=0\n");
        assert_eq!(answer(&y, &card(2, [3, 3], 10000000)), "rank=-1\nlead=-20000000\n");
    }

    #[test]
    fn rank_refusals() {
        let one = "sheet=1\nmemory=atomic\ndenominator=1\nfirings=1\nwait=1\nfire=0\nrest=0\n";
        let none = "sheet=1\nmemory=atomic\ndenominator=1\nfirings=0\nrest=0\n";
        let refused = |cards: &[&str], out: &mut [u8]| {
            let refusal = rank(&input(cards.concat().as_bytes()), out).unwrap_err();
            (refusal.number(), refusal.place)
        };
        let mut out = [7u8; 13];
        let other = rank(&input([one, none].concat().as_bytes()), &mut []).unwrap_err();
        assert_eq!((other.meaning, other.place, other.number()), (Meaning::OtherOrder, 0, 10));
        assert_eq!(other.to_string(), "the two runs differ in their memory word or in their order of firings");
        assert_eq!(refused(&[one, &one.replace("atomic", "carry")], &mut out), (10, 0));
        assert_eq!(refused(&[one, &one.replace("sheet=1", "sheet=2")], &mut out), (11, 1));
        assert_eq!(refused(&[&one.replace("sheet=1", "sheet=2"), ""], &mut out), (11, 1));
        assert_eq!(refused(&[one, one], &mut out), (9, 0));
        assert_eq!(refused(&[one], &mut out), (1, 1));
        assert_eq!(refused(&[one, one, "\n"], &mut out), (1, 8));
        assert_eq!(refused(&[one, &one.replace("wait=1", "wait=0")], &mut out), (7, 1));
        assert_eq!(out, [7u8; 13]);
    }

    // one place with a token, which the one transition takes and gives
    const NET_F: &str = "sheet=9\nplaces=1\ntransitions=1\nstart=1\nearliest=0\nlatest=inf\ntake=1\ngive=1\n";

    #[test]
    fn joins() {
        let mut out = [7u8; JOIN_MAX];
        let mut answer = |second: &str, pairs: &str| {
            let n = join(&input([second, pairs].concat().as_bytes()), &mut out).unwrap();
            assert!(out[n..].iter().all(|b| *b == 7));
            let text = String::from_utf8(out[..n].to_vec()).unwrap();
            out.fill(7);
            text
        };
        let head = "sheet=1\nplaces=3\ntransitions=3\nstart=1\nstart=1\nstart=1\n";
        let own = "earliest=1\nlatest=2\ntake=1,0,0\ngive=1,0,0\nearliest=3\nlatest=4\ntake=1,1,0\ngive=0,0,0\n";
        let other = "earliest=0\nlatest=inf\ntake=0,0,1\ngive=0,0,1\n";
        assert_eq!(answer(NET_F, "pairs=none\n"), [head, own, other].concat());
        let paired = answer(NET_F, "pairs=1,0\n");
        assert!(paired.starts_with("sheet=1\nplaces=2\ntransitions=3\nstart=1\nstart=1\n"));
        assert!(paired.ends_with("earliest=0\nlatest=inf\ntake=0,1\ngive=0,1\n"));
    }

    #[test]
    fn longest_join() {
        let tokens = "start=255\n".repeat(16);
        let weights = ["255"; 16].join(",");
        let table = format!("earliest=1000\nlatest=1000\ntake={weights}\ngive={weights}\n");
        let net = |transitions| format!("sheet=9999\nplaces=16\ntransitions={transitions}\n{tokens}{}", table.repeat(transitions));
        let pairs: Vec<String> = (0..16).map(|place| format!("{place},{}", 15 - place)).collect();
        let card = format!("{}{}pairs={}\n", net(16), net(16), pairs.join(","));
        let mut out = [7u8; JOIN_MAX];
        let n = join(card.as_bytes(), &mut out).unwrap();
        assert_eq!((n, &out[..n]), (5444, net(32).as_bytes()));
        assert_eq!(join(card.as_bytes(), &mut out[..5443]).unwrap_err().meaning, Meaning::OutputTooShort);
    }

    #[test]
    fn join_refusals() {
        let mut out = [7u8; 16];
        let mut refused = |second: &str, pairs: &str| {
            let refusal = join(&input([second, pairs].concat().as_bytes()), &mut out).unwrap_err();
            assert_eq!(out, [7u8; 16]);
            (refusal.number(), refusal.place, refusal.to_string())
        };
        let pairs = "the list of pairs is odd, names a place that is not in its net, or names a place twice";
        for list in ["0", "2,0", "0,1", "0,0,1,0", "0,0,0,0"] {
            assert_eq!(refused(NET_F, &format!("pairs={list}\n")), (12, 0, pairs.to_string()));
        }
        let two = NET_F.replace("start=1", "start=2");
        assert_eq!(refused(&two, "pairs=0,0\n"), (13, 0, "two paired places have unequal starts".to_string()));
        let many = NET_F.replace("transitions=1\n", "transitions=31\n") + &"earliest=0\nlatest=inf\ntake=1\ngive=1\n".repeat(30);
        let large = "the joined net would have more than 16 places or more than 32 transitions";
        assert_eq!(refused(&many, "pairs=none\n"), (14, 0, large.to_string()));
        let mut short = |second: &str, pairs: &str| {
            let (number, place, _) = refused(second, pairs);
            (number, place)
        };
        assert_eq!(short(&many.replace("start=1", "start=2"), "pairs=0,0\n"), (13, 0));
        assert_eq!(short(NET_F, "pairs=none\n"), (9, 0));
        assert_eq!(short(NET_F, "pairs=\n"), (1, 1));
        assert_eq!(short(NET_F, "pairs=0\nx"), (1, 2));
        assert_eq!(short(NET_F, ""), (1, 1));
        assert_eq!(short("", "pairs=none\n"), (1, 1));
    }

    fn places<T: fmt::Debug>(result: Result<T, Refusal>) -> (u8, u16) {
        let refusal = result.unwrap_err();
        (refusal.number(), refusal.place)
    }

    #[test]
    fn live_functions() {
        let mut out = [7u8; LIVE_CARD_MAX];
        let opened = "sheet=1\nmemory=atomic\ndenominator=2\n";
        let n = live_open(&input(opened.as_bytes()), &mut out).unwrap();
        assert_eq!(out[..n], *[opened, "firings=0\nrest=0\n"].concat().as_bytes());
        assert!(out[n..].iter().all(|b| *b == 7));
        let cards = input(b"sheet=1\nmemory=atomic\ndenominator=2\nfirings=1\nwait=3\nfire=0\nrest=3\n");
        let mut answer = |step: &dyn Fn(&mut [u8]) -> Result<usize, Refusal>| {
            out.fill(7);
            let n = step(&mut out).unwrap();
            assert!(out[n..].iter().all(|b| *b == 7));
            assert_eq!(step(&mut out[..n]), Ok(n));
            assert_eq!(places(step(&mut out[..n - 1])), (9, 0));
            String::from_utf8(out[..n].to_vec()).unwrap().replace('\n', "|")
        };
        let head = "sheet=1|memory=atomic|denominator=2|";
        assert_eq!(answer(&|out| live_wait(&cards, 4, out)), format!("{head}firings=1|wait=3|fire=0|rest=7|"));
        assert_eq!(
            answer(&|out| live_fire(&cards, 0, out)),
            format!("{head}firings=2|wait=3|fire=0|wait=3|fire=0|rest=0|")
        );
        assert_eq!(answer(&|out| live_close(&cards, 1, out)), format!("{head}firings=1|wait=3|fire=0|rest=4|"));
        assert_eq!(answer(&|out| live_state(&cards, out)), "end=1,1|clock=3|clock=6|");
        assert_eq!(
            answer(&|out| live_timetable(&cards, out)),
            "sheet=1|memory=atomic|denominator=1|firings=1|wait=1|fire=0|rest=0|"
        );
    }

    #[test]
    fn live_refusals() {
        let mut out = [7u8; LIVE_CARD_MAX];
        let mut open = |lines: &str| places(live_open(&input(lines.as_bytes()), &mut out));
        assert_eq!(open("sheet=1\nmemory=atomic\ndenominator=0\n"), (2, 0));
        assert_eq!(open("sheet=1\nmemory=atomic\ndenominator=1001\nx"), (2, 0));
        assert_eq!(open("sheet=1\nmemory=atomic\ndenominator=01\n"), (1, 3));
        assert_eq!(open("sheet=1\nmemory=atomic\ndenominator=1\nx"), (1, 4));
        assert_eq!(open("sheet=1\nmemory=Atomic\ndenominator=1\n"), (1, 2));
        assert_eq!(open("sheet=2\n"), (11, 1));
        assert_eq!(open(""), (1, 1));
        // cards that no steps leave: a firing too early, a rest too long, bytes behind them, another sheet, no run, no net
        let good = "sheet=1\nmemory=atomic\ndenominator=2\nfirings=1\nwait=3\nfire=0\nrest=3\n";
        let early = good.replace("wait=3", "wait=1");
        let long = good.replace("rest=3", "rest=10000001");
        let behind = [good, "x"].concat();
        let other = good.replace("sheet=1", "sheet=2");
        let cards = [early, long, behind, other, String::new()].map(|card| input(card.as_bytes()));
        for cards in cards.iter().chain([&Vec::new()]) {
            assert_eq!(places(live_wait(cards, u32::MAX, &mut out)), (15, 0));
            assert_eq!(places(live_fire(cards, 99, &mut out)), (15, 0));
            assert_eq!(places(live_close(cards, 0, &mut out)), (15, 0));
            assert_eq!(places(live_state(cards, &mut out)), (15, 0));
            assert_eq!(places(live_timetable(cards, &mut [])), (15, 0));
        }
        assert_eq!(out, [7u8; LIVE_CARD_MAX]);
    }

    #[test]
    fn open_runs() {
        let mut run = OpenRun::open(NET_A, Memory::Atomic, 2).unwrap();
        assert_eq!(run.card(), b"sheet=1\nmemory=atomic\ndenominator=2\nfirings=0\nrest=0\n");
        run.wait(1).unwrap();
        let before = run.clone();
        assert_eq!(places(run.fire(0)), (7, 1));
        assert_eq!(places(run.fire(2)), (4, 1));
        assert_eq!(places(run.wait(10_000_000)), (2, 1));
        assert_eq!(places(run.close(u32::MAX)), (2, 1));
        assert_eq!(run, before);
        run.wait(2).unwrap();
        assert_eq!(run.state().unwrap(), "end=1,1\nclock=3\nclock=3\n");
        run.fire(0).unwrap();
        run.wait(3).unwrap();
        run.fire(0).unwrap();
        let unknown = run.fire(9).unwrap_err();
        assert_eq!((unknown.meaning, unknown.place), (Meaning::NoSuchTransition, 3));
        assert_eq!(
            unknown.to_string(),
            "line 3 of a card, or firing 3 of an open run, is of a transition that is not in the net"
        );
        run.fire(1).unwrap();
        let fires = |waits: [u32; 3]| format!("firings=3\nwait={}\nfire=0\nwait={}\nfire=0\nwait={}\nfire=1\n", waits[0], waits[1], waits[2]);
        let timetable = format!("sheet=1\nmemory=atomic\ndenominator=1\n{}rest=0\n", fires([1, 1, 1]));
        assert_eq!(run.timetable().unwrap(), timetable);
        run.wait(4).unwrap();
        assert_eq!(run.timetable().unwrap(), timetable);
        let card = format!("sheet=1\nmemory=atomic\ndenominator=2\n{}rest=9\n", fires([3, 3, 0]));
        assert_eq!(run.close(5).unwrap(), card);

        assert!(run.card().is_empty());
        let closed = run.clone();
        for refusal in [
            run.wait(0),
            run.fire(0),
            run.close(0).map(drop),
            run.state().map(drop),
            run.timetable().map(drop),
        ] {
            let refusal = refusal.unwrap_err();
            assert_eq!((refusal.meaning, refusal.place, refusal.number()), (Meaning::ClosedRun, 0, 15));
            assert_eq!(refusal.to_string(), "the run is closed");
        }
        assert_eq!(run, closed);
    }

    #[test]
    fn open_run_limits() {
        let net = NET_F.as_bytes();
        for denominator in [0, 1001, 1_000_000_000, u32::MAX] {
            let refusal = OpenRun::open(net, Memory::Carry, denominator).unwrap_err();
            assert_eq!((refusal.number(), refusal.place), (2, 0));
            assert_eq!(refusal.to_string(), "the denominator is outside its range");
        }
        assert_eq!(places(OpenRun::open(&net[1..], Memory::Carry, 0)), (1, 1));
        assert_eq!(places(OpenRun::open(b"", Memory::Carry, 1)), (1, 1));
        assert_eq!(
            places(OpenRun::open(&NET_F.replace("places=1", "places=17").into_bytes(), Memory::Carry, 1)),
            (2, 2)
        );
        // bytes behind the net card are taken for the lines that open the run
        assert_eq!(places(OpenRun::open(&[net, b"x"].concat(), Memory::Carry, 1)), (1, 1));

        let mut run = OpenRun::open(net, Memory::Intermediate, 1000).unwrap();
        for _ in 0..64 {
            run.wait(10_000_000).unwrap();
            run.fire(0).unwrap();
        }
        let full = run.fire(99).unwrap_err();
        assert_eq!((full.meaning, full.place), (Meaning::OutOfRange, 65));
        assert_eq!(
            full.to_string(),
            "line 65 of a card, or firing 65 of an open run, has a number outside its range"
        );
        run.wait(1).unwrap();
        assert_eq!(places(run.wait(10_000_000)), (2, 65));
        let card = run.close(9_999_999).unwrap();
        assert!(card.contains("firings=64\n") && card.ends_with("rest=10000000\n"));
    }
}
