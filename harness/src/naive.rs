//! The six operations and open runs once more, slowly and as close to the paper's words as possible: lines are
//! split before they are judged, clocks are kept as such, timetables come from Bellman and Ford's
//! passes over all bounds of each prefix, tokens are queued one by one, instants are ranked as
//! fractions in lowest terms, and a joined net is gathered place by place from the two it is made of.
//!
//! The models of nets, runs and orders here also serve the generator.

pub mod live;

use std::collections::{BTreeSet, VecDeque};
use std::fmt::Write;

/// A refusal: its number and its place.
pub type Refusal = (u64, u64);

#[derive(Clone, Copy, Debug, PartialEq, Eq)]
pub enum Memory {
    Intermediate,
    Atomic,
    Carry,
}

#[derive(Clone, Debug, PartialEq, Eq)]
pub struct Transition {
    pub earliest: u64,
    pub latest: Option<u64>,
    pub take: Vec<u64>,
    pub give: Vec<u64>,
}

#[derive(Clone, Debug, PartialEq, Eq)]
pub struct Net {
    pub sheet: u64,
    pub start: Vec<u64>,
    pub transitions: Vec<Transition>,
}

#[derive(Clone, Debug, PartialEq, Eq)]
pub struct Run {
    pub sheet: u64,
    pub memory: Memory,
    pub denominator: u64,
    /// The wait and the transition of each firing.
    pub firings: Vec<(u64, usize)>,
    pub rest: u64,
}

#[derive(Clone, Debug, PartialEq, Eq)]
pub struct Order {
    pub sheet: u64,
    pub memory: Memory,
    pub fire: Vec<usize>,
}

// Writing cards

/// The items joined by commas, or the word `none`.
pub fn list<T: ToString>(items: &[T]) -> String {
    if items.is_empty() {
        return "none".into();
    }
    let items: Vec<String> = items.iter().map(T::to_string).collect();
    items.join(",")
}

impl Memory {
    pub fn word(self) -> &'static str {
        match self {
            Memory::Intermediate => "intermediate",
            Memory::Atomic => "atomic",
            Memory::Carry => "carry",
        }
    }
}

impl Net {
    pub fn card(&self) -> String {
        let mut card = format!(
            "sheet={}\nplaces={}\ntransitions={}\n",
            self.sheet,
            self.start.len(),
            self.transitions.len()
        );
        for tokens in &self.start {
            writeln!(card, "start={tokens}").unwrap();
        }
        for transition in &self.transitions {
            writeln!(card, "earliest={}", transition.earliest).unwrap();
            match transition.latest {
                Some(latest) => writeln!(card, "latest={latest}").unwrap(),
                None => writeln!(card, "latest=inf").unwrap(),
            }
            writeln!(card, "take={}", list(&transition.take)).unwrap();
            writeln!(card, "give={}", list(&transition.give)).unwrap();
        }
        card
    }
}

impl Run {
    pub fn card(&self) -> String {
        let mut card = format!(
            "sheet={}\nmemory={}\ndenominator={}\nfirings={}\n",
            self.sheet,
            self.memory.word(),
            self.denominator,
            self.firings.len()
        );
        for (wait, fire) in &self.firings {
            writeln!(card, "wait={wait}\nfire={fire}").unwrap();
        }
        writeln!(card, "rest={}", self.rest).unwrap();
        card
    }

    pub fn order(&self) -> Order {
        Order {
            sheet: self.sheet,
            memory: self.memory,
            fire: self.firings.iter().map(|&(_, fire)| fire).collect(),
        }
    }

    /// The instants of the firings and the end, in parts.
    pub fn instants(&self) -> Vec<u64> {
        let waits = self.firings.iter().map(|&(wait, _)| wait);
        let mut now = 0;
        waits
            .chain([self.rest])
            .map(|wait| {
                now += wait;
                now
            })
            .collect()
    }
}

impl Order {
    pub fn card(&self) -> String {
        let mut card = format!(
            "sheet={}\nmemory={}\nfirings={}\n",
            self.sheet,
            self.memory.word(),
            self.fire.len()
        );
        for fire in &self.fire {
            writeln!(card, "fire={fire}").unwrap();
        }
        card
    }

    /// The whole-tick run of this order with these instants and no rest.
    pub fn timed(&self, instants: &[u64]) -> Run {
        let before = [0].into_iter().chain(instants.iter().copied());
        let waits = instants
            .iter()
            .zip(before)
            .map(|(now, before)| now - before);
        Run {
            sheet: self.sheet,
            memory: self.memory,
            denominator: 1,
            firings: waits.zip(self.fire.iter().copied()).collect(),
            rest: 0,
        }
    }
}

// Reading cards

struct Lines<'a> {
    rest: &'a [u8],
    line: u64,
}

impl<'a> Lines<'a> {
    fn bad<T>(&self, number: u64) -> Result<T, Refusal> {
        Err((number, self.line))
    }

    /// The value of the next line, which must be there, be ended and have this key.
    fn value(&mut self, key: &str) -> Result<&'a [u8], Refusal> {
        self.line += 1;
        let Some(end) = self.rest.iter().position(|&byte| byte == 10) else {
            return self.bad(1);
        };
        let line = &self.rest[..end];
        self.rest = &self.rest[end + 1..];
        match line.iter().position(|&byte| byte == b'=') {
            Some(at) if &line[..at] == key.as_bytes() => Ok(&line[at + 1..]),
            _ => self.bad(1),
        }
    }

    fn form(&self, text: &[u8]) -> Result<u64, Refusal> {
        let digits = text.iter().all(u8::is_ascii_digit);
        let zero = text.first() == Some(&b'0') && text.len() > 1;
        if !digits || zero || text.is_empty() || text.len() > 9 {
            return self.bad(1);
        }
        Ok(std::str::from_utf8(text).unwrap().parse().unwrap())
    }

    fn number(&mut self, key: &str, least: u64, most: u64) -> Result<u64, Refusal> {
        let text = self.value(key)?;
        let value = self.form(text)?;
        if (least..=most).contains(&value) {
            Ok(value)
        } else {
            self.bad(2)
        }
    }

    fn weights(&mut self, key: &str, places: usize) -> Result<Vec<u64>, Refusal> {
        let text = self.value(key)?;
        let items = text.split(|&byte| byte == b',').map(|item| self.form(item));
        let weights: Vec<u64> = items.collect::<Result<_, _>>()?;
        if weights.len() != places {
            return self.bad(1);
        }
        if weights.iter().any(|&weight| weight > 255) {
            return self.bad(2);
        }
        Ok(weights)
    }

    /// The numbers of a `pairs` line, of any length.
    fn pairs(&mut self) -> Result<Vec<u64>, Refusal> {
        let text = self.value("pairs")?;
        if text == b"none" {
            return Ok(Vec::new());
        }
        let items = text.split(|&byte| byte == b',');
        items.map(|item| self.form(item)).collect()
    }

    fn memory(&mut self) -> Result<Memory, Refusal> {
        match self.value("memory")? {
            b"intermediate" => Ok(Memory::Intermediate),
            b"atomic" => Ok(Memory::Atomic),
            b"carry" => Ok(Memory::Carry),
            _ => self.bad(1),
        }
    }

    fn transition(&mut self, places: usize) -> Result<Transition, Refusal> {
        let earliest = self.number("earliest", 0, 1000)?;
        let text = self.value("latest")?;
        let latest = if text == b"inf" {
            None
        } else {
            let latest = self.form(text)?;
            if latest > 1000 {
                return self.bad(2);
            }
            if latest < earliest {
                return self.bad(3);
            }
            Some(latest)
        };
        Ok(Transition {
            earliest,
            latest,
            take: self.weights("take", places)?,
            give: self.weights("give", places)?,
        })
    }

    fn sheet(&mut self) -> Result<u64, Refusal> {
        self.number("sheet", 0, 9999)
    }

    /// The sheet of a run or an order, held against its net's before the next line is looked at.
    fn same_sheet(&mut self, net: &Net) -> Result<u64, Refusal> {
        let sheet = self.sheet()?;
        if sheet == net.sheet {
            Ok(sheet)
        } else {
            self.bad(11)
        }
    }

    fn net(&mut self) -> Result<Net, Refusal> {
        let sheet = self.sheet()?;
        let places = self.number("places", 1, 16)? as usize;
        let transitions = self.number("transitions", 1, 32)?;
        let start = (0..places).map(|_| self.number("start", 0, 255));
        let start = start.collect::<Result<_, _>>()?;
        let transitions = (0..transitions).map(|_| self.transition(places));
        let transitions = transitions.collect::<Result<_, _>>()?;
        Ok(Net {
            sheet,
            start,
            transitions,
        })
    }

    fn fire(&mut self, net: &Net) -> Result<usize, Refusal> {
        let text = self.value("fire")?;
        let fire = self.form(text)? as usize;
        if fire < net.transitions.len() {
            Ok(fire)
        } else {
            self.bad(4)
        }
    }

    fn nothing(&mut self) -> Result<(), Refusal> {
        self.line += 1;
        if self.rest.is_empty() {
            Ok(())
        } else {
            self.bad(1)
        }
    }

    fn run(&mut self, net: &Net) -> Result<Run, Refusal> {
        let sheet = self.same_sheet(net)?;
        let memory = self.memory()?;
        let denominator = self.number("denominator", 1, 1000)?;
        let mut firings = Vec::new();
        for _ in 0..self.number("firings", 0, 64)? {
            let wait = self.number("wait", 0, 10_000_000)?;
            firings.push((wait, self.fire(net)?));
        }
        let rest = self.number("rest", 0, 10_000_000)?;
        Ok(Run {
            sheet,
            memory,
            denominator,
            firings,
            rest,
        })
    }

    fn order(&mut self, net: &Net) -> Result<Order, Refusal> {
        let sheet = self.same_sheet(net)?;
        let memory = self.memory()?;
        let firings = self.number("firings", 0, 64)?;
        let fire = (0..firings).map(|_| self.fire(net));
        let fire = fire.collect::<Result<_, _>>()?;
        self.nothing()?;
        Ok(Order {
            sheet,
            memory,
            fire,
        })
    }
}

/// A net card, and the bytes behind it.
pub fn read_net(input: &[u8]) -> Result<(Net, &[u8]), Refusal> {
    let mut lines = Lines {
        rest: input,
        line: 0,
    };
    let net = lines.net()?;
    Ok((net, lines.rest))
}

/// A run card with nothing behind it.
pub fn read_run(input: &[u8], net: &Net) -> Result<Run, Refusal> {
    let mut lines = Lines {
        rest: input,
        line: 0,
    };
    let run = lines.run(net)?;
    lines.nothing()?;
    Ok(run)
}

/// A run card, and the bytes behind it.
pub fn read_first_run<'a>(input: &'a [u8], net: &Net) -> Result<(Run, &'a [u8]), Refusal> {
    let mut lines = Lines {
        rest: input,
        line: 0,
    };
    let run = lines.run(net)?;
    Ok((run, lines.rest))
}

pub fn read_order(input: &[u8], net: &Net) -> Result<Order, Refusal> {
    Lines {
        rest: input,
        line: 0,
    }
    .order(net)
}

/// A `pairs` line with nothing behind it.
pub fn read_pairs(input: &[u8]) -> Result<Vec<u64>, Refusal> {
    let mut lines = Lines {
        rest: input,
        line: 0,
    };
    let numbers = lines.pairs()?;
    lines.nothing()?;
    Ok(numbers)
}

// Firing

impl Net {
    pub fn enabled(&self, marking: &[u64], transition: usize) -> bool {
        let take = &self.transitions[transition].take;
        !marking.iter().zip(take).any(|(has, take)| has < take)
    }

    /// The marking after the taking and before the giving.
    fn middle(&self, marking: &[u64], transition: usize) -> Vec<u64> {
        let take = &self.transitions[transition].take;
        marking
            .iter()
            .zip(take)
            .map(|(has, take)| has - take)
            .collect()
    }

    pub fn after(&self, marking: &[u64], transition: usize) -> Vec<u64> {
        let give = &self.transitions[transition].give;
        let middle = self.middle(marking, transition);
        middle
            .iter()
            .zip(give)
            .map(|(has, give)| has + give)
            .collect()
    }

    /// Whether u, enabled after t fired at the marking, restarts.
    fn restarts(&self, memory: Memory, marking: &[u64], t: usize, u: usize) -> bool {
        match memory {
            Memory::Intermediate => u == t || !self.enabled(&self.middle(marking, t), u),
            Memory::Atomic => u == t || !self.enabled(marking, u),
            Memory::Carry => !self.enabled(marking, u),
        }
    }
}

/// A marking, and the clock of each enabled transition in parts.
#[derive(Clone, Debug, PartialEq, Eq)]
pub struct State {
    pub marking: Vec<u64>,
    pub clocks: Vec<Option<u64>>,
}

impl State {
    pub fn start(net: &Net) -> Self {
        let enabled = |t| net.enabled(&net.start, t).then_some(0);
        State {
            marking: net.start.clone(),
            clocks: (0..net.transitions.len()).map(enabled).collect(),
        }
    }

    pub fn wait(&mut self, parts: u64) {
        for clock in self.clocks.iter_mut().flatten() {
            *clock += parts;
        }
    }

    /// Fires t, or says which of 5, 7 and 6 is against it.
    pub fn fire(
        &mut self,
        net: &Net,
        memory: Memory,
        denominator: u64,
        t: usize,
    ) -> Result<(), u64> {
        let Some(clock) = self.clocks[t] else {
            return Err(5);
        };
        let transition = &net.transitions[t];
        let late = transition
            .latest
            .is_some_and(|latest| clock > latest * denominator);
        if clock < transition.earliest * denominator || late {
            return Err(7);
        }
        let after = net.after(&self.marking, t);
        if after.iter().any(|&tokens| tokens > 255) {
            return Err(6);
        }
        for (u, clock) in self.clocks.iter_mut().enumerate() {
            if !net.enabled(&after, u) {
                *clock = None;
            } else if net.restarts(memory, &self.marking, t, u) {
                *clock = Some(0);
            } else {
                assert!(clock.is_some(), "a clock that runs on must be there");
            }
        }
        self.marking = after;
        Ok(())
    }
}

/// The state at the end of a run, or the first firing refused.
pub fn replayed(net: &Net, run: &Run) -> Result<State, Refusal> {
    let mut state = State::start(net);
    for (&(wait, fire), number) in run.firings.iter().zip(1..) {
        state.wait(wait);
        let fired = state.fire(net, run.memory, run.denominator, fire);
        fired.map_err(|refusal| (refusal, number))?;
    }
    state.wait(run.rest);
    Ok(state)
}

// Timetables

/// A bound S(to) >= S(from) + gain.
#[derive(Clone, Copy, Debug)]
pub struct Bound {
    pub from: usize,
    pub to: usize,
    pub gain: i64,
}

/// The bounds that an order puts on its instants, those of firing i at index i - 1; or 5 or 6.
pub fn bounds(net: &Net, order: &Order) -> Result<Vec<Vec<Bound>>, Refusal> {
    // The marking before each firing.
    let mut markings = vec![net.start.clone()];
    for (&fire, number) in order.fire.iter().zip(1..) {
        let marking = markings.last().unwrap();
        if !net.enabled(marking, fire) {
            return Err((5, number));
        }
        let after = net.after(marking, fire);
        if after.iter().any(|&tokens| tokens > 255) {
            return Err((6, number));
        }
        markings.push(after);
    }
    let of_firing = |firing: usize| {
        let fire = order.fire[firing - 1];
        // Newly enabled counts as restarted: then it was enabled neither before nor in between.
        let restarted = |&at: &usize| {
            net.enabled(&markings[at], fire)
                && net.restarts(order.memory, &markings[at - 1], order.fire[at - 1], fire)
        };
        let origin = (1..firing).rev().find(restarted).unwrap_or(0);
        let transition = &net.transitions[fire];
        let mut bounds = vec![
            Bound {
                from: firing - 1,
                to: firing,
                gain: 0,
            },
            Bound {
                from: origin,
                to: firing,
                gain: transition.earliest as i64,
            },
        ];
        if let Some(latest) = transition.latest {
            bounds.push(Bound {
                from: firing,
                to: origin,
                gain: -(latest as i64),
            });
        }
        bounds
    };
    Ok((1..=order.fire.len()).map(of_firing).collect())
}

/// The longest paths from 0 along bounds over the instants 0 to `last`; none if a cycle gains.
pub fn longest_paths(bounds: &[Bound], last: usize) -> Option<Vec<i64>> {
    let mut instants: Vec<Option<i64>> = vec![None; last + 1];
    instants[0] = Some(0);
    for _ in 0..=last {
        let mut raised = false;
        for bound in bounds {
            let Some(from) = instants[bound.from] else {
                continue;
            };
            if instants[bound.to].is_none_or(|to| to < from + bound.gain) {
                instants[bound.to] = Some(from + bound.gain);
                raised = true;
            }
        }
        if !raised {
            return Some(
                instants
                    .into_iter()
                    .map(|instant| instant.unwrap())
                    .collect(),
            );
        }
    }
    None
}

/// The earliest instants of an order's firings, or 5, 6 or 8.
pub fn earliest(net: &Net, order: &Order) -> Result<Vec<u64>, Refusal> {
    let bounds = bounds(net, order)?;
    let mut instants = vec![0];
    for firings in 1..=bounds.len() {
        let prefix = bounds[..firings].concat();
        instants = longest_paths(&prefix, firings).ok_or((8, firings as u64))?;
    }
    Ok(instants[1..]
        .iter()
        .map(|&instant| instant as u64)
        .collect())
}

// Ranking

/// An instant in ticks, as a fraction in lowest terms.
#[derive(Clone, Copy, Debug, PartialEq, Eq)]
pub struct Instant {
    pub above: u64,
    pub below: u64,
}

impl Instant {
    pub fn new(parts: u64, denominator: u64) -> Self {
        let (mut common, mut left) = (denominator, parts);
        while left > 0 {
            (common, left) = (left, common % left);
        }
        Instant {
            above: parts / common,
            below: denominator / common,
        }
    }

    /// The number of `1 / fineness` ticks, which must be whole.
    fn count(self, fineness: u64) -> i64 {
        assert_eq!(fineness % self.below, 0);
        (self.above * (fineness / self.below)) as i64
    }
}

/// The instants of the firings and the end, in ticks.
pub fn ticks(run: &Run) -> Vec<Instant> {
    let parts = run.instants().into_iter();
    parts
        .map(|parts| Instant::new(parts, run.denominator))
        .collect()
}

/// The rank of x beside y, and its lead; 10 if they are not of one memory and one order.
pub fn ranked(x: &Run, y: &Run) -> Result<(i64, i64), Refusal> {
    if x.order() != y.order() {
        return Err((10, 0));
    }
    let mut both = ticks(x).into_iter().zip(ticks(y));
    let Some((at_x, at_y)) = both.find(|(at_x, at_y)| at_x != at_y) else {
        return Ok((0, 0));
    };
    let product = x.denominator * y.denominator;
    let lead = at_x.count(product) - at_y.count(product);
    Ok((if lead < 0 { -1 } else { 1 }, lead))
}

// Joining

/// Whether a list names a place of the net each time, and none twice.
fn names_places(net: &Net, numbers: &[u64]) -> bool {
    let places = 0..net.start.len() as u64;
    let different: BTreeSet<u64> = numbers.iter().copied().collect();
    numbers.iter().all(|number| places.contains(number)) && different.len() == numbers.len()
}

/// A list of place numbers two by two, the first net's place and then the second's; or 12 or 13.
fn paired(first: &Net, second: &Net, numbers: &[u64]) -> Result<Vec<(usize, usize)>, Refusal> {
    let ones: Vec<u64> = numbers.iter().copied().step_by(2).collect();
    let others: Vec<u64> = numbers.iter().copied().skip(1).step_by(2).collect();
    if ones.len() != others.len() || !names_places(first, &ones) || !names_places(second, &others) {
        return Err((12, 0));
    }
    let pairs = ones.into_iter().zip(others);
    let pairs: Vec<(usize, usize)> = pairs
        .map(|(one, other)| (one as usize, other as usize))
        .collect();
    let unequal = |&(one, other): &(usize, usize)| first.start[one] != second.start[other];
    if pairs.iter().any(unequal) {
        return Err((13, 0));
    }
    Ok(pairs)
}

/// A transition over other places, each with the old one that it is, if any; nothing is taken from
/// and given to the others.
fn moved(transition: &Transition, places: &[Option<usize>]) -> Transition {
    let weights = |old: &[u64]| {
        let weight = |&place: &Option<usize>| place.map_or(0, |place| old[place]);
        places.iter().map(weight).collect()
    };
    Transition {
        earliest: transition.earliest,
        latest: transition.latest,
        take: weights(&transition.take),
        give: weights(&transition.give),
    }
}

/// Two nets on one drawing, by a list of place numbers; or 12, 13 or 14.
pub fn joined(first: &Net, second: &Net, numbers: &[u64]) -> Result<Net, Refusal> {
    let pairs = paired(first, second, numbers)?;
    let partner = |one: usize| pairs.iter().find(|pair| pair.0 == one).map(|pair| pair.1);
    let unpaired = |other: &usize| pairs.iter().all(|pair| pair.1 != *other);
    let own = first.start.len();
    let behind: Vec<usize> = (0..second.start.len()).filter(unpaired).collect();

    // The place of each net that a joined place is, if it is one of that net's.
    let mut of_first: Vec<Option<usize>> = (0..own).map(Some).collect();
    let mut of_second: Vec<Option<usize>> = (0..own).map(partner).collect();
    let mut start = first.start.clone();
    for other in behind {
        of_first.push(None);
        of_second.push(Some(other));
        start.push(second.start[other]);
    }
    let firsts = first.transitions.iter().map(|old| moved(old, &of_first));
    let seconds = second.transitions.iter().map(|old| moved(old, &of_second));
    let transitions: Vec<Transition> = firsts.chain(seconds).collect();
    if start.len() > 16 || transitions.len() > 32 {
        return Err((14, 0));
    }
    Ok(Net {
        sheet: first.sheet,
        start,
        transitions,
    })
}

// Operations

fn rounded(run: &Run) -> Run {
    let instants = run.instants();
    let ticks = |parts: u64| parts / run.denominator;
    let (end, instants) = instants.split_last().unwrap();
    let whole: Vec<u64> = instants.iter().map(|&parts| ticks(parts)).collect();
    let mut rounded = run.order().timed(&whole);
    rounded.rest = ticks(*end) - whole.last().copied().unwrap_or(0);
    rounded
}

fn causes(net: &Net, run: &Run) -> String {
    // The producer of each token, oldest first.
    let mut places: Vec<VecDeque<usize>> = Vec::new();
    places.extend(
        net.start
            .iter()
            .map(|&tokens| vec![0; tokens as usize].into()),
    );
    let items = |taken: &[Vec<usize>]| {
        let mut items = Vec::new();
        for (place, producers) in taken.iter().enumerate() {
            for group in producers.chunk_by(|a, b| a == b) {
                items.push(format!("{place}.{}.{}", group[0], group.len()));
            }
        }
        list(&items)
    };
    let mut text = String::new();
    let mut free = Vec::new();
    for (firing, &(_, fire)) in run.firings.iter().enumerate() {
        let transition = &net.transitions[fire];
        let weights = transition.take.iter().map(|&weight| weight as usize);
        let taken: Vec<Vec<usize>> = places
            .iter_mut()
            .zip(weights)
            .map(|(tokens, weight)| tokens.drain(..weight).collect())
            .collect();
        for (tokens, &weight) in places.iter_mut().zip(&transition.give) {
            tokens.extend(vec![firing + 1; weight as usize]);
        }
        writeln!(text, "fire={fire}\nfrom={}", items(&taken)).unwrap();
        if firing > 0 && !taken.concat().contains(&firing) {
            free.push(firing);
        }
    }
    let left: Vec<Vec<usize>> = places.into_iter().map(Vec::from).collect();
    writeln!(text, "left={}\nfree={}", items(&left), list(&free)).unwrap();
    text
}

fn result(answer: Result<String, Refusal>, out: &mut [u8]) -> i64 {
    let refused = |number: u64, place: u64| -((number * 65_536 + place) as i64);
    match answer {
        Ok(text) if text.len() > out.len() => refused(9, 0),
        Ok(text) => {
            out[..text.len()].copy_from_slice(text.as_bytes());
            text.len() as i64
        }
        Err((number, place)) => refused(number, place),
    }
}

fn accepted(input: &[u8]) -> Result<(Net, Run, State), Refusal> {
    let (net, rest) = read_net(input)?;
    let run = read_run(rest, &net)?;
    let state = replayed(&net, &run)?;
    Ok((net, run, state))
}

pub fn replay(input: &[u8], out: &mut [u8]) -> i64 {
    let answer = accepted(input).map(|(_, _, state)| {
        let mut text = format!("end={}\n", list(&state.marking));
        for clock in state.clocks {
            match clock {
                Some(clock) => writeln!(text, "clock={clock}").unwrap(),
                None => writeln!(text, "clock=off").unwrap(),
            }
        }
        text
    });
    result(answer, out)
}

pub fn round(input: &[u8], out: &mut [u8]) -> i64 {
    let answer = accepted(input).map(|(_, run, _)| rounded(&run).card());
    result(answer, out)
}

pub fn timetable(input: &[u8], out: &mut [u8]) -> i64 {
    let answer = read_net(input).and_then(|(net, rest)| {
        let order = read_order(rest, &net)?;
        Ok(order.timed(&earliest(&net, &order)?).card())
    });
    result(answer, out)
}

pub fn process(input: &[u8], out: &mut [u8]) -> i64 {
    let answer = accepted(input).map(|(net, run, _)| causes(&net, &run));
    result(answer, out)
}

pub fn rank(input: &[u8], out: &mut [u8]) -> i64 {
    let answer = read_net(input).and_then(|(net, rest)| {
        let (x, rest) = read_first_run(rest, &net)?;
        let y = read_run(rest, &net)?;
        replayed(&net, &x)?;
        replayed(&net, &y)?;
        let (rank, lead) = ranked(&x, &y)?;
        Ok(format!("rank={rank}\nlead={lead}\n"))
    });
    result(answer, out)
}

pub fn join(input: &[u8], out: &mut [u8]) -> i64 {
    let answer = read_net(input).and_then(|(first, rest)| {
        let (second, rest) = read_net(rest)?;
        let numbers = read_pairs(rest)?;
        Ok(joined(&first, &second, &numbers)?.card())
    });
    result(answer, out)
}
