//! The six operations and open runs as plain Rust, written for speed from the paper alone.
//!
//! Each reads its cards in one pass into fixed arrays, steps through the firings or puts one net into
//! the other, and writes its answer into a buffer on the stack, which is copied out once its length is known.

pub mod card;
mod firing;
mod join;
pub mod live;
mod session;
mod text;
mod timing;

pub use session::session;

use card::{Memory, Net, Order, Pairs, Run, Transition, FIRINGS, PLACES, UNBOUNDED};
use firing::State;
use join::Layout;
use text::Text;
use timing::Timing;

const REPLAY_LONGEST: usize = 580;
const RUN_LONGEST: usize = 1_481;
const PROCESS_LONGEST: usize = 22_000;
const RANK_LONGEST: usize = 26;
const NET_LONGEST: usize = 5_444;

/// The result of a refusal.
const fn refused(number: u32, place: u32) -> i64 {
    -(number as i64 * 65_536 + place as i64)
}

fn result(outcome: Result<i64, i64>) -> i64 {
    match outcome {
        Ok(value) | Err(value) => value,
    }
}

/// The marking and the clocks at the end of a run.
pub fn replay(input: &[u8], out: &mut [u8]) -> i64 {
    result(replay_outcome(input, out))
}

/// The run with every instant cut down to whole ticks.
pub fn round(input: &[u8], out: &mut [u8]) -> i64 {
    result(round_outcome(input, out))
}

/// The earliest whole-tick run of an order.
pub fn timetable(input: &[u8], out: &mut [u8]) -> i64 {
    result(timetable_outcome(input, out))
}

/// The causal process of a run.
pub fn process(input: &[u8], out: &mut [u8]) -> i64 {
    result(process_outcome(input, out))
}

/// Which of two runs of one order stands before the other, and by how much.
pub fn rank(input: &[u8], out: &mut [u8]) -> i64 {
    result(rank_outcome(input, out))
}

/// Two nets joined at paired places.
pub fn join(input: &[u8], out: &mut [u8]) -> i64 {
    result(join_outcome(input, out))
}

fn replay_outcome(input: &[u8], out: &mut [u8]) -> Result<i64, i64> {
    let (mut net, mut run) = (Net::empty(), Run::empty());
    let rest = net.read(input)?;
    run.read(rest, &net)?;
    let (state, last) = replayed(&net, &run)?;
    write_state(&net, &state, last + run.rest, out)
}

fn round_outcome(input: &[u8], out: &mut [u8]) -> Result<i64, i64> {
    let (mut net, mut run) = (Net::empty(), Run::empty());
    let rest = net.read(input)?;
    run.read(rest, &net)?;
    replayed(&net, &run)?;

    let mut text = Text::<RUN_LONGEST>::new();
    run_head(&mut text, run.sheet, run.memory, run.firings);
    let (mut instant, mut ticks) = (0, 0);
    for (&wait, &fire) in run.wait.iter().zip(&run.fire).take(run.firings) {
        instant += wait;
        let before = ticks;
        ticks = instant / run.denominator;
        firing_lines(&mut text, ticks - before, fire);
    }
    text.push(b"rest=");
    text.number((instant + run.rest) / run.denominator - ticks, b'\n');
    text.copy_to(out)
}

fn timetable_outcome(input: &[u8], out: &mut [u8]) -> Result<i64, i64> {
    let (mut net, mut order) = (Net::empty(), Order::empty());
    let rest = net.read(input)?;
    order.read(rest, &net)?;
    let fire = &order.fire[..order.firings];
    write_earliest(&net, order.memory, fire, out)
}

/// Writes the earliest run of an order on its net's sheet.
#[inline(always)]
fn write_earliest(net: &Net, memory: Memory, fire: &[u8], out: &mut [u8]) -> Result<i64, i64> {
    let mut origins = [0u32; FIRINGS];
    let mut state = State::new(net, memory);
    for ((&fire, origin), number) in fire.iter().zip(&mut origins).zip(1..) {
        let fire = usize::from(fire);
        if !state.is_enabled(fire) {
            return Err(refused(5, number));
        }
        *origin = state.since[fire];
        if !state.fire(fire, number) {
            return Err(refused(6, number));
        }
    }

    let mut timing = Timing::new();
    for ((&fire, &origin), number) in fire.iter().zip(&origins).zip(1..) {
        let transition = &net.transition[usize::from(fire)];
        if !timing.extend(origin, transition.earliest, transition.latest) {
            return Err(refused(8, number));
        }
    }

    let mut text = Text::<RUN_LONGEST>::new();
    run_head(&mut text, net.sheet, memory, fire.len());
    for (pair, &fire) in timing.instants().windows(2).zip(fire) {
        firing_lines(&mut text, pair[1] - pair[0], fire);
    }
    text.push(b"rest=0\n");
    text.copy_to(out)
}

fn process_outcome(input: &[u8], out: &mut [u8]) -> Result<i64, i64> {
    let (mut net, mut run) = (Net::empty(), Run::empty());
    let rest = net.read(input)?;
    run.read(rest, &net)?;
    replayed(&net, &run)?;

    // Tokens of each place by producer, and the oldest producer that may have some left.
    let mut tokens = [[0u8; FIRINGS + 1]; PLACES];
    let mut oldest = [0usize; PLACES];
    for (batches, &start) in tokens.iter_mut().zip(&net.start) {
        batches[0] = start;
    }
    let mut bound = 0u64;
    let mut text = Text::<PROCESS_LONGEST>::new();
    for (firing, &fire) in (1..).zip(&run.fire[..run.firings]) {
        let transition = &net.transition[usize::from(fire)];
        text.push(b"fire=");
        text.number(fire.into(), b'\n');
        text.push(b"from=");
        let list = text.len();
        for place in 0..net.places {
            let batches = &mut tokens[place];
            let mut wanted = transition.take[place];
            while wanted > 0 {
                let producer = oldest[place];
                let taken = wanted.min(batches[producer]);
                if taken > 0 {
                    item(&mut text, place, producer, taken);
                    wanted -= taken;
                    batches[producer] -= taken;
                    bound |= u64::from(producer + 1 == firing) << producer;
                }
                oldest[place] += usize::from(batches[producer] == 0);
            }
            batches[firing] = transition.give[place];
        }
        text.end_list(list);
    }

    text.push(b"left=");
    let list = text.len();
    for (place, batches) in tokens[..net.places].iter().enumerate() {
        for (producer, &count) in batches.iter().enumerate().skip(oldest[place]) {
            if count > 0 {
                item(&mut text, place, producer, count);
            }
        }
    }
    text.end_list(list);
    text.push(b"free=");
    let list = text.len();
    for firing in 1..run.firings {
        if (bound >> firing) & 1 == 0 {
            text.number(firing as u32, b',');
        }
    }
    text.end_list(list);
    text.copy_to(out)
}

fn rank_outcome(input: &[u8], out: &mut [u8]) -> Result<i64, i64> {
    let (mut net, mut x, mut y) = (Net::empty(), Run::empty(), Run::empty());
    let behind_net = net.read(input)?;
    let behind_x = x.read_first(behind_net, &net)?;
    y.read(behind_x, &net)?;
    replayed(&net, &x)?;
    replayed(&net, &y)?;
    if x.memory != y.memory || x.fire[..x.firings] != y.fire[..y.firings] {
        return Err(refused(10, 0));
    }

    let lead = lead(&x, &y);
    let mut text = Text::<RANK_LONGEST>::new();
    text.push(b"rank=");
    text.signed(lead.signum(), b'\n');
    text.push(b"lead=");
    text.signed(lead, b'\n');
    text.copy_to(out)
}

/// The lead of x over y, of the same order, at the first instant that differs, the end included.
///
/// Up to there the instants are equal, so that the waits just before it differ by the whole lead.
fn lead(x: &Run, y: &Run) -> i64 {
    let after = |wait_x: u32, wait_y: u32| {
        i64::from(wait_x) * i64::from(y.denominator) - i64::from(wait_y) * i64::from(x.denominator)
    };
    let waits = x.wait.iter().zip(&y.wait).take(x.firings);
    let mut leads = waits.map(|(&wait_x, &wait_y)| after(wait_x, wait_y));
    leads
        .find(|&lead| lead != 0)
        .unwrap_or_else(|| after(x.rest, y.rest))
}

fn join_outcome(input: &[u8], out: &mut [u8]) -> Result<i64, i64> {
    let (mut first, mut second, mut pairs) = (Net::empty(), Net::empty(), Pairs::empty());
    let behind_first = first.read(input)?;
    let behind_second = second.read(behind_first)?;
    pairs.read(behind_second)?;
    let layout = Layout::new(&first, &second, &pairs)?;
    first.join(&second, &layout);

    let mut text = Text::<NET_LONGEST>::new();
    net_card(&mut text, &first);
    text.copy_to(out)
}

/// The state after the last firing, and its instant; or the first firing refused.
fn replayed<'n>(net: &'n Net, run: &Run) -> Result<(State<'n>, u32), i64> {
    let mut state = State::new(net, run.memory);
    let mut now = 0;
    let firings = run.wait.iter().zip(&run.fire).take(run.firings);
    for ((&wait, &fire), number) in firings.zip(1..) {
        now += wait;
        step(net, &mut state, run.denominator, now, fire.into())
            .map_err(|why| refused(why, number))?;
    }
    Ok((state, now))
}

/// Fires a transition at an instant, or says which of 5, 7 and 6 is against it.
#[inline(always)]
fn step(net: &Net, state: &mut State, parts: u32, now: u32, fire: usize) -> Result<(), u32> {
    if !state.is_enabled(fire) {
        return Err(5);
    }
    let transition = &net.transition[fire];
    let clock = now - state.since[fire];
    if clock < transition.earliest * parts || clock > transition.latest.saturating_mul(parts) {
        return Err(7);
    }
    if !state.fire(fire, now) {
        return Err(6);
    }
    Ok(())
}

/// Writes the marking and the clocks at an instant from the last firing on.
#[inline(always)]
fn write_state(net: &Net, state: &State, now: u32, out: &mut [u8]) -> Result<i64, i64> {
    let mut text = Text::<REPLAY_LONGEST>::new();
    text.push(b"end=");
    for (place, &tokens) in state.marking[..net.places].iter().enumerate() {
        let last_place = place + 1 == net.places;
        text.number(tokens.into(), if last_place { b'\n' } else { b',' });
    }
    for transition in 0..net.transitions {
        text.push(b"clock=");
        if state.is_enabled(transition) {
            text.number(now - state.since[transition], b'\n');
        } else {
            text.push(b"off\n");
        }
    }
    text.copy_to(out)
}

/// The lines of a whole-tick run card before its firings.
fn run_head(text: &mut Text<RUN_LONGEST>, sheet: u32, memory: Memory, firings: usize) {
    text.push(b"sheet=");
    text.number(sheet, b'\n');
    match memory {
        Memory::Intermediate => text.push(b"memory=intermediate\ndenominator=1\nfirings="),
        Memory::Atomic => text.push(b"memory=atomic\ndenominator=1\nfirings="),
        Memory::Carry => text.push(b"memory=carry\ndenominator=1\nfirings="),
    }
    text.number(firings as u32, b'\n');
}

fn firing_lines(text: &mut Text<RUN_LONGEST>, wait: u32, fire: u8) {
    text.push(b"wait=");
    text.number(wait, b'\n');
    text.push(b"fire=");
    text.number(fire.into(), b'\n');
}

/// An item of a `from` or `left` list, with a comma behind it.
fn item(text: &mut Text<PROCESS_LONGEST>, place: usize, producer: usize, count: u8) {
    text.number(place as u32, b'.');
    text.number(producer as u32, b'.');
    text.number(count.into(), b',');
}

fn net_card(text: &mut Text<NET_LONGEST>, net: &Net) {
    text.push(b"sheet=");
    text.number(net.sheet, b'\n');
    text.push(b"places=");
    text.number(net.places as u32, b'\n');
    text.push(b"transitions=");
    text.number(net.transitions as u32, b'\n');
    for &tokens in &net.start[..net.places] {
        text.push(b"start=");
        text.number(tokens.into(), b'\n');
    }
    for transition in &net.transition[..net.transitions] {
        transition_lines(text, transition, net.places);
    }
}

fn transition_lines(text: &mut Text<NET_LONGEST>, transition: &Transition, places: usize) {
    text.push(b"earliest=");
    text.number(transition.earliest, b'\n');
    text.push(b"latest=");
    match transition.latest {
        UNBOUNDED => text.push(b"inf\n"),
        latest => text.number(latest, b'\n'),
    }
    text.push(b"take=");
    weights(text, &transition.take[..places]);
    text.push(b"give=");
    weights(text, &transition.give[..places]);
}

/// A list of at least one weight, to the line's end.
fn weights(text: &mut Text<NET_LONGEST>, weights: &[u8]) {
    let list = text.len();
    for &weight in weights {
        text.number(weight.into(), b',');
    }
    text.end_list(list);
}
