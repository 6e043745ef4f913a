//! Cards, read in one pass into fixed arrays.

use super::refused;

pub const PLACES: usize = 16;
pub const TRANSITIONS: usize = 32;
pub const FIRINGS: usize = 64;

/// The `latest` of a transition without an upper bound.
pub const UNBOUNDED: u32 = u32::MAX;

const MOST_SHEET: u32 = 9_999;
const MOST_TOKENS: u32 = 255;
const MOST_TICKS: u32 = 1_000;
const MOST_DENOMINATOR: u32 = 1_000;
pub const MOST_PARTS: u32 = 10_000_000;

/// A number for each place; 0 past the places of the net.
pub type Tokens = [u8; PLACES];

#[derive(Clone, Copy, Debug, PartialEq, Eq)]
pub enum Memory {
    Intermediate,
    Atomic,
    Carry,
}

#[derive(Clone, Copy, Debug, PartialEq, Eq)]
pub struct Transition {
    pub earliest: u32,
    pub latest: u32,
    pub take: Tokens,
    pub give: Tokens,
}

const NO_TRANSITION: Transition = Transition {
    earliest: 0,
    latest: 0,
    take: [0; PLACES],
    give: [0; PLACES],
};

#[derive(Clone, Debug, PartialEq, Eq)]
pub struct Net {
    pub sheet: u32,
    pub places: usize,
    pub transitions: usize,
    pub start: Tokens,
    pub transition: [Transition; TRANSITIONS],
}

#[derive(Clone, Debug, PartialEq, Eq)]
pub struct Run {
    pub sheet: u32,
    pub memory: Memory,
    pub denominator: u32,
    pub firings: usize,
    pub wait: [u32; FIRINGS],
    pub fire: [u8; FIRINGS],
    pub rest: u32,
}

pub struct Order {
    pub sheet: u32,
    pub memory: Memory,
    pub firings: usize,
    pub fire: [u8; FIRINGS],
}

/// The lines that open a run on a net's sheet.
pub struct Opening {
    pub memory: Memory,
    pub denominator: u32,
}

/// The list of a `pairs` line: how many numbers it has, and as many of them as can be pairs.
pub struct Pairs {
    pub count: usize,
    pub number: [u32; 2 * PLACES],
}

impl Net {
    #[inline(always)]
    pub fn empty() -> Self {
        Net {
            sheet: 0,
            places: 0,
            transitions: 0,
            start: [0; PLACES],
            transition: [NO_TRANSITION; TRANSITIONS],
        }
    }

    /// Fills an empty net from the card at the front of the input; the bytes behind it.
    pub fn read<'a>(&mut self, input: &'a [u8]) -> Result<&'a [u8], i64> {
        let mut lines = Lines::new(input);
        self.sheet = lines.number(b"sheet=", 0, MOST_SHEET)?;
        self.places = lines.number(b"places=", 1, PLACES as u32)? as usize;
        self.transitions = lines.number(b"transitions=", 1, TRANSITIONS as u32)? as usize;
        for tokens in &mut self.start[..self.places] {
            *tokens = lines.number(b"start=", 0, MOST_TOKENS)? as u8;
        }
        for transition in &mut self.transition[..self.transitions] {
            transition.earliest = lines.number(b"earliest=", 0, MOST_TICKS)?;
            transition.latest = lines.latest(transition.earliest)?;
            lines.weights(b"take=", &mut transition.take[..self.places])?;
            lines.weights(b"give=", &mut transition.give[..self.places])?;
        }
        Ok(lines.rest)
    }

    /// Finds against a net that was not read what would be found against its card.
    pub fn check(&self) -> Result<(), i64> {
        in_range(self.sheet, 0, MOST_SHEET, 1)?;
        in_range(clipped(self.places), 1, PLACES as u32, 2)?;
        in_range(clipped(self.transitions), 1, TRANSITIONS as u32, 3)?;
        let mut line = 3 + self.places as u32;
        for transition in &self.transition[..self.transitions] {
            let Transition {
                earliest, latest, ..
            } = *transition;
            in_range(earliest, 0, MOST_TICKS, line + 1)?;
            if latest != UNBOUNDED {
                in_range(latest, 0, MOST_TICKS, line + 2)?;
            }
            if latest < earliest {
                return Err(refused(3, line + 2));
            }
            line += 4;
        }
        Ok(())
    }

    /// Clears the slots past the counts, which are no part of a net.
    pub fn trim(&mut self) {
        let (places, transitions) = (self.places.min(PLACES), self.transitions.min(TRANSITIONS));
        self.start[places..].fill(0);
        for transition in &mut self.transition[..transitions] {
            transition.take[places..].fill(0);
            transition.give[places..].fill(0);
        }
        self.transition[transitions..].fill(NO_TRANSITION);
    }
}

/// A count as a number of a card.
fn clipped(count: usize) -> u32 {
    u32::try_from(count).unwrap_or(u32::MAX)
}

fn in_range(value: u32, least: u32, most: u32, line: u32) -> Result<(), i64> {
    if value < least || value > most {
        return Err(refused(2, line));
    }
    Ok(())
}

impl Run {
    #[inline(always)]
    pub fn empty() -> Self {
        Run {
            sheet: 0,
            memory: Memory::Atomic,
            denominator: 1,
            firings: 0,
            wait: [0; FIRINGS],
            fire: [0; FIRINGS],
            rest: 0,
        }
    }

    /// Fills an empty run from a card with nothing behind it.
    pub fn read(&mut self, input: &[u8], net: &Net) -> Result<(), i64> {
        let mut lines = Lines::new(input);
        self.read_lines(&mut lines, net)?;
        lines.end()
    }

    /// Fills an empty run from the card at the front of the input; the bytes behind it.
    pub fn read_first<'a>(&mut self, input: &'a [u8], net: &Net) -> Result<&'a [u8], i64> {
        let mut lines = Lines::new(input);
        self.read_lines(&mut lines, net)?;
        Ok(lines.rest)
    }

    #[inline(always)]
    fn read_lines(&mut self, lines: &mut Lines, net: &Net) -> Result<(), i64> {
        self.sheet = lines.sheet_of(net)?;
        self.memory = lines.memory()?;
        self.denominator = lines.number(b"denominator=", 1, MOST_DENOMINATOR)?;
        self.firings = lines.number(b"firings=", 0, FIRINGS as u32)? as usize;
        for (wait, fire) in self.wait.iter_mut().zip(&mut self.fire).take(self.firings) {
            *wait = lines.number(b"wait=", 0, MOST_PARTS)?;
            *fire = lines.fire(net.transitions)?;
        }
        self.rest = lines.number(b"rest=", 0, MOST_PARTS)?;
        Ok(())
    }

    /// Finds against a run of a net that was not read what would be found against its card.
    pub fn check(&self, net: &Net) -> Result<(), i64> {
        in_range(self.sheet, 0, MOST_SHEET, 1)?;
        if self.sheet != net.sheet {
            return Err(refused(11, 1));
        }
        in_range(self.denominator, 1, MOST_DENOMINATOR, 3)?;
        in_range(clipped(self.firings), 0, FIRINGS as u32, 4)?;
        let mut line = 4;
        for (&wait, &fire) in self.wait.iter().zip(&self.fire).take(self.firings) {
            in_range(wait, 0, MOST_PARTS, line + 1)?;
            if usize::from(fire) >= net.transitions {
                return Err(refused(4, line + 2));
            }
            line += 2;
        }
        in_range(self.rest, 0, MOST_PARTS, line + 1)
    }

    /// Whether the slots past the count hold nothing.
    pub fn is_blank_behind(&self) -> bool {
        let behind = self.wait.iter().zip(&self.fire).skip(self.firings);
        behind
            .into_iter()
            .all(|(&wait, &fire)| wait == 0 && fire == 0)
    }
}

impl Order {
    #[inline(always)]
    pub fn empty() -> Self {
        Order {
            sheet: 0,
            memory: Memory::Atomic,
            firings: 0,
            fire: [0; FIRINGS],
        }
    }

    pub fn read(&mut self, input: &[u8], net: &Net) -> Result<(), i64> {
        let mut lines = Lines::new(input);
        self.sheet = lines.sheet_of(net)?;
        self.memory = lines.memory()?;
        self.firings = lines.number(b"firings=", 0, FIRINGS as u32)? as usize;
        for fire in &mut self.fire[..self.firings] {
            *fire = lines.fire(net.transitions)?;
        }
        lines.end()
    }
}

impl Opening {
    /// Reads the lines `sheet`, `memory` and `denominator`, with nothing behind them.
    pub fn read(input: &[u8], net: &Net) -> Result<Self, i64> {
        let (opening, rest) = Self::read_first(input, net)?;
        match rest.is_empty() {
            true => Ok(opening),
            false => Err(refused(1, 4)),
        }
    }

    /// Reads these lines at the front of the input; the bytes behind them.
    pub fn read_first<'a>(input: &'a [u8], net: &Net) -> Result<(Self, &'a [u8]), i64> {
        let mut lines = Lines::new(input);
        lines.sheet_of(net)?;
        let memory = lines.memory()?;
        let denominator = lines.any_number(b"denominator=")?;
        check_denominator(denominator)?;
        let opening = Opening {
            memory,
            denominator,
        };
        Ok((opening, lines.rest))
    }
}

/// The denominator that a run is opened with: outside its range it is 2, place 0.
pub fn check_denominator(denominator: u32) -> Result<(), i64> {
    in_range(denominator, 1, MOST_DENOMINATOR, 0)
}

impl Pairs {
    #[inline(always)]
    pub fn empty() -> Self {
        Pairs {
            count: 0,
            number: [0; 2 * PLACES],
        }
    }

    /// Fills an empty list from its line, with nothing behind it.
    pub fn read(&mut self, input: &[u8]) -> Result<(), i64> {
        let mut lines = Lines::new(input);
        lines.pairs(self)?;
        lines.end()
    }
}

/// The lines of one card.
struct Lines<'a> {
    rest: &'a [u8],
    /// Lines begun so far, which is the number of the line being read.
    line: u32,
}

impl<'a> Lines<'a> {
    fn new(input: &'a [u8]) -> Self {
        Lines {
            rest: input,
            line: 0,
        }
    }

    /// Begins a line; the bytes behind its key.
    #[inline(always)]
    fn key<const N: usize>(&mut self, key: &[u8; N]) -> Result<&'a [u8], i64> {
        self.line += 1;
        match self.rest.split_first_chunk::<N>() {
            Some((front, behind)) if front == key => Ok(behind),
            _ => Err(refused(1, self.line)),
        }
    }

    /// Reads a line with a number of good form.
    #[inline(always)]
    fn any_number<const N: usize>(&mut self, key: &[u8; N]) -> Result<u32, i64> {
        let text = self.key(key)?;
        let (value, rest) = decimal(text, b'\n').ok_or(refused(1, self.line))?;
        self.rest = rest;
        Ok(value)
    }

    #[inline(always)]
    fn number<const N: usize>(&mut self, key: &[u8; N], least: u32, most: u32) -> Result<u32, i64> {
        let value = self.any_number(key)?;
        if value < least || value > most {
            return Err(refused(2, self.line));
        }
        Ok(value)
    }

    /// Reads the sheet of a run or an order, which must be its net's.
    #[inline(always)]
    fn sheet_of(&mut self, net: &Net) -> Result<u32, i64> {
        let sheet = self.number(b"sheet=", 0, MOST_SHEET)?;
        if sheet != net.sheet {
            return Err(refused(11, self.line));
        }
        Ok(sheet)
    }

    #[inline(always)]
    fn latest(&mut self, earliest: u32) -> Result<u32, i64> {
        if let Some(rest) = self.rest.strip_prefix(b"latest=inf\n") {
            self.rest = rest;
            self.line += 1;
            return Ok(UNBOUNDED);
        }
        let latest = self.number(b"latest=", 0, MOST_TICKS)?;
        if latest < earliest {
            return Err(refused(3, self.line));
        }
        Ok(latest)
    }

    /// Reads a list of as many weights as there are slots, of which there is at least one.
    #[inline(always)]
    fn weights<const N: usize>(&mut self, key: &[u8; N], slots: &mut [u8]) -> Result<(), i64> {
        let mut text = self.key(key)?;
        let bad_form = refused(1, self.line);
        let mut most = 0;
        let (last, others) = slots.split_last_mut().ok_or(bad_form)?;
        for slot in others {
            let (value, rest) = decimal(text, b',').ok_or(bad_form)?;
            *slot = value as u8;
            most = most.max(value);
            text = rest;
        }
        let (value, rest) = decimal(text, b'\n').ok_or(bad_form)?;
        *last = value as u8;
        self.rest = rest;
        if most.max(value) > MOST_TOKENS {
            return Err(refused(2, self.line));
        }
        Ok(())
    }

    fn memory(&mut self) -> Result<Memory, i64> {
        let text = self.key(b"memory=")?;
        let (memory, rest) = if let Some(rest) = text.strip_prefix(b"intermediate\n") {
            (Memory::Intermediate, rest)
        } else if let Some(rest) = text.strip_prefix(b"atomic\n") {
            (Memory::Atomic, rest)
        } else if let Some(rest) = text.strip_prefix(b"carry\n") {
            (Memory::Carry, rest)
        } else {
            return Err(refused(1, self.line));
        };
        self.rest = rest;
        Ok(memory)
    }

    #[inline(always)]
    fn fire(&mut self, transitions: usize) -> Result<u8, i64> {
        let value = self.any_number(b"fire=")?;
        if value as usize >= transitions {
            return Err(refused(4, self.line));
        }
        Ok(value as u8)
    }

    /// Reads the word `none` or a list of any length, of which the numbers past the slots are counted.
    fn pairs(&mut self, pairs: &mut Pairs) -> Result<(), i64> {
        let mut text = self.key(b"pairs=")?;
        if let Some(rest) = text.strip_prefix(b"none\n") {
            self.rest = rest;
            return Ok(());
        }
        loop {
            let (value, end, rest) = decimal_before(text, |byte| byte == b',' || byte == b'\n')
                .ok_or(refused(1, self.line))?;
            if let Some(slot) = pairs.number.get_mut(pairs.count) {
                *slot = value;
            }
            pairs.count += 1;
            text = rest;
            if end == b'\n' {
                self.rest = rest;
                return Ok(());
            }
        }
    }

    fn end(&self) -> Result<(), i64> {
        if self.rest.is_empty() {
            Ok(())
        } else {
            Err(refused(1, self.line + 1))
        }
    }
}

/// Reads one to nine digits without a leading zero, and the byte behind them, which is this one.
#[inline(always)]
pub fn decimal(text: &[u8], end: u8) -> Option<(u32, &[u8])> {
    let (value, _, rest) = decimal_before(text, |byte| byte == end)?;
    Some((value, rest))
}

/// Reads one to nine digits without a leading zero, and the byte behind them, which is such an end.
#[inline(always)]
fn decimal_before(text: &[u8], is_end: impl Fn(u8) -> bool) -> Option<(u32, u8, &[u8])> {
    let (&first, mut rest) = text.split_first()?;
    let mut value = u32::from(first.wrapping_sub(b'0'));
    if value > 9 {
        return None;
    }
    loop {
        let (&byte, behind) = rest.split_first()?;
        rest = behind;
        if is_end(byte) {
            return Some((value, byte, rest));
        }
        let digit = u32::from(byte.wrapping_sub(b'0'));
        // A digit behind a value of 0 makes a leading zero, one behind nine digits a tenth.
        if digit > 9 || value == 0 || value >= 100_000_000 {
            return None;
        }
        value = value * 10 + digit;
    }
}
