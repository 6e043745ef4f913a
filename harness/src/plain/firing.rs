//! Markings, enabling and restarts.

use super::card::{Memory, Net, Tokens, PLACES, TRANSITIONS};

impl Net {
    /// The set of transitions enabled at a marking, transition 0 in the lowest bit.
    #[inline(always)]
    fn enabled(&self, marking: &Tokens) -> u32 {
        let mut set = 0;
        for (index, transition) in self.transition[..self.transitions].iter().enumerate() {
            // Without an early exit this is one comparison of vectors.
            let mut covered = true;
            for (take, tokens) in transition.take.iter().zip(marking) {
                covered &= take <= tokens;
            }
            set |= u32::from(covered) << index;
        }
        set
    }
}

/// The marking between two firings, and when each enabled transition last restarted.
pub struct State<'n> {
    net: &'n Net,
    memory: Memory,
    pub marking: Tokens,
    enabled: u32,
    /// The stamp of the last restart: an instant in a replay, a firing in an order. Of no meaning
    /// where the transition is not enabled.
    pub since: [u32; TRANSITIONS],
}

impl<'n> State<'n> {
    pub fn new(net: &'n Net, memory: Memory) -> Self {
        State {
            net,
            memory,
            marking: net.start,
            enabled: net.enabled(&net.start),
            since: [0; TRANSITIONS],
        }
    }

    #[inline(always)]
    pub fn is_enabled(&self, transition: usize) -> bool {
        (self.enabled >> transition) & 1 != 0
    }

    /// Fires an enabled transition; false, and nothing changed, if a place would pass 255 tokens.
    #[inline(always)]
    pub fn fire(&mut self, fired: usize, stamp: u32) -> bool {
        let transition = &self.net.transition[fired];
        let (mut middle, mut after) = ([0; PLACES], [0; PLACES]);
        let mut passed = false;
        for place in 0..PLACES {
            middle[place] = self.marking[place].wrapping_sub(transition.take[place]);
            after[place] = middle[place].wrapping_add(transition.give[place]);
            passed |= after[place] < middle[place];
        }
        if passed {
            return false;
        }
        let lasting = match self.memory {
            Memory::Intermediate => self.net.enabled(&middle) & !(1 << fired),
            Memory::Atomic => self.enabled & !(1 << fired),
            Memory::Carry => self.enabled,
        };
        self.marking = after;
        self.enabled = self.net.enabled(&after);
        let mut restarted = self.enabled & !lasting;
        while restarted != 0 {
            self.since[restarted.trailing_zeros() as usize] = stamp;
            restarted &= restarted - 1;
        }
        true
    }
}
