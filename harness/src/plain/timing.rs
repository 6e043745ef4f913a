//! Earliest instants under windows, firing by firing.
//!
//! The instants are the longest paths from instant 0 along three kinds of bounds: order
//! (S(i) >= S(i-1)), lower (S(i) >= S(o) + earliest) and upper (S(o) >= S(i) - latest). Order and
//! lower bounds lead forward and upper bounds backward, so one sweep each way follows a path through
//! one bend, and a path that visits no firing twice has at most one bend back for every two firings.

use super::card::FIRINGS;

#[derive(Clone, Copy)]
struct Window {
    origin: u32,
    earliest: u32,
    latest: u32,
}

pub struct Timing {
    firings: usize,
    window: [Window; FIRINGS + 1],
    instant: [u32; FIRINGS + 1],
}

impl Timing {
    pub fn new() -> Self {
        const NONE: Window = Window {
            origin: 0,
            earliest: 0,
            latest: 0,
        };
        Timing {
            firings: 0,
            window: [NONE; FIRINGS + 1],
            instant: [0; FIRINGS + 1],
        }
    }

    /// Instant 0 and the instants of the firings.
    pub fn instants(&self) -> &[u32] {
        &self.instant[..=self.firings]
    }

    /// Appends a firing; false if the firings up to it have no timing.
    ///
    /// The firings before it have one, so every cycle of bounds that gains passes through the new
    /// upper bound. Hence without such a cycle the new instant is final as first set, and if it
    /// rises later, or instant 0 does, there is no timing.
    #[inline(always)]
    pub fn extend(&mut self, origin: u32, earliest: u32, latest: u32) -> bool {
        self.firings += 1;
        let last = self.firings;
        self.window[last] = Window {
            origin,
            earliest,
            latest,
        };
        let start = self.instant[origin as usize];
        let instant = self.instant[last - 1].max(start + earliest);
        self.instant[last] = instant;
        instant - start <= latest || self.settle()
    }

    /// Raises instants until all bounds hold; false if they cannot.
    fn settle(&mut self) -> bool {
        let last = self.firings;
        let window = &self.window[..=last];
        let instant = &mut self.instant[..=last];
        // The firings whose instants may have risen since their upper bounds were looked at.
        let (mut low, mut high) = (last, last);
        for _ in 0..=last / 2 + 1 {
            let mut lowest = last;
            let mut firing = high;
            while firing >= low {
                let Window { origin, latest, .. } = window[firing];
                let origin = origin as usize;
                let least = instant[firing].saturating_sub(latest);
                if instant[origin] < least {
                    if origin == 0 {
                        return false;
                    }
                    instant[origin] = least;
                    lowest = lowest.min(origin);
                    low = low.min(origin);
                }
                firing -= 1;
            }
            if lowest == last {
                return true;
            }
            (low, high) = (last, 0);
            let mut before = instant[lowest];
            for firing in lowest + 1..=last {
                let Window {
                    origin, earliest, ..
                } = window[firing];
                let least = before.max(instant[origin as usize] + earliest);
                if instant[firing] < least {
                    if firing == last {
                        return false;
                    }
                    instant[firing] = least;
                    low = low.min(firing);
                    high = firing;
                }
                before = instant[firing];
            }
            if high == 0 {
                return true;
            }
        }
        false
    }
}
