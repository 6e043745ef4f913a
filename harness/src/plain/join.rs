//! Two nets on one drawing.

use super::card::{Net, Pairs, Tokens, Transition, PLACES, TRANSITIONS};
use super::refused;

/// The joined net's places.
pub struct Layout {
    places: usize,
    /// The joined place of each of the second net's places.
    place: [usize; PLACES],
}

/// Of a place of the second net that is in no pair.
const UNPAIRED: usize = PLACES;

impl Layout {
    /// Where the places go, or 12, 13 or 14.
    pub fn new(first: &Net, second: &Net, pairs: &Pairs) -> Result<Self, i64> {
        let mut place = paired(first, second, pairs).ok_or(refused(12, 0))?;
        let mut places = first.places;
        for (place, start) in place.iter_mut().zip(second.start).take(second.places) {
            if *place == UNPAIRED {
                *place = places;
                places += 1;
            } else if first.start[*place] != start {
                return Err(refused(13, 0));
            }
        }
        if places > PLACES || first.transitions + second.transitions > TRANSITIONS {
            return Err(refused(14, 0));
        }
        Ok(Layout { places, place })
    }

    /// A transition's weights, from the second net's places to the joined ones.
    #[inline(always)]
    fn spread(&self, weights: &Tokens, places: usize) -> Tokens {
        let mut joined = [0; PLACES];
        for (&place, &weight) in self.place.iter().zip(weights).take(places) {
            joined[place] = weight;
        }
        joined
    }
}

/// The first net's place that each of the second's is paired with, if the list is right.
fn paired(first: &Net, second: &Net, pairs: &Pairs) -> Option<[usize; PLACES]> {
    let mut place = [UNPAIRED; PLACES];
    let mut seen = [false; PLACES];
    // A list without a slot for each of its numbers has more pairs than there are places.
    let numbers = pairs.number.get(..pairs.count)?;
    let both = numbers.chunks_exact(2);
    if !both.remainder().is_empty() {
        return None;
    }
    for pair in both {
        let (one, other) = (pair[0] as usize, pair[1] as usize);
        if one >= first.places || other >= second.places {
            return None;
        }
        if seen[one] || place[other] != UNPAIRED {
            return None;
        }
        seen[one] = true;
        place[other] = one;
    }
    Some(place)
}

impl Net {
    /// Puts the second net's places and transitions behind this one's own.
    pub fn join(&mut self, second: &Net, layout: &Layout) {
        for (&place, &start) in layout.place.iter().zip(&second.start).take(second.places) {
            self.start[place] = start;
        }
        let slots = self.transition[self.transitions..].iter_mut();
        for (slot, old) in slots.zip(&second.transition[..second.transitions]) {
            *slot = Transition {
                take: layout.spread(&old.take, second.places),
                give: layout.spread(&old.give, second.places),
                ..*old
            };
        }
        self.places = layout.places;
        self.transitions += second.transitions;
    }
}
