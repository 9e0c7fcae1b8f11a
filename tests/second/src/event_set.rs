//! Event sets. Inside the package a set is a `BTreeSet` of event numbers; the
//! 64-bit word appears only where a caller hands one in or takes one out.

use crate::decoded::MOST_EVENTS;
use std::collections::BTreeSet;

pub type EventSet = BTreeSet<usize>;

/// The members below `events`; the bits above are unused places.
pub fn from_word(word: u64, events: usize) -> EventSet {
    let mut set = EventSet::new();
    let mut rest = word;
    for event in 0..events.min(MOST_EVENTS) {
        if rest % 2 == 1 {
            set.insert(event);
        }
        rest /= 2;
    }
    set
}

pub fn to_word(set: &EventSet) -> u64 {
    let mut word = 0;
    for event in (0..MOST_EVENTS).rev() {
        word = word * 2 + u64::from(set.contains(&event));
    }
    word
}

/// How many events the set holds.
pub fn size(set: u64) -> u8 {
    from_word(set, MOST_EVENTS).len() as u8
}

/// The lowest event of the set, 64 for none.
pub fn lowest(set: u64) -> u8 {
    match from_word(set, MOST_EVENTS).first() {
        Some(&event) => event as u8,
        None => MOST_EVENTS as u8,
    }
}
