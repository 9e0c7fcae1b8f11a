//! Cases at the limits of the call that carries an old marking over.

use super::{
    flipped, lengths_about, marking, markings_with_last, markings_with_one_bad, records, resized,
    EVENT_COUNTS, SMALL, TIMES_OF_AN_IMAGE,
};
use second::case::Case;
use second::generate::{marking_image, old_marking_image};
use second::{Marking, OLD_RECORD_BYTES, RECORD_BYTES};

fn carry_of(events: usize, old: Vec<u8>, room: usize) -> Case {
    Case::CarryMarking {
        events,
        old,
        buffer: (0..room).map(|place| 0xA5 ^ place as u8).collect(),
    }
}

/// Room for the new image. Past the limit a length past the limit will do.
fn room(events: usize) -> usize {
    RECORD_BYTES * events.min(66)
}

/// Every event count, the old image about its length, and as long as one of
/// today; then none, and one record, which is as long as some counts ask once
/// their lengths are cut to 64 bits.
fn by_length() -> Vec<Case> {
    let mut cases = Vec::new();
    for events in EVENT_COUNTS {
        let old = resized(
            &old_marking_image(&marking(events.min(64))),
            OLD_RECORD_BYTES * events.min(66),
        );
        let today = RECORD_BYTES * events.min(66);
        let about = lengths_about(old.len(), OLD_RECORD_BYTES);
        for length in about.into_iter().chain([today, 0, OLD_RECORD_BYTES]) {
            cases.push(carry_of(events, resized(&old, length), room(events) + 3));
        }
    }
    cases
}

/// A marking that is carried over, or refused for a record, with room about the
/// new image's length, for the old form alone, and none.
fn by_room(marking: &Marking) -> Vec<Case> {
    let events = marking.events;
    let about = lengths_about(room(events), RECORD_BYTES);
    about
        .into_iter()
        .chain([0, OLD_RECORD_BYTES * events])
        .map(|room| carry_of(events, old_marking_image(marking), room))
        .collect()
}

pub fn carry_marking() -> Vec<Case> {
    let mut cases = by_length();
    let mut to_every_room = markings_with_one_bad();
    to_every_room.extend((1..=64).map(marking));
    cases.extend(to_every_room.iter().flat_map(by_room));
    // A wrong length, a bad record and no room: the length comes first.
    let bad = old_marking_image(&to_every_room[0]);
    cases.push(carry_of(SMALL, bad, 0));
    for marking in markings_with_last(records(TIMES_OF_AN_IMAGE)) {
        let old = old_marking_image(&marking);
        cases.push(carry_of(SMALL, old, room(SMALL) + 3));
    }
    let small = old_marking_image(&marking(SMALL));
    for bit in 0..8 * small.len() {
        cases.push(carry_of(SMALL, flipped(&small, bit), room(SMALL)));
    }
    // Images of today whose length is an old one's, of half as many events more.
    for events in [2, 4, 42] {
        let today = marking_image(&marking(events));
        cases.push(carry_of(events / 2 * 3, today, room(events / 2 * 3)));
    }
    cases
}

#[cfg(test)]
mod tests {
    use super::*;

    /// A short buffer comes last, and each number of the old image comes up with
    /// one.
    #[test]
    fn each_number_comes_up_with_too_little_room() {
        let mut seen = Vec::new();
        for case in carry_marking() {
            let Case::CarryMarking {
                events,
                old,
                buffer,
            } = &case
            else {
                panic!("{} is another call", case.name());
            };
            let judged = carry_of(*events, old.clone(), 800).answer().number();
            let short = buffer.len() < room(*events);
            let expected = if judged == 0 && short { 14 } else { judged };
            assert_eq!(case.answer().number(), expected);
            if short && !seen.contains(&judged) {
                seen.push(judged);
            }
        }
        seen.sort();
        assert_eq!(seen, [0, 1, 7]);
    }

    /// A length that was multiplied out in 64 bits would fit these.
    #[test]
    fn lengths_past_64_bits_come_up() {
        let fits = |case: &Case| match case {
            Case::CarryMarking { events, old, .. } => {
                *events > 64 && old.len() == events.wrapping_mul(OLD_RECORD_BYTES)
            }
            _ => false,
        };
        let fitting: Vec<Case> = carry_marking().into_iter().filter(fits).collect();
        assert!(fitting.len() >= 4);
        assert!(fitting.iter().all(|case| case.answer().number() == 3));
    }
}
