//! Markings of the old form, and cases of the call that carries them over.

use super::{damage, marking_image, room_for_marking, some_buffer, some_event_count, sound_pair};
use crate::bits::BitWriter;
use crate::carrying::OLD_RECORD_BYTES;
use crate::case::Case;
use crate::decoded::{Marking, MOST_EVENTS};
use crate::rng::Rng;
use crate::writing::put_fields_of_old;

/// The image that a marking had before there were counts, judged or not.
pub fn old_marking_image(marking: &Marking) -> Vec<u8> {
    let mut writer = BitWriter::new();
    for record in marking.records.iter().take(marking.events) {
        put_fields_of_old(&mut writer, record);
    }
    writer.into_bytes()
}

/// An image of the old form, damaged in so many of a hundred cases.
fn some_old_image(rng: &mut Rng, marking: &Marking, damaged_percent: usize) -> Vec<u8> {
    if !rng.chance(damaged_percent) {
        return old_marking_image(marking);
    }
    let mut marking = *marking;
    if rng.chance(60) {
        damage::damage_record(rng, &mut marking);
    }
    let mut image = old_marking_image(&marking);
    if rng.chance(50) {
        damage::damage_old_image(rng, &mut image);
    }
    image
}

/// So many events that an image of today is as long as an old one of theirs.
fn events_by_old_length(image: &[u8]) -> usize {
    image.len() / OLD_RECORD_BYTES
}

pub fn carry_marking_case(rng: &mut Rng) -> Case {
    let marking = sound_pair(rng).marking;
    let (events, old) = match rng.below(24) {
        // The image is of today already: another length, or by its length one
        // of other events.
        0 => (marking.events, marking_image(&marking)),
        1 => {
            let image = marking_image(&marking);
            (events_by_old_length(&image), image)
        }
        // Right but for its events: none, or one too many.
        2 => {
            let events = MOST_EVENTS + 1;
            (events, vec![0; OLD_RECORD_BYTES * events])
        }
        3 => (0, Vec::new()),
        _ => {
            let events = if rng.chance(60) {
                marking.events
            } else {
                some_event_count(rng, marking.events)
            };
            (events, some_old_image(rng, &marking, 40))
        }
    };
    let mut buffer = some_buffer(rng, room_for_marking(events));
    if rng.chance(8) {
        // Room for the old form alone.
        buffer.truncate(old.len());
    }
    Case::CarryMarking {
        events,
        old,
        buffer,
    }
}
