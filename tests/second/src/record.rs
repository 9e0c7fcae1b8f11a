//! One event's record, field by field, from the images.

use crate::decoded::Record;
use crate::image::{read_marking, read_table};
use crate::refusal::{DOES_NOT_EXIST, DONE, TOO_LONG_OR_SHORT};

const FIELDS: usize = 7;

/// In the order of the image, flags as 0 or 1.
fn fields_of(record: &Record) -> [u32; FIELDS] {
    [
        u32::from(record.happened),
        record.age,
        u32::from(record.included),
        u32::from(record.pending),
        u32::from(record.bounded),
        record.deadline,
        record.count,
    ]
}

/// Writes to the first seven places and leaves the later ones. The event is
/// judged before the room for its fields.
pub fn record(table: &[u8], marking: &[u8], event: usize, fields: &mut [u32]) -> u8 {
    let read = read_table(table);
    if read.number != DONE {
        return read.number;
    }
    let events = read.table.events;
    let start = read_marking(events, marking);
    if start.number != DONE {
        return start.number;
    }
    if event >= events {
        return DOES_NOT_EXIST;
    }
    match fields.get_mut(..FIELDS) {
        Some(places) => {
            places.copy_from_slice(&fields_of(&start.marking.records[event]));
            DONE
        }
        None => TOO_LONG_OR_SHORT,
    }
}
