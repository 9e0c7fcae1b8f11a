//! A marking of the old form, whose records had no count, carried over to the
//! form of today.

use crate::bits::BitReader;
use crate::decoded::{Marking, Record};
use crate::image::take_fields_of_old;
use crate::judge::{judge_event_count, understand_record};
use crate::refusal::LENGTH;
use crate::writing::write_marking;

pub const OLD_RECORD_BYTES: usize = 8;

/// Nobody counted, so of an event that has happened only once is certain.
/// The count that is given here fits, so a record is refused exactly where it
/// breaks the rules that it had without one.
fn carry_record(cursor: &mut BitReader) -> Result<Record, u8> {
    let mut record = take_fields_of_old(cursor);
    record.count = if record.happened { 1 } else { 0 };
    understand_record(&record)?;
    Ok(record)
}

fn decode_old(events: usize, old: &[u8]) -> Result<Marking, u8> {
    judge_event_count(events)?;
    if old.len() != OLD_RECORD_BYTES * events {
        return Err(LENGTH);
    }
    let mut cursor = BitReader::new(old);
    let mut marking = Marking::EMPTY;
    marking.events = events;
    for place in marking.records.iter_mut().take(events) {
        *place = carry_record(&mut cursor)?;
    }
    Ok(marking)
}

/// Writes to the first 12 × events bytes and leaves the later ones. The old
/// image is judged before the room for the new one.
pub fn carry_marking(events: usize, old: &[u8], buffer: &mut [u8]) -> u8 {
    match decode_old(events, old) {
        Ok(marking) => write_marking(&marking, buffer),
        Err(number) => number,
    }
}
