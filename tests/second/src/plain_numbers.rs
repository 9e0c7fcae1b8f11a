//! A table built from plain numbers, and told back in them: whether it is firm,
//! a class byte for each event, five numbers for each relation.

use crate::bits::BitReader;
use crate::decoded::{Relation, Table};
use crate::image::{read_table, take_classes};
use crate::judge::judge_counts;
use crate::refusal::{DOES_NOT_EXIST, DONE, LENGTH, SPARE_BIT, TOO_LONG_OR_SHORT};
use crate::writing::{class_bytes, write_table};

/// Kind, left, right, bounded and time.
pub const NUMBERS: usize = 5;

/// The decoded relation. A number that its field has no room for becomes one
/// that the field can hold and that breaks the same rule: no kind and no event
/// is 255, and the largest time fits no kind.
fn relation_from(numbers: &[u32; NUMBERS]) -> Relation {
    let held = |number: u32| u8::try_from(number).unwrap_or(u8::MAX);
    let [kind, left, right, bounded, time] = *numbers;
    Relation {
        kind: held(kind),
        left: held(left),
        right: held(right),
        bounded: bounded == 1,
        time: if bounded > 1 { u32::MAX } else { time },
    }
}

/// A flag as 0 or 1.
pub fn numbers_of(relation: &Relation) -> [u32; NUMBERS] {
    [
        u32::from(relation.kind),
        u32::from(relation.left),
        u32::from(relation.right),
        u32::from(relation.bounded),
        relation.time,
    ]
}

/// The header has one bit for it, so that any larger number would need bits
/// that are spare. A decoded table cannot hold one, so it is refused here.
fn firm_from(number: u32) -> Result<bool, u8> {
    match number {
        0 => Ok(false),
        1 => Ok(true),
        _ => Err(SPARE_BIT),
    }
}

/// The decoded table, its relations not judged yet.
fn table_from(events: usize, firm: u32, classes: &[u8], relations: &[u32]) -> Result<Table, u8> {
    let firm = firm_from(firm)?;
    let (fives, left_over) = relations.as_chunks::<NUMBERS>();
    judge_counts(events, fives.len())?;
    if classes.len() != events || !left_over.is_empty() {
        return Err(LENGTH);
    }
    let mut table = Table::EMPTY;
    table.events = events;
    table.count = fives.len();
    table.firm = firm;
    let mut cursor = BitReader::new(classes);
    (table.controllable, table.causable) = take_classes(&mut cursor, events)?;
    for (place, numbers) in table.relations.iter_mut().zip(fives) {
        *place = relation_from(numbers);
    }
    Ok(table)
}

/// Writes the image of the table that these numbers are to a lent buffer.
pub fn build_table(
    events: usize,
    firm: u32,
    classes: &[u8],
    relations: &[u32],
    buffer: &mut [u8],
) -> u8 {
    match table_from(events, firm, classes, relations) {
        Ok(table) => write_table(&table, buffer),
        Err(number) => number,
    }
}

/// Writes a relation's numbers to the first five places and leaves the later
/// ones. The relation is judged before the room for its numbers.
pub fn tell_relation(image: &[u8], relation: usize, places: &mut [u32]) -> u8 {
    let read = read_table(image);
    if read.number != DONE {
        return read.number;
    }
    if relation >= read.table.count {
        return DOES_NOT_EXIST;
    }
    match places.get_mut(..NUMBERS) {
        Some(places) => {
            places.copy_from_slice(&numbers_of(&read.table.relations[relation]));
            DONE
        }
        None => TOO_LONG_OR_SHORT,
    }
}

/// Writes an event's class byte to the lent place.
pub fn tell_class(image: &[u8], event: usize, place: &mut u8) -> u8 {
    let read = read_table(image);
    if read.number != DONE {
        return read.number;
    }
    match class_bytes(&read.table, read.table.events).get(event) {
        Some(byte) => {
            *place = *byte;
            DONE
        }
        None => DOES_NOT_EXIST,
    }
}

/// Writes 1 to the lent place for a firm table, 0 for any other.
pub fn tell_firm(image: &[u8], place: &mut u32) -> u8 {
    let read = read_table(image);
    if read.number == DONE {
        *place = u32::from(read.table.firm);
    }
    read.number
}
