//! Reading the bit-packed images of table and marking.

use crate::bits::BitReader;
use crate::decoded::{Marking, ReadMarking, ReadTable, Record, Relation, Table};
use crate::event_set::{self, EventSet};
use crate::judge::{judge_counts, judge_event_count, understand_record, understand_relation};
use crate::refusal::{DONE, LENGTH, SPARE_BIT};

const HEADER_BYTES: usize = 4;
const RELATION_BYTES: usize = 6;
pub const RECORD_BYTES: usize = 12;

struct Header {
    events: usize,
    relations: usize,
    firm: bool,
    spare: u32,
}

fn header(cursor: &mut BitReader) -> Header {
    Header {
        events: cursor.take(7) as usize,
        relations: cursor.take(9) as usize,
        firm: cursor.take_flag(),
        spare: cursor.take(15),
    }
}

fn table_length(events: usize, relations: usize) -> usize {
    HEADER_BYTES + events + RELATION_BYTES * relations
}

/// How long the table image at the start of these bytes says it is. For the
/// station, which has no other mark of where the table ends.
pub fn length_the_header_says(bytes: &[u8]) -> usize {
    let header = header(&mut BitReader::new(bytes));
    table_length(header.events, header.relations)
}

/// The class bytes of so many events: the controllable and the causable ones.
pub fn take_classes(cursor: &mut BitReader, events: usize) -> Result<(u64, u64), u8> {
    let mut controllable = EventSet::new();
    let mut causable = EventSet::new();
    for event in 0..events {
        if cursor.take_flag() {
            controllable.insert(event);
        }
        if cursor.take_flag() {
            causable.insert(event);
        }
        if cursor.take(6) != 0 {
            return Err(SPARE_BIT);
        }
    }
    Ok((
        event_set::to_word(&controllable),
        event_set::to_word(&causable),
    ))
}

fn decode_table(bytes: &[u8]) -> Result<Table, u8> {
    if bytes.len() < HEADER_BYTES {
        return Err(LENGTH);
    }
    let mut cursor = BitReader::new(bytes);
    let header = header(&mut cursor);
    if header.spare != 0 {
        return Err(SPARE_BIT);
    }
    judge_counts(header.events, header.relations)?;
    if bytes.len() != table_length(header.events, header.relations) {
        return Err(LENGTH);
    }

    let mut table = Table::EMPTY;
    table.events = header.events;
    table.count = header.relations;
    table.firm = header.firm;

    (table.controllable, table.causable) = take_classes(&mut cursor, header.events)?;

    for place in table.relations.iter_mut().take(header.relations) {
        let relation = Relation {
            kind: cursor.take(3) as u8,
            left: cursor.take(6) as u8,
            right: cursor.take(6) as u8,
            bounded: cursor.take_flag(),
            time: cursor.take(30),
        };
        if cursor.take(2) != 0 {
            return Err(SPARE_BIT);
        }
        understand_relation(header.events, &relation)?;
        *place = relation;
    }
    Ok(table)
}

/// All but the count, which old records did not have. Fields are taken in the
/// order of the image, which is not the order in which the record declares them.
pub fn take_fields_of_old(cursor: &mut BitReader) -> Record {
    let happened = cursor.take_flag();
    let age = cursor.take(30);
    let included = cursor.take_flag();
    let pending = cursor.take_flag();
    let bounded = cursor.take_flag();
    let deadline = cursor.take(30);
    Record {
        age,
        deadline,
        happened,
        included,
        pending,
        bounded,
        count: 0,
    }
}

fn decode_marking(events: usize, bytes: &[u8]) -> Result<Marking, u8> {
    judge_event_count(events)?;
    if bytes.len() != RECORD_BYTES * events {
        return Err(LENGTH);
    }
    let mut cursor = BitReader::new(bytes);
    let mut marking = Marking::EMPTY;
    marking.events = events;
    for place in marking.records.iter_mut().take(events) {
        let mut record = take_fields_of_old(&mut cursor);
        record.count = cursor.take(32);
        understand_record(&record)?;
        *place = record;
    }
    Ok(marking)
}

pub fn read_table(bytes: &[u8]) -> ReadTable {
    match decode_table(bytes) {
        Ok(table) => ReadTable {
            number: DONE,
            table,
        },
        Err(number) => ReadTable {
            number,
            table: Table::EMPTY,
        },
    }
}

pub fn read_marking(events: usize, bytes: &[u8]) -> ReadMarking {
    ReadMarking::from_result(decode_marking(events, bytes))
}
