//! Writing images. Fields are pushed through a bit cursor in the order of the
//! image; the finished image is laid into the lent buffer in one go, so that a
//! refusal has written nothing.

use crate::bits::BitWriter;
use crate::decoded::{Marking, Record, Relation, Table, MOST_EVENTS};
use crate::event_set::from_word;
use crate::judge::{judge_marking, judge_table};
use crate::refusal::{DONE, TOO_LONG_OR_SHORT};

/// The largest counts that the 7 and 9 bits of a header hold.
const HEADER_EVENTS: usize = 127;
const HEADER_RELATIONS: usize = 511;

fn put_header(writer: &mut BitWriter, events: usize, relations: usize, firm: bool) {
    writer.put(events as u32, 7);
    writer.put(relations as u32, 9);
    writer.put_flag(firm);
    writer.put(0, 15);
}

fn put_relation(writer: &mut BitWriter, relation: &Relation) {
    writer.put(u32::from(relation.kind), 3);
    writer.put(u32::from(relation.left), 6);
    writer.put(u32::from(relation.right), 6);
    writer.put_flag(relation.bounded);
    writer.put(relation.time, 30);
    writer.put(0, 2);
}

/// All but the count, which old records did not have.
pub fn put_fields_of_old(writer: &mut BitWriter, record: &Record) {
    writer.put_flag(record.happened);
    writer.put(record.age, 30);
    writer.put_flag(record.included);
    writer.put_flag(record.pending);
    writer.put_flag(record.bounded);
    writer.put(record.deadline, 30);
}

fn put_record(writer: &mut BitWriter, record: &Record) {
    put_fields_of_old(writer, record);
    writer.put(record.count, 32);
}

fn put_classes(writer: &mut BitWriter, table: &Table, events: usize) {
    let controllable = from_word(table.controllable, MOST_EVENTS);
    let causable = from_word(table.causable, MOST_EVENTS);
    for event in 0..events {
        writer.put_flag(controllable.contains(&event));
        writer.put_flag(causable.contains(&event));
        writer.put(0, 6);
    }
}

/// The class bytes of the first so many events.
pub fn class_bytes(table: &Table, events: usize) -> Vec<u8> {
    let mut writer = BitWriter::new();
    put_classes(&mut writer, table, events);
    writer.into_bytes()
}

/// The image of a table as it stands, judged or not. Counts are cut to what
/// the header can hold, and the image is as long as its counts then ask.
pub fn table_image(table: &Table) -> Vec<u8> {
    let events = table.events.min(HEADER_EVENTS);
    let count = table.count.min(HEADER_RELATIONS);
    let mut writer = BitWriter::new();
    put_header(&mut writer, events, count, table.firm);
    put_classes(&mut writer, table, events);
    for number in 0..count {
        let relation = table.relations.get(number).copied();
        put_relation(&mut writer, &relation.unwrap_or(Relation::EMPTY));
    }
    writer.into_bytes()
}

/// The image of a marking as it stands, judged or not.
pub fn marking_image(marking: &Marking) -> Vec<u8> {
    let mut writer = BitWriter::new();
    for event in 0..marking.events.min(HEADER_EVENTS) {
        let record = marking.records.get(event).copied();
        put_record(&mut writer, &record.unwrap_or(Record::EMPTY));
    }
    writer.into_bytes()
}

/// Lays an image over the start of a lent buffer; later bytes stay.
fn lay(image: &[u8], buffer: &mut [u8]) -> u8 {
    match buffer.get_mut(..image.len()) {
        Some(start) => {
            start.copy_from_slice(image);
            DONE
        }
        None => TOO_LONG_OR_SHORT,
    }
}

/// Writes to the first 4 + events + 6 × relations bytes and leaves the later
/// ones.
pub fn write_table(table: &Table, buffer: &mut [u8]) -> u8 {
    match judge_table(table) {
        DONE => lay(&table_image(table), buffer),
        number => number,
    }
}

/// Writes to the first 12 × events bytes and leaves the later ones. Written
/// alone, the marking is judged against its own event count.
pub fn write_marking(marking: &Marking, buffer: &mut [u8]) -> u8 {
    match judge_marking(marking.events, marking) {
        DONE => lay(&marking_image(marking), buffer),
        number => number,
    }
}
