//! Images in and out: a field is a shift of the word that holds it.

use crate::decoded::{Marking, Record, Relation, Table, RECORD_BYTES};
use crate::judge::{judge_table, marking_number, record_fits, relation_number};

const TICKS: u64 = (1 << 30) - 1;

/// The spare bits, and the relation.
#[inline]
fn relation_of(bytes: &[u8]) -> (u64, Relation) {
    let high = u16::from_be_bytes([bytes[0], bytes[1]]);
    let low = u32::from_be_bytes([bytes[2], bytes[3], bytes[4], bytes[5]]);
    let w = u64::from(high) << 32 | u64::from(low);
    let k = Relation {
        kind: (w >> 45) as u8,
        left: (w >> 39) as u8 & 63,
        right: (w >> 33) as u8 & 63,
        bounded: (w >> 32) & 1 == 1,
        time: ((w >> 2) & TICKS) as u32,
    };
    (w & 3, k)
}

fn read_into(image: &[u8], t: &mut Table) -> Result<(), u8> {
    let &[a, b, c, d, ref rest @ ..] = image else {
        return Err(1);
    };
    if c & 127 != 0 || d != 0 {
        return Err(2);
    }
    let events = usize::from(a >> 1);
    let count = usize::from(a & 1) << 8 | usize::from(b);
    if !(1..=64).contains(&events) || count > 256 {
        return Err(3);
    }
    if rest.len() != events + 6 * count {
        return Err(1);
    }
    let (classes, relations) = rest.split_at(events);
    for (event, class) in classes.iter().enumerate() {
        if class & 63 != 0 {
            return Err(2);
        }
        t.controllable |= u64::from(class >> 7) << event;
        t.causable |= u64::from(class >> 6 & 1) << event;
    }
    for (bytes, place) in relations.chunks_exact(6).zip(&mut t.relations) {
        let (spare, k) = relation_of(bytes);
        if spare != 0 {
            return Err(2);
        }
        match relation_number(events, &k) {
            0 => *place = k,
            number => return Err(number),
        }
    }
    t.events = events;
    t.count = count;
    t.firm = c >> 7 == 1;
    Ok(())
}

/// The table of an image; empty where it is refused.
pub fn read_table(image: &[u8], t: &mut Table) -> u8 {
    *t = Table::EMPTY;
    match read_into(image, t) {
        Ok(()) => 0,
        Err(number) => {
            *t = Table::EMPTY;
            number
        }
    }
}

/// Of a relation the bits before its time: kind, left, right, bounded.
#[inline]
fn ends_of(k: &Relation) -> u16 {
    let ends = u16::from(k.kind) << 6 | u16::from(k.left);
    (ends << 6 | u16::from(k.right)) << 1 | u16::from(k.bounded)
}

pub fn write_table(t: &Table, buffer: &mut [u8]) -> u8 {
    match judge_table(t) {
        0 => {}
        number => return number,
    }
    if buffer.len() < 4 + t.events + 6 * t.count {
        return 14;
    }
    let (header, rest) = buffer.split_at_mut(4);
    let (classes, relations) = rest.split_at_mut(t.events);
    let counts = (t.events as u32) << 25 | (t.count as u32) << 16;
    header.copy_from_slice(&(counts | u32::from(t.firm) << 15).to_be_bytes());
    for (event, class) in classes.iter_mut().enumerate() {
        *class = (t.controllable >> event & 1) as u8 * 128 + (t.causable >> event & 1) as u8 * 64;
    }
    for (k, bytes) in t.used().iter().zip(relations.chunks_exact_mut(6)) {
        let (high, low) = bytes.split_at_mut(2);
        high.copy_from_slice(&ends_of(k).to_be_bytes());
        low.copy_from_slice(&(k.time << 2).to_be_bytes());
    }
    0
}

/// Four bytes as a number, the highest first.
#[inline]
fn number_of(bytes: &[u8]) -> u32 {
    u32::from_be_bytes([bytes[0], bytes[1], bytes[2], bytes[3]])
}

/// The record whose first bytes these are, beside its count.
#[inline]
pub(crate) fn state_of(bytes: &[u8], count: u32) -> Record {
    let (high, low) = (number_of(&bytes[..4]), number_of(&bytes[4..8]));
    Record {
        age: high >> 1 & TICKS as u32,
        deadline: low & TICKS as u32,
        happened: high >> 31 == 1,
        included: high & 1 == 1,
        pending: low >> 31 == 1,
        bounded: low >> 30 & 1 == 1,
        count,
    }
}

#[inline]
fn record_of(bytes: &[u8]) -> Record {
    state_of(bytes, number_of(&bytes[8..]))
}

/// The marking of an image; empty where it is refused.
pub fn read_marking(events: usize, image: &[u8], m: &mut Marking) -> u8 {
    *m = Marking::EMPTY;
    if !(1..=64).contains(&events) {
        return 3;
    }
    if image.len() != RECORD_BYTES * events {
        return 1;
    }
    for (bytes, place) in image.chunks_exact(RECORD_BYTES).zip(&mut m.records) {
        let record = record_of(bytes);
        if !record_fits(&record) {
            *m = Marking::EMPTY;
            return 7;
        }
        *place = record;
    }
    m.events = events;
    0
}

pub fn write_marking(m: &Marking, buffer: &mut [u8]) -> u8 {
    match marking_number(m) {
        0 => {}
        number => return number,
    }
    if buffer.len() < RECORD_BYTES * m.events {
        return 14;
    }
    let places = buffer.chunks_exact_mut(RECORD_BYTES);
    for (r, bytes) in m.used().iter().zip(places) {
        let high = u32::from(r.happened) << 31 | r.age << 1 | u32::from(r.included);
        let low = u32::from(r.pending) << 31 | u32::from(r.bounded) << 30 | r.deadline;
        let (state, count) = bytes.split_at_mut(8);
        state.copy_from_slice(&(u64::from(high) << 32 | u64::from(low)).to_be_bytes());
        count.copy_from_slice(&r.count.to_be_bytes());
    }
    0
}

pub fn fresh(events: usize, m: &mut Marking) -> u8 {
    *m = Marking::EMPTY;
    if !(1..=64).contains(&events) {
        return 3;
    }
    m.events = events;
    m.used_mut().fill(Record {
        included: true,
        ..Record::EMPTY
    });
    0
}
