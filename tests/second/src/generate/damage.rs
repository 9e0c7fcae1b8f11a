//! Faults: in decoded values, also such as no image can hold, and in images.

use crate::carrying::OLD_RECORD_BYTES;
use crate::decoded::{Marking, Record, Relation, Table, MOST_EVENTS, MOST_RELATIONS, TIME_LIMIT};
use crate::image::RECORD_BYTES;
use crate::rng::Rng;

/// Past the limit, and past what 30 bits can hold.
const TOO_LARGE: [u32; 6] = [
    TIME_LIMIT + 1,
    1_073_741_823,
    1_073_741_824,
    2_147_483_647,
    2_147_483_648,
    u32::MAX,
];

fn garbage_relation(rng: &mut Rng) -> Relation {
    Relation {
        kind: rng.byte(),
        left: rng.byte(),
        right: rng.byte(),
        bounded: rng.flag(),
        time: rng.word(),
    }
}

fn garbage_record(rng: &mut Rng) -> Record {
    Record {
        age: rng.word(),
        deadline: rng.word(),
        happened: rng.flag(),
        included: rng.flag(),
        pending: rng.flag(),
        bounded: rng.flag(),
        count: rng.word(),
    }
}

/// No fault at all: no call looks at these places.
pub fn fill_unused_places(rng: &mut Rng, table: &mut Table, marking: &mut Marking) {
    for relation in table.relations.iter_mut().skip(table.count) {
        *relation = garbage_relation(rng);
    }
    for record in marking.records.iter_mut().skip(marking.events) {
        *record = garbage_record(rng);
    }
    for event in table.events..MOST_EVENTS {
        let worth = 2u64.pow(event as u32);
        if rng.flag() {
            table.controllable |= worth;
        }
        if rng.flag() {
            table.causable |= worth;
        }
    }
}

/// The first, the last or any of so many places.
fn some_place(rng: &mut Rng, places: usize) -> usize {
    match rng.below(3) {
        0 => 0,
        1 => places.saturating_sub(1),
        _ => rng.below(places),
    }
}

fn damage_relation(rng: &mut Rng, events: usize, relation: &mut Relation) {
    // An event number that does not exist. With 64 events no image holds one.
    let missing = events.min(200) as u8;
    match rng.below(8) {
        0 | 1 => relation.kind = rng.one_of([0, 6, 7, 8, 9, 255]),
        2 => relation.left = rng.one_of([missing, 63.max(missing), 64, 200, 255]),
        3 => relation.right = rng.one_of([missing, 63.max(missing), 64, 200, 255]),
        4 => relation.bounded = !relation.bounded,
        5 => relation.time = rng.one_of(TOO_LARGE),
        6 => {
            // Right in one kind, wrong in another.
            relation.bounded = rng.flag();
            relation.time = rng.one_of([0, 1, TIME_LIMIT]);
        }
        _ => *relation = garbage_relation(rng),
    }
}

fn damage_table_once(rng: &mut Rng, table: &mut Table) {
    match rng.below(12) {
        0 => table.events = rng.one_of([0, 65, 70, 127, 128, usize::MAX]),
        1 => table.count = rng.one_of([257, 300, 511, 512, usize::MAX]),
        2 => {
            // Fewer events than the relations speak of, or more relations
            // than were filled in.
            if rng.flag() {
                table.events = rng.between(1, table.events.clamp(1, MOST_EVENTS));
            } else {
                table.count = rng.between(table.count.min(MOST_RELATIONS), MOST_RELATIONS);
            }
        }
        _ => {
            let used = table.count.min(MOST_RELATIONS);
            let place = some_place(rng, used);
            damage_relation(rng, table.events, &mut table.relations[place]);
        }
    }
}

/// One fault, sometimes two. It may happen to be none.
pub fn damage_table(rng: &mut Rng, table: &mut Table) {
    for _ in 0..rng.one_of([1, 1, 2]) {
        damage_table_once(rng, table);
    }
}

/// A fault in a record, the event count untouched.
pub fn damage_record(rng: &mut Rng, marking: &mut Marking) {
    let used = marking.events.min(MOST_EVENTS);
    let place = some_place(rng, used);
    let record = &mut marking.records[place];
    let too_large = rng.one_of(TOO_LARGE);
    match rng.below(14) {
        0 => {
            record.happened = false;
            record.age = rng.one_of([1, TIME_LIMIT]);
            record.count = 0;
        }
        1 => {
            record.happened = true;
            record.age = too_large;
            record.count = record.count.max(1);
        }
        2 => {
            record.pending = false;
            record.bounded = true;
        }
        3 => {
            record.pending = false;
            record.bounded = false;
            record.deadline = rng.one_of([1, 5, TIME_LIMIT]);
        }
        4 => {
            record.pending = true;
            record.bounded = false;
            record.deadline = rng.one_of([1, 5, TIME_LIMIT]);
        }
        5 | 6 => {
            record.pending = true;
            record.bounded = true;
            record.deadline = too_large;
        }
        // Nothing but the count disagrees, one way and the other.
        7..=9 => {
            record.happened = true;
            record.count = 0;
        }
        10..=12 => {
            record.happened = false;
            record.age = 0;
            record.count = rng.one_of([1, 2, 256, 65_536, 16_777_216, 2_147_483_648, u32::MAX]);
        }
        _ => *record = garbage_record(rng),
    }
}

pub fn damage_marking(rng: &mut Rng, marking: &mut Marking) {
    if rng.chance(60) {
        damage_record(rng, marking);
    }
    if rng.chance(50) {
        marking.events = rng.one_of([
            0,
            marking.events.saturating_sub(1),
            marking.events.saturating_add(1),
            64,
            65,
            70,
            usize::MAX,
        ]);
    }
}

/// Turns over the bit at this place, the first bit of the image being 0.
fn flip(image: &mut [u8], bit: usize) {
    if let Some(byte) = image.get_mut(bit / 8) {
        *byte ^= 2u8.pow(7 - (bit % 8) as u32);
    }
}

/// The header's last 15 bits; the one before them is firm.
fn spare_bit_of_header(rng: &mut Rng) -> usize {
    rng.between(17, 31)
}

/// Every spare bit behind the header of an image with these counts.
fn spare_bits(events: usize, relations: usize) -> [Vec<usize>; 2] {
    let mut classes = Vec::new();
    for event in 0..events {
        let start = 32 + 8 * event;
        classes.extend(start + 2..start + 8);
    }
    let mut of_relations = Vec::new();
    for number in 0..relations {
        let end = 32 + 8 * events + 48 * (number + 1);
        of_relations.extend(end - 2..end);
    }
    [classes, of_relations]
}

fn change_length(rng: &mut Rng, image: &mut Vec<u8>, unit: usize) {
    match rng.below(6) {
        0 | 1 => {
            image.pop();
        }
        2 | 3 => image.push(rng.one_of([0, 255])),
        4 => image.truncate(image.len().saturating_sub(unit)),
        _ => image.truncate(rng.below(image.len())),
    }
}

/// One fault in the image of this table.
pub fn damage_table_image(rng: &mut Rng, table: &Table, image: &mut Vec<u8>) {
    match rng.below(12) {
        0 | 1 => change_length(rng, image, 6),
        2 => image.truncate(rng.below(4)),
        3..=6 => flip(image, spare_bit_of_header(rng)),
        7 | 8 => {
            let spare = spare_bits(table.events.min(127), table.count.min(511));
            let part = &spare[rng.below(2)];
            if let Some(bit) = rng.pick(part) {
                flip(image, bit);
            }
        }
        9 => {
            // A header that asks for other counts than the image has.
            let bit = rng.below(16);
            flip(image, bit);
        }
        _ => {
            let bit = rng.below(8 * image.len());
            flip(image, bit);
        }
    }
}

/// One fault in the image of a marking.
pub fn damage_marking_image(rng: &mut Rng, image: &mut Vec<u8>) {
    let events = image.len() / RECORD_BYTES;
    let first_bit = 8 * RECORD_BYTES * some_place(rng, events);
    match rng.below(10) {
        0..=3 => change_length(rng, image, RECORD_BYTES),
        // As long as an image of the old form.
        4 => image.truncate(OLD_RECORD_BYTES * events),
        // Happened turned over, its count left.
        5 => flip(image, first_bit),
        // A bit of the count, which is the last 32 of a record.
        6 => flip(image, first_bit + 8 * OLD_RECORD_BYTES + rng.below(32)),
        _ => {
            let bit = rng.below(8 * image.len());
            flip(image, bit);
        }
    }
}

/// One fault in the image of a marking of the old form.
pub fn damage_old_image(rng: &mut Rng, image: &mut Vec<u8>) {
    let events = image.len() / OLD_RECORD_BYTES;
    let first_bit = 8 * OLD_RECORD_BYTES * some_place(rng, events);
    match rng.below(8) {
        0..=2 => change_length(rng, image, OLD_RECORD_BYTES),
        // Happened, pending or bounded turned over: the fields behind it are left.
        3 | 4 => flip(image, first_bit + rng.one_of([0, 32, 33])),
        _ => {
            let bit = rng.below(8 * image.len());
            flip(image, bit);
        }
    }
}
