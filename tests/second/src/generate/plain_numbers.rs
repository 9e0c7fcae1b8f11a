//! Cases of the calls that build a table from plain numbers and tell it back,
//! and the faults of plain numbers.

use super::{room_for_table, some_buffer, some_number, some_table_image, sound_pair};
use crate::case::Case;
use crate::decoded::{Relation, TIME_LIMIT};
use crate::plain_numbers::{numbers_of, NUMBERS};
use crate::rng::Rng;
use crate::writing::class_bytes;

/// A table as plain numbers.
struct Numbers {
    events: usize,
    firm: u32,
    classes: Vec<u8>,
    relations: Vec<u32>,
}

/// Right for its field once it is cut down to some width, and wrong as it is.
fn too_wide(rng: &mut Rng, number: u32, field_width: u32) -> u32 {
    let width = rng.one_of([field_width, field_width, 8, 16, 30, 31]);
    number.saturating_add(2u32.pow(width))
}

/// A fault in one of a relation's five numbers.
fn damage_relation(rng: &mut Rng, events: usize, relation: &mut [u32]) {
    let [kind, left, right, bounded, time] = relation else {
        return;
    };
    let missing = events.min(1000) as u32;
    match rng.below(12) {
        0 => *kind = rng.one_of([0, 6, 7, 8, 9, 255, 257, u32::MAX]),
        1 => *kind = too_wide(rng, *kind, 3),
        2 => *left = rng.one_of([missing, 63, 64, 200, 256, u32::MAX]),
        3 => *left = too_wide(rng, *left, 6),
        4 => *right = rng.one_of([missing, 63, 64, 200, 256, u32::MAX]),
        5 => *right = too_wide(rng, *right, 6),
        6 => *bounded = rng.one_of([2, 3, 256, 257, u32::MAX]),
        7 => *bounded = too_wide(rng, *bounded, 1),
        8 => *bounded = 1 - (*bounded).min(1),
        9 => *time = rng.one_of([TIME_LIMIT + 1, 1_073_741_823, 2_147_483_648, u32::MAX]),
        10 => *time = too_wide(rng, *time, 30),
        _ => *time = rng.one_of([0, 1, TIME_LIMIT]),
    }
}

/// One fault. It may happen to be none.
fn damage(rng: &mut Rng, numbers: &mut Numbers) {
    let count = numbers.relations.len() / NUMBERS;
    match rng.below(23) {
        0 => numbers.events = rng.one_of([0, 65, 127, 128, 256, usize::MAX]),
        // Right again in 7, 8 and 32 bits.
        1 => {
            let more = rng.one_of([128, 256, 4_294_967_296]);
            numbers.events = numbers.events.saturating_add(more);
        }
        2 => {
            // Past the limit by one, or right again in 9 bits.
            let wanted = rng.one_of([257, 257, 512 + count]);
            let sound = numbers_of(&super::relation(3, 0, 0, None));
            let missing = wanted.saturating_sub(count);
            numbers.relations.extend(sound.repeat(missing));
        }
        3 => {
            numbers.classes.pop();
        }
        4 => numbers.classes.push(rng.one_of([0, 0x80, 0xC0])),
        5 => {
            let fewer = numbers.relations.len().saturating_sub(rng.between(1, 4));
            numbers.relations.truncate(fewer);
        }
        6 => {
            let more = rng.between(1, 4);
            numbers.relations.extend((0..more).map(|_| rng.word()));
        }
        7 | 8 => {
            let event = rng.below(numbers.classes.len());
            let spare = rng.one_of([1, 2, 4, 8, 16, 32, 63]);
            if let Some(class) = numbers.classes.get_mut(event) {
                *class |= spare;
            }
        }
        9 | 10 => numbers.firm = rng.one_of([2, 128, 256, 2_147_483_648, u32::MAX]),
        11 => numbers.firm = too_wide(rng, numbers.firm, 1),
        _ => {
            let place = NUMBERS * rng.below(count);
            if let Some(relation) = numbers.relations.get_mut(place..place + NUMBERS) {
                damage_relation(rng, numbers.events, relation);
            }
        }
    }
}

/// The numbers of a sound table, damaged in so many of a hundred cases.
fn some_numbers(rng: &mut Rng, damaged_percent: usize) -> Numbers {
    let table = sound_pair(rng).table;
    let used: &[Relation] = &table.relations[..table.count];
    let mut numbers = Numbers {
        events: table.events,
        firm: u32::from(table.firm),
        classes: class_bytes(&table, table.events),
        relations: used.iter().flat_map(numbers_of).collect(),
    };
    if rng.chance(damaged_percent) {
        // Often two faults, to ask for the order of refusals.
        for _ in 0..rng.one_of([1, 1, 2]) {
            damage(rng, &mut numbers);
        }
    }
    numbers
}

pub fn build_table_case(rng: &mut Rng) -> Case {
    let numbers = some_numbers(rng, 55);
    let room = room_for_table(numbers.events, numbers.relations.len() / NUMBERS);
    Case::BuildTable {
        events: numbers.events,
        firm: numbers.firm,
        classes: numbers.classes,
        relations: numbers.relations,
        buffer: some_buffer(rng, room),
    }
}

pub fn tell_relation_case(rng: &mut Rng) -> Case {
    let table = sound_pair(rng).table;
    let places = match rng.below(6) {
        0 => rng.below(NUMBERS),
        1 => NUMBERS + rng.below(9),
        _ => NUMBERS,
    };
    Case::TellRelation {
        image: some_table_image(rng, &table, 40),
        relation: some_number(rng, table.count),
        places: (0..places).map(|_| rng.word()).collect(),
    }
}

pub fn tell_class_case(rng: &mut Rng) -> Case {
    let table = sound_pair(rng).table;
    Case::TellClass {
        image: some_table_image(rng, &table, 40),
        event: some_number(rng, table.events),
        place: rng.byte(),
    }
}
