//! The cases at the limits, the same in every run: each count, time and length
//! at its limit and one past it, each spare bit, each field of a relation and of
//! a record at each of its limits, faults where no call looks, and two faults at
//! once, whose order decides the number; firm tables and tables that are not;
//! excluded events that might return; chains of events that wait for each other; events
//! of both classes that happen; and sleeps of many ticks.

mod carrying;
mod chain;
mod counted;
mod firm;
pub mod happening;
mod nights;
mod quiet;
mod returned;
mod sleep;

pub use carrying::carry_marking;
pub use chain::chain;
pub use firm::remedies;
pub use quiet::quiet;
pub use sleep::sleep;

use crate::full;
use second::case::{Case, Pair};
use second::generate::{marking_image, table_image};
use second::{Marking, Record, Relation, Step, Table, RECORD_BYTES};

const LIMIT: u32 = 1_000_000_000;

/// Times, ages and deadlines. The last four fit no image.
const TIMES: [u32; 10] = [
    0,
    1,
    LIMIT - 1,
    LIMIT,
    LIMIT + 1,
    (1 << 30) - 1,
    1 << 30,
    (1 << 31) - 1,
    1 << 31,
    u32::MAX,
];
const TIMES_OF_AN_IMAGE: &[u32] = TIMES.split_at(6).0;

/// So many records as the last ones ask have a length that 64 bits do not hold, and
/// cut to them some have the length of no record or of one.
const EVENT_COUNTS: [usize; 20] = [
    0,
    1,
    2,
    63,
    64,
    65,
    66,
    127,
    128,
    255,
    256,
    257,
    1 << 16,
    (1 << 32) + 1,
    1 << 61,
    (1 << 61) + 1,
    1 << 62,
    (1 << 62) + 1,
    1 << 63,
    usize::MAX,
];
const EVENT_COUNTS_OF_AN_IMAGE: &[usize] = EVENT_COUNTS.split_at(8).0;

const RELATION_COUNTS: [usize; 11] = [
    0,
    1,
    2,
    255,
    256,
    257,
    511,
    512,
    (1 << 16) + 1,
    (1 << 32) + 1,
    usize::MAX,
];
const RELATION_COUNTS_OF_AN_IMAGE: &[usize] = RELATION_COUNTS.split_at(7).0;

/// The last four fit no image.
const ALL_KINDS: [u8; 12] = [0, 1, 2, 3, 4, 5, 6, 7, 8, 9, 128, 255];
const KINDS_OF_AN_IMAGE: &[u8] = ALL_KINDS.split_at(8).0;

const SMALL: usize = 3;

/// Relations of every kind in turn, all sound.
fn sound_relation(number: usize, events: usize) -> Relation {
    let events = events.clamp(1, 64);
    let (kind, bounded, time) = [
        (1, true, 0),
        (2, true, LIMIT),
        (2, false, 0),
        (3, false, 0),
        (4, false, 0),
        (5, false, 0),
        (1, true, LIMIT),
        (2, true, 1),
    ][number % 8];
    Relation {
        kind,
        left: (number % events) as u8,
        right: (number * 7 % events) as u8,
        bounded,
        time,
    }
}

fn table(events: usize, count: usize) -> Table {
    let mut table = Table::EMPTY;
    table.events = events;
    table.count = count;
    table.controllable = 0x9249_2492_4924_9249;
    table.causable = 0xDB6D_B6DB_6DB6_DB6D;
    for (number, place) in table.relations.iter_mut().enumerate().take(count) {
        *place = sound_relation(number, events);
    }
    table
}

/// Records of every sound shape in turn.
fn sound_record(event: usize) -> Record {
    Record {
        age: [0, 0, 5, LIMIT][event % 4],
        deadline: [0, LIMIT, 0, 0, 7][event % 5],
        happened: event % 4 >= 2,
        included: event % 3 != 0,
        pending: event % 5 != 0,
        bounded: event % 5 == 1 || event % 5 == 4,
        count: [0, 0, event as u32, u32::MAX][event % 4],
    }
}

fn marking(events: usize) -> Marking {
    let mut marking = Marking::EMPTY;
    marking.events = events;
    for (event, place) in marking.records.iter_mut().enumerate().take(events) {
        *place = sound_record(event);
    }
    marking
}

fn flipped(image: &[u8], bit: usize) -> Vec<u8> {
    let mut image = image.to_vec();
    image[bit / 8] ^= 0x80 >> (bit % 8);
    image
}

fn resized(image: &[u8], length: usize) -> Vec<u8> {
    let mut image = image.to_vec();
    image.resize(length, 0);
    image
}

/// Shorter and longer by one byte and by one unit, and as it is.
fn lengths_about(length: usize, unit: usize) -> [usize; 5] {
    [
        length.saturating_sub(unit),
        length.saturating_sub(1),
        length,
        length + 1,
        length + unit,
    ]
}

/// The header's bits behind firm.
const HEADER_SPARE: [usize; 15] = [17, 18, 19, 20, 21, 22, 23, 24, 25, 26, 27, 28, 29, 30, 31];

fn spare_bits(events: usize, relations: usize) -> Vec<usize> {
    let classes = (0..events).flat_map(|event| (2..8).map(move |bit| 32 + 8 * event + bit));
    let end = 32 + 8 * events;
    let ends = (0..relations).flat_map(|number| (46..48).map(move |bit| end + 48 * number + bit));
    HEADER_SPARE
        .into_iter()
        .chain(classes)
        .chain(ends)
        .collect()
}

/// Every kind, bounded and not, with each of the times.
fn relations_by_kind(kinds: &[u8], times: &[u32]) -> Vec<Relation> {
    let mut all = Vec::new();
    for &kind in kinds {
        for bounded in [false, true] {
            for &time in times {
                all.push(Relation {
                    kind,
                    left: 1,
                    right: 2,
                    bounded,
                    time,
                });
            }
        }
    }
    all
}

/// Tables whose last relation has each left and right about the event count.
fn tables_by_ends(ends: &[u8]) -> Vec<Table> {
    let mut all = Vec::new();
    for events in [1, 2, 63, 64] {
        let ends = [ends, &[0, events as u8 - 1, events as u8]].concat();
        for &left in &ends {
            for &right in &ends {
                let mut table = table(events, SMALL);
                table.relations[SMALL - 1].left = left;
                table.relations[SMALL - 1].right = right;
                all.push(table);
            }
        }
    }
    all
}

fn tables_with_last(relations: Vec<Relation>) -> Vec<Table> {
    relations
        .into_iter()
        .map(|relation| {
            let mut table = table(SMALL, SMALL);
            table.relations[SMALL - 1] = relation;
            table
        })
        .collect()
}

/// Every flag set and not, with each age and each deadline; the count is that of
/// happened.
fn records(times: &[u32]) -> Vec<Record> {
    let mut all = Vec::new();
    for flags in 0..16 {
        for &age in times {
            for &deadline in times {
                all.push(Record {
                    age,
                    deadline,
                    happened: flags & 1 != 0,
                    included: flags & 2 != 0,
                    pending: flags & 4 != 0,
                    bounded: flags & 8 != 0,
                    count: 3 * (flags & 1),
                });
            }
        }
    }
    all
}

fn markings_with_last(records: Vec<Record>) -> Vec<Marking> {
    records
        .into_iter()
        .map(|record| {
            let mut marking = marking(SMALL);
            marking.records[SMALL - 1] = record;
            marking
        })
        .collect()
}

const BAD_RECORD: Record = Record {
    age: 1,
    ..Record::EMPTY
};

/// Markings with one bad record: at used places, and at unused ones, where no
/// call looks.
fn markings_with_one_bad() -> Vec<Marking> {
    let mut all = Vec::new();
    for events in [1, 2, 63, 64] {
        for place in [0, 1, events - 1, events, 63] {
            let mut marking = marking(events);
            if let Some(record) = marking.records.get_mut(place) {
                *record = BAD_RECORD;
            }
            all.push(marking);
        }
    }
    all
}

type TableFault = fn(&mut Table);

/// One fault for each number, at the first relation and at the second.
const TABLE_FAULTS: [TableFault; 12] = [
    |table| table.events = 0,
    |table| table.events = 65,
    |table| table.count = 257,
    |table| table.relations[0].kind = 0,
    |table| table.relations[0].left = 60,
    |table| table.relations[0].right = 60,
    |table| table.relations[0].bounded = false,
    |table| table.relations[1].kind = 6,
    |table| table.relations[1].left = 60,
    |table| table.relations[1].right = 60,
    |table| table.relations[1].time = LIMIT + 1,
    |table| table.relations[SMALL].kind = 7,
];

type ImageFault = fn(&mut Vec<u8>);

/// The image of a small table has the classes at bytes 4 to 6, and relations of
/// 6 bytes from 7 on.
const IMAGE_FAULTS: [ImageFault; 13] = [
    |image| image.truncate(3),
    |image| image.truncate(4),
    |image| image[2] |= 0x40,
    |image| image[3] |= 0x01,
    |image| image[0] &= 0x01,
    |image| image[0] = 0x83,
    |image| image[1] = 0x04,
    |image| image.truncate(image.len().saturating_sub(1)),
    |image| image.push(0),
    |image| set_bit_of(image, 4, 0x20),
    |image| set_bit_of(image, 6, 0x01),
    |image| set_bit_of(image, 12, 0x02),
    |image| set_bit_of(image, 18, 0x01),
];

fn set_bit_of(image: &mut [u8], place: usize, bit: u8) {
    if let Some(byte) = image.get_mut(place) {
        *byte |= bit;
    }
}

fn faulty_tables() -> Vec<Table> {
    let mut all = Vec::new();
    for one in TABLE_FAULTS {
        for other in TABLE_FAULTS {
            let mut table = table(SMALL, SMALL);
            one(&mut table);
            other(&mut table);
            all.push(table);
        }
    }
    all
}

/// Each fault of a table with a sound marking and the other way round; and a marking of
/// another event count.
fn faulty_pairs() -> Vec<Pair> {
    let pair_of = |table: &Table, marking: &Marking| Pair {
        table: Box::new(*table),
        marking: Box::new(*marking),
    };
    let tables = faulty_tables();
    let mut pairs: Vec<Pair> = tables.iter().map(|t| pair_of(t, &marking(SMALL))).collect();
    let markings = markings_with_one_bad();
    pairs.extend(markings.iter().map(|m| pair_of(&table(m.events, 9), m)));
    pairs.extend([1, 2, 4, 64].map(|events| pair_of(&table(SMALL, 9), &marking(events))));
    pairs
}

/// Each fault of an image after each fault of the table, and after each other.
fn faulty_images() -> Vec<Vec<u8>> {
    let mut images = Vec::new();
    for one in TABLE_FAULTS {
        let mut table = table(SMALL, SMALL);
        one(&mut table);
        images.push(table_image(&table));
    }
    for one in IMAGE_FAULTS {
        let mut image = table_image(&table(SMALL, SMALL));
        one(&mut image);
        images.push(image);
    }
    let mut all = images.clone();
    for image in images.iter().filter(|image| image.len() >= 4) {
        for other in IMAGE_FAULTS {
            let mut image = image.clone();
            other(&mut image);
            all.push(image);
        }
    }
    all
}

fn images_by_length() -> Vec<Vec<u8>> {
    let mut all = Vec::new();
    for &events in EVENT_COUNTS_OF_AN_IMAGE {
        for &count in RELATION_COUNTS_OF_AN_IMAGE {
            let image = table_image(&table(events, count));
            for length in lengths_about(image.len(), 6) {
                all.push(resized(&image, length));
            }
        }
    }
    let small = table_image(&table(SMALL, SMALL));
    all.extend((0..small.len()).map(|length| resized(&small, length)));
    all
}

fn images_by_bit() -> Vec<Vec<u8>> {
    let small = table_image(&table(SMALL, 8));
    let full = table_image(&table(64, 256));
    let mut all: Vec<Vec<u8>> = (0..8 * small.len())
        .map(|bit| flipped(&small, bit))
        .collect();
    all.extend(
        spare_bits(64, 256)
            .into_iter()
            .map(|bit| flipped(&full, bit)),
    );
    all
}

pub fn read_table() -> Vec<Case> {
    let mut tables = tables_with_last(relations_by_kind(KINDS_OF_AN_IMAGE, TIMES_OF_AN_IMAGE));
    tables.extend(tables_by_ends(&[62, 63]));
    let mut images: Vec<Vec<u8>> = tables.iter().map(table_image).collect();
    images.extend(images_by_length());
    images.extend(images_by_bit());
    images.extend(faulty_images());
    images.extend(firm::images());
    images
        .into_iter()
        .map(|bytes| Case::ReadTable { bytes })
        .collect()
}

fn read_marking_of(events: usize, bytes: Vec<u8>) -> Case {
    Case::ReadMarking { events, bytes }
}

pub fn read_marking() -> Vec<Case> {
    let mut cases = Vec::new();
    for events in EVENT_COUNTS {
        let image = marking_image(&marking(events));
        for length in lengths_about(image.len(), RECORD_BYTES) {
            cases.push(read_marking_of(events, resized(&image, length)));
        }
        cases.push(read_marking_of(events, Vec::new()));
        cases.push(read_marking_of(events, marking_image(&marking(1))));
    }
    let mut markings = markings_with_last(records(TIMES_OF_AN_IMAGE));
    markings.extend(markings_with_one_bad());
    markings.extend(counted::markings());
    for marking in &markings {
        cases.push(read_marking_of(marking.events, marking_image(marking)));
        // A wrong length and a bad record: the length comes first.
        cases.push(read_marking_of(marking.events - 1, marking_image(marking)));
    }
    let small = marking_image(&marking(SMALL));
    cases.extend((0..8 * small.len()).map(|bit| read_marking_of(SMALL, flipped(&small, bit))));
    cases
}

fn write_marking_of(marking: &Marking, length: usize) -> Case {
    Case::WriteMarking {
        marking: Box::new(*marking),
        buffer: (0..length).map(|place| 0xA5 ^ place as u8).collect(),
    }
}

pub fn write_marking() -> Vec<Case> {
    let mut cases = Vec::new();
    for events in EVENT_COUNTS {
        let marking = marking(events);
        for length in lengths_about(RECORD_BYTES * events.min(70), RECORD_BYTES) {
            cases.push(write_marking_of(&marking, length));
        }
        cases.push(write_marking_of(&marking, 0));
        cases.push(write_marking_of(&marking, RECORD_BYTES));
    }
    let mut markings = markings_with_last(records(&TIMES));
    markings.extend(counted::markings());
    for marking in &markings {
        cases.push(write_marking_of(marking, RECORD_BYTES * SMALL + 3));
    }
    for marking in markings_with_one_bad() {
        for length in lengths_about(RECORD_BYTES * marking.events, RECORD_BYTES) {
            cases.push(write_marking_of(&marking, length));
        }
    }
    cases
}

/// The length of a table's image. Past the limits of its counts it has none,
/// and a length past the limit will do.
fn image_length(table: &Table) -> usize {
    4 + table.events.min(66) + 6 * table.count.min(258)
}

fn write_table_of(table: &Table, length: usize) -> Case {
    Case::WriteTable {
        table: Box::new(*table),
        buffer: (0..length).map(|place| 0xA5 ^ place as u8).collect(),
    }
}

/// Tables with each class bit alone, and all bits set: those past the count are
/// no event's.
fn tables_by_class() -> Vec<Table> {
    let mut all = Vec::new();
    for event in 0..64 {
        let mut alone = table(64, 1);
        alone.controllable = 1 << event;
        alone.causable = !(1 << event);
        let mut every = table(event + 1, 1);
        every.controllable = u64::MAX;
        every.causable = u64::MAX;
        all.extend([alone, every]);
    }
    all
}

/// Tables with each bit of a relation's time alone.
fn tables_by_time() -> Vec<Table> {
    let times = (0..32).map(|bit| 1 << bit);
    let of = |time| Relation {
        time,
        bounded: true,
        kind: 1,
        ..Relation::EMPTY
    };
    tables_with_last(times.map(of).collect())
}

/// Sound tables whose places past the count are full.
fn tables_with_unused_full() -> Vec<Table> {
    let rubbish = Relation {
        kind: 255,
        left: 255,
        right: 255,
        bounded: true,
        time: u32::MAX,
    };
    let mut all = Vec::new();
    for count in [0, 1, 2, 254, 255, 256] {
        let mut table = table(SMALL, count);
        table.controllable = u64::MAX;
        table.relations[count..].fill(rubbish);
        all.push(table);
    }
    all
}

/// Every count and every fault, with room about the image's length: a table's
/// own number comes before that of a short buffer.
pub fn write_table() -> Vec<Case> {
    let mut cases = Vec::new();
    for events in EVENT_COUNTS {
        for table in RELATION_COUNTS.map(|count| table(events, count)) {
            for length in lengths_about(image_length(&table), 6) {
                cases.push(write_table_of(&table, length));
            }
        }
    }
    let mut tables = faulty_tables();
    tables.extend(tables_with_unused_full());
    tables.extend(firm::tables());
    for table in &tables {
        for length in lengths_about(image_length(table), 6) {
            cases.push(write_table_of(table, length));
        }
        cases.push(write_table_of(table, 0));
    }
    let mut tables = tables_with_last(relations_by_kind(&ALL_KINDS, &TIMES));
    tables.extend(tables_by_ends(&[62, 63, 64, 65, 127, 128, 200, 255]));
    tables.extend(tables_by_class());
    tables.extend(tables_by_time());
    for table in &tables {
        cases.push(write_table_of(table, image_length(table) + 3));
    }
    cases
}

pub fn fresh() -> Vec<Case> {
    (0..300)
        .chain(EVENT_COUNTS)
        .map(|events| Case::Fresh { events })
        .collect()
}

fn judge_table_of(table: Table) -> Case {
    Case::JudgeTable {
        table: Box::new(table),
    }
}

pub fn judge_table() -> Vec<Case> {
    let mut tables = tables_with_last(relations_by_kind(&ALL_KINDS, &TIMES));
    tables.extend(tables_by_ends(&[62, 63, 64, 65, 127, 128, 200, 255]));
    tables.extend(faulty_tables());
    tables.extend(firm::tables());
    for events in EVENT_COUNTS {
        tables.extend(RELATION_COUNTS.map(|count| table(events, count)));
    }
    for count in [0, 1, 2, 254, 255, 256] {
        for place in [0, 1, 254, 255] {
            let mut table = table(64, count);
            table.relations[place].kind = 9;
            tables.push(table);
        }
    }
    tables.into_iter().map(judge_table_of).collect()
}

fn judge_marking_of(events: usize, marking: Marking) -> Case {
    Case::JudgeMarking {
        events,
        marking: Box::new(marking),
    }
}

pub fn judge_marking() -> Vec<Case> {
    let mut cases = Vec::new();
    for events in EVENT_COUNTS {
        for own in EVENT_COUNTS {
            let mut marking = marking(own);
            cases.push(judge_marking_of(events, marking));
            marking.records[0] = BAD_RECORD;
            cases.push(judge_marking_of(events, marking));
        }
    }
    let mut markings = markings_with_last(records(&TIMES));
    markings.extend(markings_with_one_bad());
    markings.extend(counted::markings());
    cases.extend(
        markings
            .into_iter()
            .map(|marking| judge_marking_of(marking.events, marking)),
    );
    cases
}

/// None, all, each event alone, each with all above it, each with all below it.
fn sets() -> Vec<u64> {
    let mut all = vec![0];
    for event in 0..64 {
        let alone = 1u64 << event;
        all.extend([alone, u64::MAX << event, alone - 1 + alone]);
    }
    all
}

pub fn size() -> Vec<Case> {
    sets().into_iter().map(|set| Case::Size { set }).collect()
}

pub fn lowest() -> Vec<Case> {
    sets().into_iter().map(|set| Case::Lowest { set }).collect()
}

/// The pairs of the most events and relations, with each number asked about.
fn full_cases(asked: &[usize], case: impl Fn(Pair, usize) -> Case) -> Vec<Case> {
    let pairs = full::pairs().into_iter();
    pairs
        .flat_map(|pair| asked.iter().map(move |&number| (pair.clone(), number)))
        .map(|(pair, number)| case(pair, number))
        .collect()
}

const EVENTS_ASKED: [usize; 6] = [0, 1, 40, 63, 64, usize::MAX];
const RELATIONS_ASKED: [usize; 8] = [0, 1, 62, 125, 189, 255, 256, usize::MAX];

pub fn enabled() -> Vec<Case> {
    let mut cases = full_cases(&EVENTS_ASKED, |pair, event| Case::Enabled { pair, event });
    cases.extend(returned::enabled());
    cases
}

pub fn happen() -> Vec<Case> {
    let mut cases = full_cases(&EVENTS_ASKED, |pair, event| Case::Happen { pair, event });
    cases.extend(counted::happens());
    cases.extend(firm::happens());
    cases.extend(happening::cases());
    cases
}

pub fn hold_up() -> Vec<Case> {
    let mut cases = full_cases(&EVENTS_ASKED, |pair, event| Case::HoldUp { pair, event });
    cases.extend(returned::hold_ups());
    cases
}

pub fn margin() -> Vec<Case> {
    let mut cases = full_cases(&RELATIONS_ASKED, |pair, relation| Case::Margin {
        pair,
        relation,
    });
    cases.extend(returned::margins());
    cases
}

/// The judging that every call of the engine does first is asked here: each
/// table of `judge_table` with a sound marking, each marking of `judge_marking`
/// with a sound table.
pub fn due() -> Vec<Case> {
    let of = |table: &Table, marking: &Marking| Case::Due {
        pair: Pair {
            table: Box::new(*table),
            marking: Box::new(*marking),
        },
    };
    let mut cases = full_cases(&[0], |pair, _| Case::Due { pair });
    for case in judge_table().iter().chain(&judge_marking()) {
        match case {
            Case::JudgeTable { table: t } => cases.push(of(t, &marking(t.events))),
            Case::JudgeMarking { events, marking } => cases.push(of(&table(*events, 9), marking)),
            _ => {}
        }
    }
    cases
}

pub fn plain_tick() -> Vec<Case> {
    let mut cases = full_cases(&[0], |pair, _| Case::PlainTick { pair });
    cases.extend(counted::plain_ticks());
    cases
}

pub fn closure() -> Vec<Case> {
    full_cases(&[0], |pair, _| Case::Closure { pair })
}

pub fn check() -> Vec<Case> {
    full_cases(&[0], |pair, _| Case::Check { pair })
}

pub fn guarded_tick() -> Vec<Case> {
    let mut cases = full_cases(&[0], |pair, _| Case::GuardedTick { pair });
    cases.extend(counted::guarded_ticks());
    cases.extend(firm::guarded_ticks());
    cases
}

/// Each trace has a byte more than its answers need.
fn traces() -> impl Iterator<Item = (Pair, Vec<Step>, Vec<u8>)> {
    let all = counted::traces().chain(firm::traces());
    all.chain(happening::traces()).map(|(pair, steps)| {
        let answers = vec![0xA5; steps.len() + 1];
        (pair, steps, answers)
    })
}

pub fn run() -> Vec<Case> {
    traces()
        .map(|(pair, steps, answers)| Case::Run {
            pair,
            steps,
            answers,
        })
        .collect()
}

pub fn run_bytes() -> Vec<Case> {
    traces()
        .map(|(pair, steps, answers)| Case::RunBytes {
            pair,
            steps: steps.iter().flat_map(|s| [s.kind, s.event]).collect(),
            answers,
        })
        .collect()
}

#[cfg(test)]
mod tests {
    use super::*;
    use crate::calls::CALLS;
    use std::collections::BTreeSet;

    /// The numbers that a call's cases at the limits give.
    fn numbers(cases: Vec<Case>) -> Vec<u8> {
        let numbers: BTreeSet<u8> = cases.iter().map(|case| case.answer().number()).collect();
        numbers.into_iter().collect()
    }

    #[test]
    fn every_number_comes_up_at_the_limits() {
        assert_eq!(numbers(read_table()), [0, 1, 2, 3, 4, 5, 6]);
        assert_eq!(numbers(read_marking()), [0, 1, 3, 7]);
        assert_eq!(numbers(write_marking()), [0, 3, 7, 14]);
        assert_eq!(numbers(write_table()), [0, 3, 4, 5, 6, 14]);
        assert_eq!(numbers(fresh()), [0, 3]);
        assert_eq!(numbers(judge_table()), [0, 3, 4, 5, 6]);
        assert_eq!(numbers(judge_marking()), [0, 1, 3, 7]);
        assert_eq!(numbers(carry_marking()), [0, 1, 3, 7, 14]);
        assert_eq!(numbers(chain()), [0, 1, 3, 4, 5, 6, 7, 8, 14]);
        assert_eq!(numbers(happen()), [0, 3, 8, 10]);
        assert_eq!(numbers(sleep()), [0, 1, 3, 4, 5, 6, 7, 12, 14]);
        assert_eq!(numbers(quiet()), [0, 1, 3, 4, 5, 6, 7]);
    }

    #[test]
    fn each_spare_bit_alone_is_refused() {
        let full = table_image(&table(64, 256));
        for bit in spare_bits(64, 256) {
            let bytes = flipped(&full, bit);
            assert_eq!(Case::ReadTable { bytes }.answer().number(), 2, "bit {bit}");
        }
    }

    #[test]
    fn the_sound_values_are_sound() {
        assert_eq!(judge_table_of(table(64, 256)).answer().number(), 0);
        assert_eq!(judge_marking_of(64, marking(64)).answer().number(), 0);
    }

    /// Each number that a table of these cases gives is given in too short a
    /// buffer as well.
    #[test]
    fn a_short_buffer_comes_last() {
        let mut seen = BTreeSet::new();
        for case in write_table() {
            let Case::WriteTable { table, buffer } = &case else {
                panic!("{} is another call", case.name());
            };
            let judged = judge_table_of(**table).answer().number();
            let short = buffer.len() < image_length(table);
            let expected = if judged == 0 && short { 14 } else { judged };
            assert_eq!(case.answer().number(), expected);
            if short {
                seen.insert(judged);
            }
        }
        assert_eq!(Vec::from_iter(seen), [0, 3, 4, 5, 6]);
    }

    #[test]
    fn a_payload_fits_its_room() {
        for call in &CALLS {
            for case in (call.edges)() {
                assert!(crate::wire::payload(&case).len() <= crate::wire::MOST_PAYLOAD);
            }
        }
    }
}
