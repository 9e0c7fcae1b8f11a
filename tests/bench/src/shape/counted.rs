//! What a case has to do with counts: at which one an event is executed, a count
//! that disagrees with happened, and the old image that is carried over.

use super::executed;
use second::case::{Answer, Case, Pair};
use second::{judge_marking, Marking, Record, OLD_RECORD_BYTES, RECORD_BYTES};

const HOLD: u32 = u32::MAX;

/// The counts at which events are executed, one of them perhaps more than once.
pub fn of_executed(case: &Case, answer: &Answer, pair: &Pair) -> Vec<&'static str> {
    let mut next = pair.marking.records.map(|record| record.count);
    let mut counts = Vec::new();
    for event in executed(case, answer) {
        counts.push(next[event]);
        next[event] = next[event].saturating_add(1);
    }
    let some = |fits: fn(u32) -> bool| counts.iter().any(|&count| fits(count));
    let shapes = [
        ("executed for the first time", some(|count| count == 0)),
        ("executed again", some(|count| count > 0)),
        ("executed one below the hold", some(|c| c == HOLD - 1)),
        ("executed at the hold", some(|count| count == HOLD)),
    ];
    let there = shapes.into_iter().filter(|shape| shape.1);
    there.map(|shape| shape.0).collect()
}

/// The marking with counts that agree.
fn mended(marking: &Marking) -> Marking {
    let mut mended = *marking;
    for record in mended.records.iter_mut() {
        record.count = u32::from(record.happened);
    }
    mended
}

/// Of a marking that is refused with 7: whether for nothing but its counts.
pub fn of_refused(marking: &Marking) -> Vec<&'static str> {
    if judge_marking(marking.events, &mended(marking)) != 0 {
        return Vec::new();
    }
    let used = &marking.records[..marking.events];
    let some = |wrong: fn(&Record) -> bool| used.iter().any(wrong);
    let shapes = [
        (
            "only wrong: happened, count 0",
            some(|record| record.happened && record.count == 0),
        ),
        (
            "only wrong: a count, not happened",
            some(|record| !record.happened && record.count > 0),
        ),
    ];
    let there = shapes.into_iter().filter(|shape| shape.1);
    there.map(|shape| shape.0).collect()
}

/// Of an old image, and the buffer lent for the new one.
pub fn of_carried(events: usize, old: &[u8], buffer: &[u8], number: u8) -> Vec<&'static str> {
    let counted = (1..65).contains(&events);
    let length = RECORD_BYTES * events.min(65);
    let mut records = old.chunks(OLD_RECORD_BYTES);
    let shapes = [
        (
            "has happened events",
            number == 0 && records.any(|record| record[0] >= 128),
        ),
        ("room exact", number == 0 && buffer.len() == length),
        ("room to spare", number == 0 && buffer.len() > length),
        ("one byte short", number == 14 && buffer.len() + 1 == length),
        (
            "room for the old form alone",
            number == 14 && buffer.len() == old.len(),
        ),
        (
            "a fault and too short",
            counted && [1, 7].contains(&number) && buffer.len() < length,
        ),
        (
            "as long as an image of today",
            counted && number == 1 && old.len() == length,
        ),
    ];
    let there = shapes.into_iter().filter(|shape| shape.1);
    there.map(|shape| shape.0).collect()
}
