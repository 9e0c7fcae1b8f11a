//! Judging decoded values as the reader would judge their image. To judge is
//! to understand: each rule either yields the meaning or the refusal number.

use crate::decoded::{Marking, Record, Relation, Table, MOST_EVENTS, MOST_RELATIONS, TIME_LIMIT};
use crate::event_set;
use crate::process::{Deadline, EventState, Happened, Link, Meaning, Process, State};
use crate::refusal::{BOUNDED_AND_TIME, COUNTS, DONE, KIND, LEFT_OR_RIGHT, LENGTH, RECORD};
use std::num::NonZeroU32;

/// The refusal of a result, `DONE` if there is none.
fn number_of<T>(result: Result<T, u8>) -> u8 {
    match result {
        Ok(_) => DONE,
        Err(number) => number,
    }
}

pub fn judge_event_count(events: usize) -> Result<(), u8> {
    if (1..=MOST_EVENTS).contains(&events) {
        Ok(())
    } else {
        Err(COUNTS)
    }
}

pub fn judge_counts(events: usize, relations: usize) -> Result<(), u8> {
    judge_event_count(events)?;
    if relations <= MOST_RELATIONS {
        Ok(())
    } else {
        Err(COUNTS)
    }
}

pub fn understand_relation(events: usize, relation: &Relation) -> Result<Link, u8> {
    if !(1..=5).contains(&relation.kind) {
        return Err(KIND);
    }
    let left = usize::from(relation.left);
    let right = usize::from(relation.right);
    if left >= events || right >= events {
        return Err(LEFT_OR_RIGHT);
    }
    let meaning = match (relation.kind, relation.bounded, relation.time) {
        (1, true, time @ 0..=TIME_LIMIT) => Meaning::Condition { time },
        (2, true, time @ 1..=TIME_LIMIT) => Meaning::Response(Deadline::Within(time)),
        (2, false, 0) => Meaning::Response(Deadline::Eventually),
        (3, false, 0) => Meaning::Includes,
        (4, false, 0) => Meaning::Excludes,
        (5, false, 0) => Meaning::Milestone,
        _ => return Err(BOUNDED_AND_TIME),
    };
    Ok(Link {
        left,
        right,
        meaning,
    })
}

pub fn understand_record(record: &Record) -> Result<EventState, u8> {
    // No count means never, so only an event that has happened has one.
    let count = NonZeroU32::new(record.count);
    let happened = match (record.happened, record.age, count) {
        (false, 0, None) => None,
        (true, age @ 0..=TIME_LIMIT, Some(count)) => Some(Happened { age, count }),
        _ => return Err(RECORD),
    };
    let pending = match (record.pending, record.bounded, record.deadline) {
        (false, false, 0) => None,
        (true, false, 0) => Some(Deadline::Eventually),
        (true, true, ticks @ 0..=TIME_LIMIT) => Some(Deadline::Within(ticks)),
        _ => return Err(RECORD),
    };
    Ok(EventState {
        happened,
        included: record.included,
        pending,
    })
}

pub fn understand_table(table: &Table) -> Result<Process, u8> {
    judge_counts(table.events, table.count)?;
    let mut relations = Vec::new();
    for relation in table.relations.iter().take(table.count) {
        relations.push(understand_relation(table.events, relation)?);
    }
    Ok(Process {
        events: table.events,
        controllable: event_set::from_word(table.controllable, table.events),
        causable: event_set::from_word(table.causable, table.events),
        relations,
        firm: table.firm,
    })
}

pub fn understand_marking(events: usize, marking: &Marking) -> Result<State, u8> {
    judge_event_count(events)?;
    if marking.events != events {
        return Err(LENGTH);
    }
    let mut of = Vec::new();
    for record in marking.records.iter().take(events) {
        of.push(understand_record(record)?);
    }
    Ok(State { of })
}

/// The table first, then the marking against the table's event count.
pub fn understand(table: &Table, marking: &Marking) -> Result<(Process, State), u8> {
    let process = understand_table(table)?;
    let state = understand_marking(process.events, marking)?;
    Ok((process, state))
}

pub fn judge_table(table: &Table) -> u8 {
    number_of(understand_table(table))
}

/// `events` is the event count of the table the marking is to go with.
pub fn judge_marking(events: usize, marking: &Marking) -> u8 {
    number_of(understand_marking(events, marking))
}
