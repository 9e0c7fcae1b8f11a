//! Judging decoded values as the reader would judge their image.

use crate::decoded::{Marking, Record, Relation, Table, TIME_LIMIT};

#[inline]
pub(crate) fn relation_number(events: usize, k: &Relation) -> u8 {
    if !(1..=5).contains(&k.kind) {
        return 4;
    }
    if usize::from(k.left) >= events || usize::from(k.right) >= events {
        return 5;
    }
    let fits = match (k.kind, k.bounded) {
        (1, true) => k.time <= TIME_LIMIT,
        (2, true) => k.time.wrapping_sub(1) < TIME_LIMIT,
        (1, false) | (_, true) => false,
        (_, false) => k.time == 0,
    };
    if fits {
        0
    } else {
        6
    }
}

#[inline]
pub(crate) fn record_fits(r: &Record) -> bool {
    let oldest = if r.happened { TIME_LIMIT } else { 0 };
    let latest = if r.bounded { TIME_LIMIT } else { 0 };
    r.age <= oldest
        && r.deadline <= latest
        && (r.pending || !r.bounded)
        && r.happened == (r.count > 0)
}

pub fn judge_table(t: &Table) -> u8 {
    if !(1..=64).contains(&t.events) || t.count > 256 {
        return 3;
    }
    t.used()
        .iter()
        .map(|k| relation_number(t.events, k))
        .find(|&number| number != 0)
        .unwrap_or(0)
}

/// A marking by itself.
pub(crate) fn marking_number(m: &Marking) -> u8 {
    if !(1..=64).contains(&m.events) {
        return 3;
    }
    if m.used().iter().all(record_fits) {
        0
    } else {
        7
    }
}

/// For so many events.
pub fn judge_marking(events: usize, m: &Marking) -> u8 {
    if !(1..=64).contains(&events) {
        return 3;
    }
    if m.events != events {
        return 1;
    }
    marking_number(m)
}

/// The table first, then the marking.
pub(crate) fn judge(t: &Table, m: &Marking) -> Result<(), u8> {
    match judge_table(t) {
        0 => match judge_marking(t.events, m) {
            0 => Ok(()),
            number => Err(number),
        },
        number => Err(number),
    }
}

pub(crate) fn judge_event(t: &Table, m: &Marking, event: usize) -> Result<(), u8> {
    judge(t, m)?;
    if event < t.events {
        Ok(())
    } else {
        Err(8)
    }
}
