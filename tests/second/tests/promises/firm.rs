//! What is promised of dates: in a firm table nothing moves one out but the
//! execution of its own event, in any other a response sets it anew.

use super::replay::Moment;
use super::{holds, Promise};
use second::*;

/// How many ticks a pending event has left, "eventually" more than any number.
/// None: not pending.
fn date(record: &Record) -> Option<u64> {
    match (record.pending, record.bounded) {
        (false, _) => None,
        (true, false) => Some(u64::MAX),
        (true, true) => Some(record.deadline.into()),
    }
}

/// The nearest date that an event's responses have for a target. None: it has
/// no response to it.
fn nearest(table: &Table, event: usize, target: usize) -> Option<u64> {
    table.relations[..table.count]
        .iter()
        .filter(|relation| relation.kind == 2)
        .filter(|relation| {
            usize::from(relation.left) == event && usize::from(relation.right) == target
        })
        .map(|relation| match relation.bounded {
            true => relation.time.into(),
            false => u64::MAX,
        })
        .min()
}

/// Whether a response leaves its target, as it is once the executing event was
/// cleared, with the date it has. The new deadline is none for "eventually".
pub fn keeps_its_date(table: &Table, target: &Record, new: Option<u32>) -> bool {
    let sooner = match new {
        None => false,
        Some(new) => !target.bounded || new < target.deadline,
    };
    table.firm && target.pending && !sooner
}

pub const MOVED_OUT: &str = "a firm table moves a date out";
pub const NOT_NEW: &str = "a response does not give the new date";
pub const NOT_CLEARED: &str = "the date of an executed event is not its own response's";

/// Of one execution: every date afterwards.
pub fn execution_promise(
    table: &Table,
    before: &Marking,
    event: usize,
    after: &Marking,
) -> Promise {
    for target in 0..table.events {
        let had = date(&before.records[target]);
        let has = date(&after.records[target]);
        let new = nearest(table, event, target);
        if target == event {
            holds(has == new, NOT_CLEARED)?;
        } else if new.is_none() {
            holds(has == had, "a date changes without a response")?;
        } else if table.firm && had.is_some() {
            holds(has.is_some() && has <= had, MOVED_OUT)?;
            holds(has == had.min(new), "a firm table has not the nearer date")?;
        } else {
            holds(has == new, NOT_NEW)?;
        }
    }
    Ok(())
}

/// Of a guarded tick in a firm table: what was not caused has one tick less at
/// least.
pub fn tick_promise(before: &Marking, caused: &[u8], after: &Marking) -> Promise {
    for event in (0..before.events).filter(|&event| !caused.contains(&(event as u8))) {
        let record = &before.records[event];
        if record.bounded {
            let left = u64::from(record.deadline.saturating_sub(1));
            let has = date(&after.records[event]);
            holds(has.is_some_and(|has| has <= left), MOVED_OUT)?;
        }
    }
    Ok(())
}

/// Over a sequence of steps in a firm table: an included event left with
/// deadline d is executed or excluded before the (d + 1)th tick from then passes.
pub fn dates_promise(start: &Marking, moments: &[Moment]) -> Promise {
    // The ticks that may still pass before each event.
    let mut left: [Option<u32>; 64] = [None; 64];
    watch(&mut left, start);
    for moment in moments {
        for &event in &moment.executed {
            left[event] = None;
        }
        for (event, record) in moment.marking.records[..start.events].iter().enumerate() {
            if !record.included {
                left[event] = None;
            }
            if let (Some(ticks), true) = (&mut left[event], moment.ticked) {
                holds(*ticks > 0, "a tick passes that an event had not left")?;
                *ticks -= 1;
            }
        }
        watch(&mut left, &moment.marking);
    }
    Ok(())
}

/// Adds the dates of a marking; of two, the nearer is to be kept.
fn watch(left: &mut [Option<u32>; 64], now: &Marking) {
    for (left, record) in left.iter_mut().zip(&now.records[..now.events]) {
        if record.included && record.bounded {
            let nearer = left.map_or(record.deadline, |ticks| ticks.min(record.deadline));
            *left = Some(nearer);
        }
    }
}

/// Of an image that is read: firm is the first bit behind the two counts, and
/// it is told as it was read.
pub fn read_promise(bytes: &[u8], read: &ReadTable) -> Promise {
    let [told, kept] = [0, 0xDEAD_BEEF].map(|before| {
        let mut place = before;
        (tell_firm(bytes, &mut place), place)
    });
    if read.number != 0 {
        holds(!read.table.firm, "a refused table is firm")?;
        return holds(
            told == (read.number, 0) && kept == (read.number, 0xDEAD_BEEF),
            "firm is told of a refused table",
        );
    }
    let firm = bytes[2] >= 128;
    holds(read.table.firm == firm, "firm is read wrongly")?;
    holds(
        told == (0, u32::from(firm)) && kept == told,
        "firm is not told as it was read",
    )
}
