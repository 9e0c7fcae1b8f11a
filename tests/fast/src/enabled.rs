//! Enabled events, what holds an event up, and margins.

use crate::decoded::{Marking, Record, Relation, Table};
use crate::judge::{judge, judge_event};

/// The relation stops its left event where its right event, which has this record, is
/// included.
#[inline]
fn waits(k: &Relation, r: &Record) -> bool {
    match k.kind {
        1 => !r.happened || r.age < k.time,
        5 => r.pending,
        _ => false,
    }
}

/// The relation stops its left event.
#[inline]
pub(crate) fn stops(k: &Relation, m: &Marking) -> bool {
    let r = m.of(k.right);
    r.included && waits(k, r)
}

pub fn enabled(t: &Table, m: &Marking, event: usize) -> Result<bool, u8> {
    judge_event(t, m, event)?;
    let event = event as u8;
    let stopped = || t.used().iter().any(|k| k.left == event && stops(k, m));
    Ok(m.of(event).included && !stopped())
}

#[derive(Clone, Copy, PartialEq, Eq, Debug)]
pub enum HoldUp {
    Enabled,
    EnabledUnless(usize),
    Excluded,
    Blocked(usize),
}

/// Of an included event. One pass: the lowest relation that would stop it is kept in
/// mind while one is looked for that does.
#[inline]
fn first_blocking(t: &Table, m: &Marking, event: u8) -> HoldUp {
    let mut unless = None;
    for (number, k) in t.used().iter().enumerate() {
        if k.left != event {
            continue;
        }
        let r = m.of(k.right);
        if waits(k, r) {
            if r.included {
                return HoldUp::Blocked(number);
            }
            unless = unless.or(Some(number));
        }
    }
    unless.map_or(HoldUp::Enabled, HoldUp::EnabledUnless)
}

pub fn hold_up(t: &Table, m: &Marking, event: usize) -> Result<HoldUp, u8> {
    judge_event(t, m, event)?;
    let event = event as u8;
    if !m.of(event).included {
        return Ok(HoldUp::Excluded);
    }
    Ok(first_blocking(t, m, event))
}

/// Of a condition whose right event is excluded: its margin if that were included.
#[derive(Clone, Copy, PartialEq, Eq, Debug)]
pub enum Rest {
    Never,
    By(i32),
}

#[derive(Clone, Copy, PartialEq, Eq, Debug)]
pub enum Margin {
    NotACondition,
    Ignored(Rest),
    Never,
    By(i32),
}

pub fn margin(t: &Table, m: &Marking, relation: usize) -> Result<Margin, u8> {
    judge(t, m)?;
    let k = t.used().get(relation).ok_or(8)?;
    if k.kind != 1 {
        return Ok(Margin::NotACondition);
    }
    let r = m.of(k.right);
    let ticks = r.age as i32 - k.time as i32;
    Ok(match (r.included, r.happened) {
        (true, true) => Margin::By(ticks),
        (true, false) => Margin::Never,
        (false, true) => Margin::Ignored(Rest::By(ticks)),
        (false, false) => Margin::Ignored(Rest::Never),
    })
}
