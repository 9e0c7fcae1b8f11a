//! Cases of quiet ticks: dates near and far, of included events and of excluded ones.

use super::shape;
use super::sleep::{date_unused_places, set_date, up_to};
use super::{damage, damage_pair, pair_to_check};
use crate::case::{Case, Pair};
use crate::decoded::{Marking, Record, TIME_LIMIT};
use crate::rng::Rng;
use crate::sleep::LONGEST_SLEEP;

const LONGEST: u32 = LONGEST_SLEEP as u32;

/// The nearest date of an included event. Ticks are counted one by one here, so far
/// dates are rare.
fn some_date(rng: &mut Rng) -> u32 {
    match rng.below(80) {
        0..=2 => LONGEST - 1,
        3..=5 => LONGEST,
        6..=8 => LONGEST + 1,
        9 => rng.between(LONGEST as usize, TIME_LIMIT as usize) as u32,
        10 => TIME_LIMIT,
        11 | 12 => rng.between(10_000, LONGEST as usize) as u32,
        13..=22 => 1,
        23..=50 => up_to(rng, 12),
        _ => up_to(rng, 2_000),
    }
}

fn at_or_after(rng: &mut Rng, date: u32) -> u32 {
    let later = match rng.below(5) {
        0 | 1 => date,
        2 => date + 1,
        3 => date.saturating_add(up_to(rng, 300)),
        _ => TIME_LIMIT,
    };
    later.min(TIME_LIMIT)
}

/// Some event has this date, and no included event a nearer one.
fn nothing_before(rng: &mut Rng, marking: &mut Marking, date: u32) {
    let first = rng.below(marking.events);
    for (event, record) in marking.records[..marking.events].iter_mut().enumerate() {
        if event == first {
            record.included = true;
            set_date(record, date);
        } else if record.bounded && record.included {
            record.deadline = at_or_after(rng, date);
        } else if record.bounded {
            let near = up_to(rng, date);
            record.deadline = rng.one_of([0, near, near, date, TIME_LIMIT]);
        }
    }
}

/// Nothing is pending, or only eventually, or only what is excluded.
fn take_dates(rng: &mut Rng, marking: &mut Marking) {
    let way = rng.below(4);
    for record in marking.records[..marking.events].iter_mut() {
        let way = if way < 3 { way } else { rng.below(3) };
        match way {
            0 => *record = without_date(record, false),
            1 => *record = without_date(record, record.pending),
            _ => record.included &= !record.bounded,
        }
    }
}

fn without_date(record: &Record, pending: bool) -> Record {
    Record {
        pending,
        bounded: false,
        deadline: 0,
        ..*record
    }
}

pub fn quiet_case(rng: &mut Rng) -> Case {
    // What is due is often due at once, and the check often rejects.
    if rng.chance(30) {
        return Case::Quiet {
            pair: pair_to_check(rng),
        };
    }
    let (mut table, mut marking) = shape::shaped(rng);
    if rng.chance(25) {
        take_dates(rng, &mut marking);
    } else {
        let date = some_date(rng);
        nothing_before(rng, &mut marking, date);
    }
    if rng.flag() {
        damage::fill_unused_places(rng, &mut table, &mut marking);
        date_unused_places(rng, &mut marking);
    }
    let mut pair = Pair {
        table: Box::new(table),
        marking: Box::new(marking),
    };
    if rng.chance(12) {
        damage_pair(rng, &mut pair);
    }
    Case::Quiet { pair }
}
